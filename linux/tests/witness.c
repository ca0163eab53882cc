/* SPDX-License-Identifier: GPL-2.0-only */
#include "witness.h"

#include <stdint.h>
#include <stdio.h>
#include <string.h>

#include "bus.h"
#include "told.h"

/* Addresses and a bit of the data sheet, 6.4.3 to 6.4.12; a class of linux/can/error.h. */
enum { MOD = 0, SR = 2, IR = 3, ALC = 11, ECC = 12, RXERR = 14, TXERR = 15, RM = 0x01, RESTARTED = 0x100 };

static struct told told[BUS_NODES];
static unsigned wrong[BUS_NODES], by_greater, otherwise;
static char first[BUS_NODES][200];
static int looks;

static const struct bus_frame *error_after(unsigned node, size_t *place)
{
    while (*place < bus_frames(node)) {
        const struct bus_frame *frame = bus_frame(node, (*place)++);

        if (frame->kind == FRAME_ERROR && !(frame->id & RESTARTED))
            return frame;
    }
    return NULL;
}

static void note_wrong(unsigned node, const struct told *is, const struct bus_frame *frame)
{
    char text[FRAME_TEXT] = "no frame";

    if (frame != NULL)
        bus_frame_text(frame, text);
    if (wrong[node]++ == 0)
        snprintf(first[node], sizeof first[node],
                 "can%u read IR %02x SR %02x ECC %02x ALC %02x TXERR %d RXERR %d and told %s", node,
                 (unsigned)is->interrupts & 0xff, (unsigned)is->status & 0xff, (unsigned)is->ecc & 0xff,
                 (unsigned)is->alc & 0xff, is->txerr, is->rxerr, text);
}

/* One error frame for the interrupts that a read of IR told of, and none for others. */
static void judge(unsigned node)
{
    struct told *is = &told[node];
    size_t place = is->frames;
    const struct bus_frame *frame = error_after(node, &place);
    int good = told_is_good(is, frame) && (frame == NULL || error_after(node, &place) == NULL);

    if (frame != NULL && good) {
        by_greater += told_by_counter(is, frame) == 1;
        otherwise += told_by_counter(is, frame) == 2;
    }
    if (!good)
        note_wrong(node, is, frame);
    is->frames = bus_frames(node);
    if (is->restarts)
        is->state = TOLD_ACTIVE;
    else if (!good)
        is->state = TOLD_ANY;
    else if (frame != NULL && told_by_frame(frame) != TOLD_ANY)
        is->state = told_by_frame(frame);
}

static void see_read(struct told *is, unsigned address, uint8_t value)
{
    if (address == SR && is->txerr == UNREAD) {
        is->status = is->status == UNREAD ? value : is->status;
        is->last = value;
    } else if (address == ALC) {
        is->alc = value;
    } else if (address == ECC) {
        is->ecc = value;
    } else if (address == RXERR) {
        is->rxerr = value;
    } else if (address == TXERR) {
        is->txerr = value;
    }
}

/* A handler's accesses, and where the controller is taken out of reset mode. An interrupt that is read out of the
 * handler asks for no error frame. */
static void see(unsigned node, int is_write, unsigned address, uint8_t value)
{
    struct told *is = &told[node];

    if (is_write) {
        is->restarts = is->restarts || (address == MOD && !(value & RM));
    } else if (address == IR) {
        judge(node);
        *is = (struct told){ bus_handles(node) ? value : 0, UNREAD, UNREAD, UNREAD, UNREAD, UNREAD, UNREAD, is->frames,
                             is->state, 0 };
    } else if (bus_handles(node)) {
        see_read(is, address, value);
    }
}

void witness_begin(void)
{
    memset(told, 0, sizeof told);
    memset(wrong, 0, sizeof wrong);
    looks = 1;
    bus_watch(see);
}

int witness_looks(void)
{
    return looks;
}

unsigned witness_of(unsigned node, const char **text)
{
    if (looks)
        judge(node);
    told[node].interrupts = 0;
    *text = first[node];
    return wrong[node];
}

unsigned witness_end(const char *where)
{
    unsigned all = 0;

    for (unsigned node = 0; node < BUS_NODES && looks; node++) {
        const char *text;
        unsigned bad = witness_of(node, &text);

        if (bad > 0 && all == 0 && where != NULL)
            printf("  %s: %s\n", where, text);
        all += bad;
    }
    looks = 0;
    bus_watch(NULL);
    return all;
}

unsigned witness_states_by_greater(void)
{
    return by_greater;
}

unsigned witness_states_otherwise(void)
{
    return otherwise;
}
