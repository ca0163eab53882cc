/* SPDX-License-Identifier: GPL-2.0-only */
/* Places of frames: strikes that wait for theirs, and where the next frame begins. */
#include <errno.h>
#include <string.h>

#include "bus.h"
#include "sja.h"
#include "stack.h"

/* SR and two of its bits (SJA1000 data sheet, 6.4.5). A frame has begun for a node that is at the first bit behind
 * SOF. */
enum { SR = 2, RS_TS = 0x30, AIMS = 256, BEGUN = SJA_ID + 28 };

/* A strike that waits for so many frames to begin for its node, and then for its place in the last of them. */
static struct aim { unsigned node; int begins; uint32_t place, more; } aims[AIMS];
static unsigned waiting, missed;

/* A node that is in the stuffed part of a frame is at no SOF within so many bits: an error or a reset takes longer. */
enum { CALM = 11, FIRST_DATA = 18 };

/* Up to which bit each node is at no SOF. */
static uint64_t calm[BUS_NODES];

int bus_strike_at(unsigned node, unsigned frame, uint32_t place)
{
    return bus_strike_on(node, frame, place, 0);
}

int bus_strike_on(unsigned node, unsigned frame, uint32_t place, uint32_t more)
{
    if (bus_device(node) == NULL || frame == 0 || frame > INT32_MAX || waiting == AIMS)
        return -EINVAL;
    aims[waiting++] = (struct aim){ node, (int)frame - (place == SJA_SOF), place, more };
    return 0;
}

unsigned bus_missed(void)
{
    return missed;
}

void bus_forget_strikes(void)
{
    waiting = missed = 0;
    memset(calm, 0, sizeof calm);
}

/* Where each node is that a strike waits for: it is asked once. */
static void look(uint32_t places[BUS_NODES])
{
    unsigned asked = 0;

    for (unsigned i = 0; i < waiting; i++) {
        unsigned node = aims[i].node;

        if (!(asked >> node & 1)) {
            places[node] = bus_at(node);
            if (places[node] >= SJA_ID && places[node] < SJA_CRC_DELIMITER)
                calm[node] = bus_now() + CALM;
        }
        asked |= 1U << node;
    }
}

/* How many bits at least lie between ID.28 and a place: without stuff bits, in a standard frame. */
static uint32_t bits_to(uint32_t place)
{
    uint32_t own = place & 0xff;

    switch (place - own) {
    case SJA_ID: return 28 - own;
    case SJA_DLC: return FIRST_DATA - 1 - own;
    case SJA_DATA: return FIRST_DATA + 8 * (own / 10 - 1) + 7 - own % 10;
    case SJA_CRC: return FIRST_DATA + 14 - own;
    default: return 0;
    }
}

/* In how many bits at the least a strike may come to its place, of a node that is at this one. */
static uint32_t bits_before(const struct aim *aim, uint32_t place)
{
    uint32_t until_begin = calm[aim->node] > bus_now() ? (uint32_t)(calm[aim->node] - bus_now()) : 1;
    uint32_t passed = 28 - (place & 0xff), all = bits_to(aim->place);

    if (aim->begins > 0)
        return until_begin;
    if (place < SJA_ID + 18 || place > BEGUN || all <= passed)
        return 1;
    return all - passed < until_begin ? all - passed : until_begin;
}

/* Strikes the next bit of a node, and those of the 31 behind it that have a bit in `more`. */
static void strike(const struct aim *aim)
{
    for (unsigned bit = 0; bit < 32; bit++)
        if (bit == 0 || (aim->more >> bit & 1))
            bus_strike(aim->node, bus_now() + bit);
}

uint32_t seek_strike(uint32_t most)
{
    uint32_t places[BUS_NODES];
    unsigned kept = 0;

    if (waiting == 0 || most == 0)
        return most;
    look(places);
    for (unsigned i = 0; i < waiting; i++) {
        uint32_t place = places[aims[i].node];

        aims[i].begins -= place == BEGUN;
        if (aims[i].begins == 0 && place == aims[i].place)
            strike(&aims[i]);
        else if (aims[i].begins < 0)
            missed++;
        else
            aims[kept++] = aims[i];
    }
    waiting = kept;
    for (unsigned i = 0; i < waiting; i++) {
        uint32_t before = bits_before(&aims[i], places[aims[i].node]);

        most = before < most ? before : most;
    }
    return most;
}

/* Whether some controller is in a frame: RS and TS are both 1 in reset mode and while it waits for the bus. */
static int is_framed(void)
{
    for (unsigned node = 0; bus_device(node) != NULL; node++) {
        uint8_t status = bus_peek(node, SR) & RS_TS;

        if (status != 0 && status != RS_TS)
            return 1;
    }
    return 0;
}

int64_t bus_to_frame(uint32_t most)
{
    int framed = is_framed();

    for (uint32_t i = 0; i < most && bus_run(1) >= 1; i++) {
        int before = framed;

        framed = is_framed();
        if (framed && !before)
            return (int64_t)bus_now() - 1;
    }
    return -1;
}
