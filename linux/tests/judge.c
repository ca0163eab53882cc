/* SPDX-License-Identifier: GPL-2.0-only */
#include "judge.h"

#include <string.h>

#include "check.h"
#include "stored.h"
#include "witness.h"

enum { STATE_WARNING = 1, STATE_PASSIVE = 2, LOOPBACK = 0x1, REMOTE = 0x40000000 };

static int judges = 1;

void judge_on(int is_on)
{
    judges = is_on;
}

int judge_is_on(void)
{
    return judges;
}

/* ---- the state */

static unsigned state_of(const struct bus_details *is)
{
    uint32_t most = is->txerr > is->rxerr ? is->txerr : is->rxerr;

    return most >= 128 ? STATE_PASSIVE : most >= 96 ? STATE_WARNING : 0;
}

void judge_state(unsigned node, const struct bus_details *is)
{
    if (!judges || !is->is_up || is->state > STATE_PASSIVE || bus_has_ended() || !bus_rests(node))
        return;
    check_device("state", node, is->state == state_of(is), "can%u is %s with TXERR %u and RXERR %u", node,
                 bus_state_name(is->state), (unsigned)is->txerr, (unsigned)is->rxerr);
}

/* ---- frames */

/* A DLC above 8 comes through where the receiver asks for it alone. */
int judge_is_frame(const struct bus_frame *frame, const struct bus_frame *sent)
{
    return frame->id == sent->id && frame->length == sent->length && (frame->dlc == 0 || frame->dlc == sent->dlc)
        && ((frame->id & REMOTE) || memcmp(frame->data, sent->data, frame->length) == 0);
}

/* Whether a node sent a frame. Frames come in the order in which they are sent, so the search goes on from *from. */
static int was_sent(const struct bus_frame *frame, unsigned sender, size_t *from)
{
    size_t count = bus_asked(sender);

    for (size_t i = 0; i < count; i++) {
        size_t number = (*from + i) % count;

        if (judge_is_frame(frame, bus_asked_frame(sender, number))) {
            *from = number;
            return 1;
        }
    }
    return 0;
}

/* Whether who might have sent a frame did: the node itself, of one that comes back or with loopback, or another. */
static int has_sender(const struct bus_frame *frame, unsigned node, int loops, size_t from[BUS_NODES])
{
    for (unsigned sender = 0; sender < BUS_NODES; sender++) {
        int may = frame->kind == FRAME_SENT ? sender == node : sender != node || loops;

        if (may && was_sent(frame, sender, &from[sender]))
            return 1;
    }
    return 0;
}

static void judge_frames(unsigned node, const struct bus_details *is)
{
    static const uint8_t none[8];
    size_t from[BUS_NODES] = { 0 };
    char text[FRAME_TEXT];

    for (size_t i = 0; i < bus_frames(node); i++) {
        const struct bus_frame *frame = bus_frame(node, i);

        if (frame->kind == FRAME_ERROR)
            continue;
        bus_frame_text(frame, text);
        check_bit(frame->bit);
        check_device("stranger", node, has_sender(frame, node, is->ctrlmode & LOOPBACK, from),
                     "can%u hands on %s, which no one sent", node, text);
        if (frame->kind == FRAME_RECEIVED && (frame->id & REMOTE))
            check_device("remote", node, memcmp(frame->data, none, sizeof none) == 0,
                         "can%u hands on a remote frame with data", node);
    }
}

/* The statistics are those of the frames that the stack got. */
static void judge_counts(unsigned node, const struct bus_details *is)
{
    unsigned long frames[2] = { 0, 0 }, bytes[2] = { 0, 0 };

    for (size_t i = 0; i < bus_frames(node); i++) {
        const struct bus_frame *frame = bus_frame(node, i);

        if (frame->kind == FRAME_ERROR)
            continue;
        frames[frame->kind]++;
        bytes[frame->kind] += frame->id & REMOTE ? 0 : frame->length;
    }
    check_device("counts", node, is->rx_packets == frames[FRAME_RECEIVED] && is->rx_bytes == bytes[FRAME_RECEIVED],
                 "can%u counts %lu frames of %lu bytes as received, which are %lu of %lu", node,
                 (unsigned long)is->rx_packets, (unsigned long)is->rx_bytes, frames[FRAME_RECEIVED],
                 bytes[FRAME_RECEIVED]);
    check_device("counts", node, is->tx_packets == frames[FRAME_SENT] && is->tx_bytes == bytes[FRAME_SENT],
                 "can%u counts %lu frames of %lu bytes as sent, which are %lu of %lu", node,
                 (unsigned long)is->tx_packets, (unsigned long)is->tx_bytes, frames[FRAME_SENT], bytes[FRAME_SENT]);
}

/* ---- as many as were stored */

static void judge_stored(unsigned nodes, const unsigned overruns[BUS_NODES])
{
    struct stored stored[BUS_NODES];

    if (!read_stored(nodes, stored))
        return;
    for (unsigned node = 0; node < nodes; node++) {
        long had = count_kind(node, FRAME_RECEIVED);
        int all = stored[node].unread == 0;

        check_device("stored", node, all ? had == stored[node].frames : had <= stored[node].frames,
                     "can%u stored %ld frames and handed on %ld", node, stored[node].frames, had);
        if (all)
            check_device("overruns", node, (stored[node].overruns > 0) == (overruns[node] > 0),
                         "can%u: %ld overruns, and %u told", node, stored[node].overruns, overruns[node]);
    }
}

/* Each error frame is as the registers told. */
static void judge_errors(unsigned nodes)
{
    for (unsigned node = 0; node < nodes && witness_looks(); node++) {
        const char *text;
        unsigned wrong = witness_of(node, &text);

        check_device("error_frames", node, wrong == 0, "error frames: %s", text);
    }
    witness_end(NULL);
}

void judge_bus(void)
{
    unsigned nodes = 0, overruns[BUS_NODES];
    struct bus_details is;

    if (!judges || bus_has_ended() || bus_fault() != 0)
        return;
    for (; nodes < BUS_NODES && bus_details(nodes, &is) == 0; nodes++) {
        judge_frames(nodes, &is);
        judge_counts(nodes, &is);
        overruns[nodes] = (unsigned)is.rx_over_errors;
    }
    judge_errors(nodes);
    judge_stored(nodes, overruns);
}
