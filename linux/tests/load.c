/* SPDX-License-Identifier: GPL-2.0-only */
/* Eight drivers at full load, for 1,000,000 bits of one session without an end: each has always something to send, and
 * each frame comes once to each of the others. */
#include <stdio.h>

#include "bus.h"
#include "check.h"
#include "tests.h"

enum { DRIVERS = 8, WANTED = 1000000, SLICE = 1000, TAIL = 20000, QUEUE = 11, FEWEST = 300 };

/* How many frames each has sent, and how many each has received of each, in turn: of its own those that came back. */
static uint32_t sent[DRIVERS], received[DRIVERS][DRIVERS];
static size_t seen[DRIVERS];

/* A frame says who sends it, and which one of his it is. */
static void fill_queue(unsigned node)
{
    char text[FRAME_TEXT];

    while (details_of(node).waiting < QUEUE - 1) {
        snprintf(text, sizeof text, "%03X#%08X%02X", 0x100 + node, (unsigned)sent[node], node);
        if (bus_send(node, text) != 0)
            return;
        sent[node]++;
    }
}

/* Each frame that came is the next one of its sender. */
static void take(unsigned node)
{
    for (; seen[node] < bus_frames(node); seen[node]++) {
        const struct bus_frame *frame = bus_frame(node, seen[node]);
        unsigned from = frame->data[4];
        uint32_t number = (uint32_t)frame->data[0] << 24 | (uint32_t)frame->data[1] << 16
            | (uint32_t)frame->data[2] << 8 | frame->data[3];
        uint32_t *next = &received[node][from % DRIVERS];

        if (frame->kind == FRAME_ERROR)     /* lost arbitration */
            continue;
        check(from < DRIVERS && (from == node) == (frame->kind == FRAME_SENT) && number == *next,
              "can%u got frame %u of can%u and not %u", node, (unsigned)number, from, (unsigned)*next);
        *next = number + 1;
    }
}

/* The frames of all drivers take turns: who has sent the fewest gets the bus last, since identifiers decide. So for a
 * fair load each driver has a slice in which the ones before it are silent. How many bits were run. */
static uint32_t load(void)
{
    long before = checks_wrong();
    uint32_t run = 0;

    for (unsigned turn = 0; run < WANTED && bus_fault() == 0 && checks_wrong() == before; turn++) {
        for (unsigned node = turn % DRIVERS; node < DRIVERS; node++)
            fill_queue(node);
        run += bus_run(SLICE);
        for (unsigned node = 0; node < DRIVERS; node++)
            take(node);
    }
    return run;
}

/* At the end all that was sent is with all others, and has come back. */
void test_load(void)
{
    uint32_t run, frames = 0;

    begin_up(DRIVERS, 0, "bitrate 500000");
    run = load();
    bus_run(TAIL);
    for (unsigned node = 0; node < DRIVERS; node++)
        take(node);
    for (unsigned node = 0; node < DRIVERS; node++) {
        frames += sent[node];
        check(sent[node] >= FEWEST, "can%u sent %u frames", node, (unsigned)sent[node]);
        for (unsigned other = 0; other < DRIVERS; other++)
            check_number("frames of another", received[other][node], sent[node]);
    }
    check_number("bits at full load", run, WANTED);
    printf("  %u frames in %u bits\n", (unsigned)frames, (unsigned)run);
    end_bus();
}
