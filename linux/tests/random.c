/* SPDX-License-Identifier: GPL-2.0-only */
/* Three drivers that send, with strikes at random nodes in random bits: each hands over what its controller stored, and
 * its error frames are those that the controller told of. `tell` prints all that each stack got of the same runs, for a
 * comparison of two drivers. */
#include <stdio.h>

#include "check.h"
#include "judge.h"
#include "strikes.h"
#include "tests.h"
#include "witness.h"

enum { NODES = 3, RUNS = 40, BITS = 6000, LAST = 5000, QUEUE = 6 };

/* A linear congruential generator, so that each machine has the same runs. */
static uint32_t next(uint32_t *seed, uint32_t below)
{
    *seed = *seed * 1664525U + 1013904223U;
    return (*seed >> 8) % below;
}

static void fill(uint32_t *seed)
{
    char text[FRAME_TEXT];

    for (unsigned i = 0; i < QUEUE; i++)
        for (unsigned node = 0; node < NODES; node++) {
            if (next(seed, 2))
                snprintf(text, sizeof text, "%03X#%02X%06X", 0x100 + next(seed, 0x600), i, next(seed, 0x1000000));
            else
                snprintf(text, sizeof text, "%08X#R%u", next(seed, 0x1000000), 1 + next(seed, 8));
            bus_send(node, text);
        }
}

/* Strikes in this run one bit of so many, at one node more than at the others. */
static void strike(uint32_t *seed)
{
    uint32_t gap = 4 + next(seed, 60), most = next(seed, NODES);

    for (uint32_t bit = (uint32_t)bus_now() + 1; bit < LAST; bit += 1 + next(seed, gap))
        bus_strike(next(seed, 3) ? most : next(seed, NODES), bit);
}

static void print_frames(unsigned run)
{
    char text[FRAME_TEXT];

    for (unsigned node = 0; node < NODES; node++)
        for (size_t i = 0; i < bus_frames(node); i++) {
            bus_frame_text(bus_frame(node, i), text);
            printf("run %u bit %lu can%u %s\n", run, (unsigned long)bus_frame(node, i)->bit, node, text);
        }
}

/* What each run ends with, where nothing else is looked at. */
static void judge_alone(const char *where)
{
    unsigned had[NODES];

    check(witness_end(where) == 0, "%s: error frames aren't what the controller told", where);
    for (unsigned node = 0; node < NODES; node++)
        had[node] = count_kind(node, FRAME_RECEIVED);
    for (unsigned node = 0; node < NODES; node++)
        check(stored_by(node) == (long)had[node], "%s: can%u stored %ld frames and handed over %u", where, node,
              stored_by(node), had[node]);
}

static void one_run(unsigned run, int tells)
{
    uint32_t seed = run;
    char where[40];

    snprintf(where, sizeof where, "random run %u", run);
    witness_begin();
    begin_up(NODES, BITS, "bitrate 500000 berr-reporting on restart-ms 2");
    fill(&seed);
    strike(&seed);
    bus_run(BITS - 500);
    if (tells)
        print_frames(run);
    checks_at(where);
    if (!judge_is_on())
        judge_alone(where);
    end_bus();
}

void test_random(void)
{
    for (unsigned run = 0; run < RUNS; run++)
        one_run(run, 0);
    printf("  states told: %u by the greater counter, %u otherwise\n", witness_states_by_greater(),
           witness_states_otherwise());
}

void test_tell(void)
{
    for (unsigned run = 0; run < RUNS; run++)
        one_run(run, 1);
}
