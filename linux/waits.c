/* SPDX-License-Identifier: GPL-2.0-only */
/* Who waits for whom: a strand in an access, the test in front of a driver, a lock or a handler that is to end. */
#include "shim.h"

#include "axis.h"
#include "bus.h"
#include "lines.h"
#include "session.h"
#include "stack.h"
#include "strand.h"
#include "turns.h"

/* After so many bits what is waited for comes no more. */
enum { PATIENCE = 20000 };

/* The test is in the driver of a node, and waits up to a bit. */
static void wait_in_test(struct strand *strand, int node, uint64_t until)
{
    struct strand before = { .node = strand->node, .has_begun = strand->has_begun };

    if (!strand->has_begun)
        strand->node = node;
    strand->has_begun = true;
    turns_go_until(until);
    while (!strand_may_act(strand) && turns_go_until(bus_now() + 1))
        ;
    strand->node = before.node;
    strand->has_begun = before.has_begun;
}

void turns_wait(int node, uint32_t bits)
{
    struct strand *strand = strand_current();

    if (session_has_fault())
        return;
    if (!turns_others_act()) {
        bus_delay(bits);
    } else if (strand->kind == STRAND_TEST) {
        wait_in_test(strand, node, bus_now() + bits);
    } else {
        strand->until = bus_now() + bits;
        strand_give_way();
    }
}

void turns_delay(uint32_t bits)
{
    turns_wait(strand_current()->node, bits);
}

void turns_let_interrupt(void)
{
    const struct strand *strand = strand_current();

    if (axis_others() >= OTHERS_HANDLER && strand->kind != STRAND_HANDLER && strand->node >= 0
        && bus_device((unsigned)strand->node) != NULL && lines_are_due((unsigned)strand->node))
        turns_wait(strand->node, 0);
}

bool turns_until_false(const bool *gate)
{
    struct strand *strand = strand_current();
    uint64_t last = bus_now() + PATIENCE;

    if (!turns_others_act())
        return !*gate;
    if (strand->kind == STRAND_TEST)
        while (*gate && bus_now() < last && turns_go_until(bus_now() + 1))
            ;
    while (strand->kind != STRAND_TEST && *gate && bus_now() < last && !session_has_fault()) {
        strand->gate = gate;
        strand->until = last;
        strand_give_way();
        strand->gate = NULL;
    }
    return !*gate;
}

void turns_enter(unsigned node)
{
    struct strand *strand = strand_current();

    if (!turns_others_act() || strand->kind != STRAND_TEST)
        return;
    strand->node = (int)node;
    while (!strand_may_act(strand) && turns_go_until(bus_now() + 1))
        ;
    strand->has_begun = true;
}

void turns_leave(void)
{
    struct strand *strand = strand_current();

    if (strand->kind != STRAND_TEST)
        return;
    strand->node = -1;
    strand->has_begun = false;
}
