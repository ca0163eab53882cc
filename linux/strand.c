/* SPDX-License-Identifier: GPL-2.0-only */
#include "strand.h"

#include <assert.h>
#include <stdlib.h>

#include "axis.h"
#include "bus.h"

enum { STACK = 256 * 1024 };

static struct strand strands[BUS_NODES][STRAND_TEST];
static struct strand test = { .kind = STRAND_TEST, .node = -1 };
static struct strand *current = &test;

struct strand *strand_current(void)
{
    return current;
}

struct strand *strand_of(unsigned node, enum strand_kind kind)
{
    return &strands[node][kind];
}

void strand_forget(void)
{
    for (unsigned node = 0; node < BUS_NODES; node++)
        for (unsigned kind = 0; kind < STRAND_TEST; kind++) {
            strands[node][kind].kind = kind;
            strands[node][kind].node = (int)node;
            strands[node][kind].has_begun = strands[node][kind].handles = false;
        }
    test.node = -1;
    test.irqs_off = 0;
    test.has_begun = test.handles = false;
}

/* A context begins here, and ends by leaving the strand for good. */
static void run(void)
{
    current->body(current);
    current->has_begun = false;
    strand_give_way();
}

void strand_begin(struct strand *strand, void (*body)(struct strand *strand), void *what)
{
    if (strand->stack == NULL)
        strand->stack = malloc(STACK);
    assert(strand->stack != NULL && !strand->has_begun);
    strand->has_begun = true;
    strand->until = 0;
    strand->gate = NULL;
    strand->irqs_off = 0;
    strand->body = body;
    strand->what = what;
    getcontext(&strand->context);
    strand->context.uc_stack.ss_sp = strand->stack;
    strand->context.uc_stack.ss_size = STACK;
    strand->context.uc_link = NULL;
    makecontext(&strand->context, run, 0);
    strand_go_on(strand);
}

void strand_go_on(struct strand *strand)
{
    current = strand;
    swapcontext(&test.context, &strand->context);
    current = &test;
}

void strand_give_way(void)
{
    swapcontext(&current->context, &test.context);
}

bool strand_are_apart(const struct strand *one, const struct strand *other)
{
    bool sends = one->kind == STRAND_QUEUE || other->kind == STRAND_QUEUE;

    return axis_others() == OTHERS_ALL || (axis_others() == OTHERS_QUEUE && sends);
}

/* Whether a strand that has begun keeps another one of its node from acting. On one processor a handler runs to its
 * end, one of the others begins once all before it have ended, and a handler comes between where interrupts may. The
 * queue, or each strand, may have a processor of its own. */
static bool keeps(const struct strand *begun, const struct strand *other)
{
    if (strand_are_apart(begun, other))
        return false;
    if (begun->kind == STRAND_HANDLER)
        return true;
    if (other->has_begun)
        return false;
    return other->kind != STRAND_HANDLER || axis_others() < OTHERS_HANDLER || begun->irqs_off > 0;
}

bool strand_may_act(const struct strand *strand)
{
    if (test.has_begun && test.node == strand->node && &test != strand && keeps(&test, strand))
        return false;
    for (unsigned kind = 0; kind < STRAND_TEST && strand->node >= 0; kind++) {
        const struct strand *begun = &strands[strand->node][kind];

        if (begun->has_begun && begun != strand && keeps(begun, strand))
            return false;
    }
    return true;
}

bool strand_any_of(unsigned node)
{
    for (unsigned kind = 0; kind < STRAND_TEST; kind++)
        if (strands[node][kind].has_begun)
            return true;
    return false;
}

bool strand_any(void)
{
    for (unsigned node = 0; node < BUS_NODES; node++)
        if (strand_any_of(node))
            return true;
    return false;
}
