/* SPDX-License-Identifier: GPL-2.0-only */
#include "shim.h"

#include "axis.h"
#include "bus.h"
#include "lines.h"
#include "session.h"
#include "stack.h"
#include "strand.h"

/* ACCESSES is more than a handler needs that ends. Where no bit runs in it there are at most 21 messages, and sja1000.c
 * has 20 rounds of some 12 accesses beside them. */
enum { ACCESSES = 2000, ALL = 0xff, IR = 3 };

static struct {
    uint32_t open;              /* the nodes whose lines may be active: bits ran, or their registers were accessed */
    uint32_t was, rose;         /* with edges: which were active, and which rose since their handlers were called */
    uint64_t due[BUS_NODES];    /* with a latency: when a handler is called, or 0 */
} lines;

static uint32_t bit_of(unsigned node)
{
    return (uint32_t)1 << node;
}

static unsigned irq_of(unsigned node)
{
    return (unsigned)bus_device(node)->irq;
}

void lines_forget(void)
{
    memset(&lines, 0, sizeof lines);
}

static void note_rises(void)
{
    uint32_t active;

    if (!axis_has_edges())
        return;
    active = session_lines();
    lines.rose |= active & ~lines.was;
    lines.was = active;
}

void lines_ran(void)
{
    lines.open = ALL;
    note_rises();
}

void lines_accessed(unsigned node)
{
    lines.open |= bit_of(node);
    note_rises();
}

uint32_t lines_that_ask(void)
{
    uint32_t active = axis_has_edges() ? lines.rose : session_lines();

    for (unsigned node = 0; node < BUS_NODES && axis_latency() > 0; node++)
        if (!(active & bit_of(node)))
            lines.due[node] = 0;
    return active;
}

uint32_t lines_handled(void)
{
    const struct net_device *dev;
    uint32_t nodes = 0;

    for (unsigned node = 0; (dev = bus_device(node)) != NULL; node++)
        if (shim_is_handled((unsigned)dev->irq))
            nodes |= bit_of(node);
    return nodes;
}

/* Whether a handler that comes late has come. */
static bool has_come(unsigned node)
{
    if (axis_latency() == 0)
        return true;
    if (lines.due[node] == 0)
        lines.due[node] = bus_now() + axis_latency();
    return lines.due[node] <= bus_now();
}

bool lines_are_due(unsigned node)
{
    if (session_has_fault() || !(lines.open & bit_of(node)) || bus_device(node) == NULL
        || !shim_is_handled(irq_of(node)))
        return false;
    if (axis_has_edges() ? (lines.rose & bit_of(node)) != 0 : session_line(node))
        return has_come(node);
    lines.open &= ~bit_of(node);
    return false;
}

uint32_t lines_next(uint32_t most)
{
    uint64_t now = bus_now();

    for (unsigned node = 0; node < BUS_NODES && axis_latency() > 0; node++)
        if (lines.due[node] > now)
            most = min(most, (uint32_t)(lines.due[node] - now));
    return most;
}

void lines_call(unsigned node)
{
    struct strand *strand = strand_current();
    unsigned irq = irq_of(node);

    lines.due[node] = 0;
    lines.rose &= ~bit_of(node);
    strand->accesses = 0;
    strand->took = false;
    strand->handles = true;
    if (setjmp(strand->leave) != 0) {
        shim_leave_interrupt(irq);
        disable_irq_nosync(irq);
    } else if (!shim_interrupt(irq) && strand->took) {
        shim_log("bug", bus_device(node)->name, "BUG: the handler takes an interrupt, and answers IRQ_NONE\n");
    }
    strand->handles = false;
    lines.open |= bit_of(node);
}

void lines_count(unsigned node, bool is_read, unsigned address, uint8_t value)
{
    struct strand *strand = strand_current();

    if (!strand->handles)
        return;
    strand->took = strand->took || (is_read && address == IR && value != 0);
    if (++strand->accesses < ACCESSES)
        return;
    shim_log("bug", bus_device(node)->name, "BUG: the interrupt handler doesn't end\n");
    strand->handles = false;
    longjmp(strand->leave, 1);
}
