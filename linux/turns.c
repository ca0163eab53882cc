/* SPDX-License-Identifier: GPL-2.0-only */
#include "shim.h"

#include "axis.h"
#include "bus.h"
#include "lines.h"
#include "session.h"
#include "stack.h"
#include "strand.h"
#include "turns.h"

/* After so many bits a strand isn't waited for any more. */
enum { PATIENCE = 20000 };

bool turns_others_act(void)
{
    return axis_others() != OTHERS_NONE;
}

/* ---- what begins */

static void send_in_strand(struct strand *strand)
{
    shim_send_waiting(strand->what);
}

/* Hands a device what waits for it. Whether it took any, or the strand of its queue has begun. */
static bool send_waiting(unsigned node)
{
    struct strand *strand = strand_of(node, STRAND_QUEUE);
    struct net_device *dev = bus_device(node);

    if (dev == NULL || !turns_others_act())
        return dev != NULL && shim_send_waiting(dev);
    if (strand->has_begun || !shim_may_send(dev) || !strand_may_act(strand))
        return false;
    strand_begin(strand, send_in_strand, dev);
    return true;
}

static void work_in_strand(struct strand *strand)
{
    shim_do(strand->what);
}

/* Whether a work may begin whose device is that of a node. */
static bool may_work(const struct work_struct *work)
{
    int node = bus_node_at(work);
    const struct strand *strand = node >= 0 ? strand_of((unsigned)node, STRAND_WORK) : NULL;

    return !turns_others_act() || strand == NULL || (!strand->has_begun && strand_may_act(strand));
}

/* Does, or begins, what was put off and is due. Whether there was any. */
static bool do_due(void)
{
    struct work_struct *work;
    bool any = false;

    while ((work = shim_take_due(may_work)) != NULL) {
        int node = bus_node_at(work);

        any = true;
        if (turns_others_act() && node >= 0)
            strand_begin(strand_of((unsigned)node, STRAND_WORK), work_in_strand, work);
        else
            shim_do(work);
    }
    return any;
}

static void handle_in_strand(struct strand *strand)
{
    lines_call((unsigned)strand->node);
}

/* Calls the handler of a node as long as it is due, or begins its strand. Whether it was due. */
static bool handle(unsigned node)
{
    struct strand *strand = strand_of(node, STRAND_HANDLER);
    bool any = false;

    while (!turns_others_act() && lines_are_due(node)) {
        any = true;
        lines_call(node);
    }
    if (!turns_others_act() || strand->has_begun || !strand_may_act(strand) || !lines_are_due(node))
        return any;
    strand_begin(strand, handle_in_strand, NULL);
    return true;
}

/* ---- what goes on */

static bool is_ready(const struct strand *strand)
{
    bool has_come = strand->until <= bus_now() || (strand->gate != NULL && !*strand->gate);

    return strand->has_begun && has_come && strand_may_act(strand);
}

static bool go_on(void)
{
    bool any = false;

    for (unsigned kind = 0; kind < STRAND_TEST && turns_others_act(); kind++)
        for (unsigned node = 0; node < BUS_NODES; node++)
            if (is_ready(strand_of(node, kind))) {
                any = true;
                strand_go_on(strand_of(node, kind));
            }
    return any;
}

void turns_settle(void)
{
    bool any = true, others = turns_others_act();

    while (any && !session_has_fault()) {
        struct net_device *dev;

        any = do_due();
        for (uint32_t active = lines_that_ask(), node = 0; active >> node != 0; node++)
            any = ((active >> node & 1) && handle(node)) || any;
        for (unsigned node = 0; (dev = bus_device(node)) != NULL; node++)
            any = (others ? send_waiting(node) : shim_send_waiting(dev)) || any;
        any = (others && go_on()) || any;
    }
}

/* ---- bits */

/* Lets bits run, at most so many: fewer where a line of these rises, or a strike by place waits. How many. */
static uint32_t tick(uint32_t most, uint32_t watch)
{
    uint32_t ran = session_bits(seek_strike(most), watch);

    lines_ran();
    return ran;
}

/* In how many bits, at most so many, something is to be done whose time is known. */
static uint32_t next_time(uint32_t most)
{
    uint64_t now = bus_now();

    most = lines_next((uint32_t)shim_next_due(most));
    for (unsigned node = 0; node < BUS_NODES && turns_others_act(); node++)
        for (unsigned kind = 0; kind < STRAND_TEST; kind++) {
            const struct strand *strand = strand_of(node, kind);

            if (strand->has_begun && strand->until > now)
                most = min(most, (uint32_t)(strand->until - now));
        }
    return most;
}

bool turns_go_until(uint64_t until)
{
    turns_settle();
    while (bus_now() < until && !session_has_fault()) {
        if (tick(next_time((uint32_t)(until - bus_now())), lines_handled()) == 0)
            return false;
        turns_settle();
    }
    return !session_has_fault();
}

uint32_t bus_run(uint32_t bits)
{
    uint64_t begin = bus_now();

    turns_go_until(begin + bits);
    return (uint32_t)(bus_now() - begin);
}

void bus_delay(uint32_t bits)
{
    uint64_t until = bus_now() + bits;

    while (bus_now() < until && tick((uint32_t)(until - bus_now()), 0) > 0)
        ;
    lines_ran();
}

void turns_wake(struct net_device *dev)
{
    if (axis_others() < OTHERS_QUEUE || !shim_may_send(dev))
        return;
    if (strand_current()->kind == STRAND_TEST)
        turns_settle();
    else
        turns_wait(bus_node(dev), 0);
}

void turns_send(struct net_device *dev)
{
    if (turns_others_act())
        turns_settle();
    else
        shim_send_waiting(dev);
}

void turns_begin(void)
{
    strand_forget();
    lines_forget();
    axis_begin();
}

void turns_end(void)
{
    uint64_t last = bus_now() + PATIENCE;

    bus_on_time();
    while (strand_any() && bus_now() < last && turns_go_until(bus_now() + 1))
        ;
    strand_forget();
}
