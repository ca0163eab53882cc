/* SPDX-License-Identifier: GPL-2.0-only */
#include "clock.h"

#include <linux/um_timetravel.h>

#include "bus.h"
#include "interrupts.h"
#include "kernels.h"
#include "serve.h"
#include "vhost.h"
#include "wire.h"

enum { SECOND = 1000000000 };
static const uint64_t NEVER = UINT64_MAX, DATE = 1767225600000000000;   /* 2026-01-01 */

static void tell(const struct kernel *kernel, uint32_t operation, uint32_t number, uint64_t time)
{
    struct um_timetravel_msg message = { .op = operation, .seq = number, .time = time };

    wire_put(kernel->clock, &message, sizeof message);
}

/* Tells a kernel something, and waits until it knows. */
static void tell_and_wait(struct kernel *kernel, uint32_t operation, uint64_t time)
{
    tell(kernel, operation, 0, time);
    while (clock_message(kernel) != UM_TIMETRAVEL_ACK)
        ;
}

/* What a kernel asks for, or the time that it wants to know. */
static uint64_t asked(struct kernel *kernel, const struct um_timetravel_msg *message)
{
    switch (message->op) {
    case UM_TIMETRAVEL_UPDATE:
        while (bus_run_until(message->time))
            ;
        return 0;
    case UM_TIMETRAVEL_REQUEST:
        kernel->asked = message->time;
        return 0;
    case UM_TIMETRAVEL_WAIT:
        kernel->waits = true;
        return 0;
    case UM_TIMETRAVEL_GET:
        return bus_now();
    case UM_TIMETRAVEL_GET_TOD:
        return DATE + bus_now();
    default:
        return 0;
    }
}

uint32_t clock_message(struct kernel *kernel)
{
    struct um_timetravel_msg message;

    if (!wire_get(kernel->clock, &message, sizeof message)) {
        kernel->ended = kernel->waits = true;
        kernel->asked = NEVER;
        return UM_TIMETRAVEL_ACK;
    }
    if (message.op != UM_TIMETRAVEL_ACK)
        tell(kernel, UM_TIMETRAVEL_ACK, message.seq, asked(kernel, &message));
    return message.op;
}

/* Up to when a kernel may run without its calendar: lines rise at the ends of bits alone. */
static uint64_t horizon(const struct kernel *kernel)
{
    uint64_t until = bus_is_quiet() ? bus_now() + SECOND : bus_time_of(bus_ran() + 1);

    for (unsigned i = 0; i < kernels_count(); i++)
        if (kernels_at(i) != kernel && kernels_at(i)->asked < until)
            until = kernels_at(i)->asked;
    for (unsigned i = 0; i < vhost_cards(); i++)
        if (vhost_card(i)->holds || card_is_active(vhost_card(i)))
            until = bus_now();
    return until;
}

void clock_narrow(struct kernel *kernel)
{
    uint64_t until;

    if (kernel->free <= bus_now())
        return;
    until = horizon(kernel);
    if (until >= kernel->free)
        return;
    kernel->free = until;
    tell_and_wait(kernel, UM_TIMETRAVEL_FREE_UNTIL, until);
}

static bool all_wait(void)
{
    for (unsigned i = 0; i < kernels_count(); i++)
        if (!kernels_at(i)->waits)
            return false;
    return true;
}

static struct kernel *first_asked(void)
{
    struct kernel *first = kernels_at(0);

    for (unsigned i = 1; i < kernels_count(); i++)
        if (kernels_at(i)->asked < first->asked)
            first = kernels_at(i);
    return first;
}

/* When the first access is due that a card holds, or the first interrupt that comes late. */
static uint64_t first_due(void)
{
    uint64_t first = interrupts_due();

    for (unsigned i = 0; i < vhost_cards(); i++) {
        const struct card *card = vhost_card(i);

        if (card->holds && bus_time_of(card->due) < first)
            first = bus_time_of(card->due);
    }
    return first;
}

static void serve_all(void)
{
    for (unsigned i = 0; i < vhost_cards(); i++)
        if (!vhost_card(i)->kernel->ended)
            serve(vhost_card(i));
}

/* Lets a kernel go on, first freely, and waits until it knows. */
static void run(struct kernel *kernel)
{
    interrupts_call_back(kernel);
    kernel->waits = kernel->polls = false;
    bus_counts.grants++;
    kernel->free = horizon(kernel);
    if (kernel->free > bus_now())
        tell(kernel, UM_TIMETRAVEL_FREE_UNTIL, 0, kernel->free);
    tell_and_wait(kernel, UM_TIMETRAVEL_RUN, bus_now());
    if (kernel->free > bus_now())
        while (clock_message(kernel) != UM_TIMETRAVEL_ACK)
            ;
}

void clock_grant(void)
{
    for (;;) {
        struct kernel *next;
        uint64_t due;

        if (!all_wait())
            return;
        serve_all();
        interrupts_tell();
        if (!all_wait())
            return;
        next = first_asked();
        if (next->ended)
            return;
        if (next->asked <= bus_now()) {
            run(next);
            return;
        }
        due = first_due();
        bus_run_until(next->asked < due ? next->asked : due);
    }
}
