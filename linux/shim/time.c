/* SPDX-License-Identifier: GPL-2.0-only */
/* Time, which is bits, and what is put off to a later one. */
#include "shim.h"

#include "../bus.h"
#include "../turns.h"

/* What waits, in the order in which it was put off. */
static struct work_struct *first;

unsigned long shim_jiffies(void)
{
    return (unsigned long)bus_now();
}

unsigned long shim_bit_rate(void)
{
    return bus_bit_rate();
}

unsigned long msecs_to_jiffies(unsigned int milliseconds)
{
    return (unsigned long)DIV_ROUND_UP((u64)milliseconds * HZ, 1000);
}

unsigned int jiffies_to_msecs(unsigned long bits)
{
    return (unsigned int)((u64)bits * 1000 / HZ);
}

/* The part of a bit that delays have left over, in microseconds times HZ. */
static u64 rest;

/* The bus goes on meanwhile. Parts of a bit add up. */
void udelay(unsigned long microseconds)
{
    u64 parts = rest + (u64)microseconds * HZ;

    rest = parts % USEC_PER_SEC;
    turns_delay((u32)(parts / USEC_PER_SEC));
}

void shim_forget_time(void)
{
    rest = 0;
    first = NULL;
}

bool shim_put_off(struct work_struct *work, unsigned long bits)
{
    struct work_struct **place = &first;

    if (work->waits)
        return false;
    while (*place != NULL)
        place = &(*place)->next;
    work->next = NULL;
    work->waits = true;
    work->due = jiffies + bits;
    *place = work;
    return true;
}

bool shim_take_back(struct work_struct *work)
{
    struct work_struct **place = &first;

    if (!work->waits)
        return false;
    while (*place != work)
        place = &(*place)->next;
    *place = work->next;
    work->waits = false;
    return true;
}

bool shim_cancel(struct work_struct *work)
{
    bool waited = shim_take_back(work);

    turns_until_false(&work->is_done);
    return waited;
}

struct work_struct *shim_take_due(bool (*may_begin)(const struct work_struct *work))
{
    for (struct work_struct *work = first; work != NULL; work = work->next)
        if (work->due <= jiffies && may_begin(work)) {
            shim_take_back(work);
            return work;
        }
    return NULL;
}

void shim_do(struct work_struct *work)
{
    work->is_done = true;
    work->function(work);
    work->is_done = false;
}

unsigned long shim_next_due(unsigned long most)
{
    for (struct work_struct *work = first; work != NULL; work = work->next)
        if (work->due > jiffies)
            most = min(most, work->due - jiffies);
    return most;
}
