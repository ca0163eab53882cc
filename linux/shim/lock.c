/* SPDX-License-Identifier: GPL-2.0-only */
/* Locks that are held: who waits for one, and who would never have it. */
#include "shim.h"

#include "../axis.h"
#include "../bus.h"
#include "../strand.h"
#include "../turns.h"

const struct strand *shim_strand(void)
{
    return strand_current();
}

void shim_irqs_off(void)
{
    strand_current()->irqs_off++;
}

void shim_irqs_on(void)
{
    struct strand *strand = strand_current();

    strand->irqs_off -= strand->irqs_off > 0;
    if (strand->irqs_off == 0)
        turns_let_interrupt();
}

/* On one processor what came between runs to its end before the holder of the lock goes on. */
bool shim_wait_for(const spinlock_t *lock)
{
    const struct strand *strand = strand_current();
    bool is_kept = lock->holder == strand
        || (lock->holder != NULL && lock->holder->node == strand->node && !strand_are_apart(lock->holder, strand));

    return !is_kept && turns_until_false(&lock->held);
}
