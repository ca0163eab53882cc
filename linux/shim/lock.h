/* SPDX-License-Identifier: GPL-2.0-only */
/* Locks and memory. Stands for linux/spinlock.h, mutex.h and slab.h. A lock that is held makes another one wait for it.
 * Where it would never be had, as one that is taken twice, that is told as a bug, and goes on. */
#ifndef SHIM_LOCK_H
#define SHIM_LOCK_H

#include "log.h"
#include "types.h"

struct strand;

typedef struct { bool held; const struct strand *holder; } spinlock_t;

/* Waits until a lock is let go. Whether it was. */
bool shim_wait_for(const spinlock_t *lock);
/* From now on interrupts of this processor are off, by one lock more, or by one less. */
void shim_irqs_off(void);
void shim_irqs_on(void);
const struct strand *shim_strand(void);

static inline void spin_lock_init(spinlock_t *lock)
{
    lock->held = false;
}

static inline void spin_lock(spinlock_t *lock)
{
    if (lock->held && !shim_wait_for(lock))
        shim_log("bug", NULL, "BUG: spinlock recursion\n");
    lock->held = true;
    lock->holder = shim_strand();
}

static inline void spin_unlock(spinlock_t *lock)
{
    if (!lock->held)
        shim_log("bug", NULL, "BUG: spinlock already unlocked\n");
    lock->held = false;
}

#define DEFINE_SPINLOCK(name) spinlock_t name
#define spin_lock_irqsave(lock, flags) ((flags) = 0, spin_lock_irq(lock))
#define spin_unlock_irqrestore(lock, flags) ((void)(flags), spin_unlock_irq(lock))
#define spin_lock_irq(lock) (shim_irqs_off(), spin_lock(lock))
#define spin_unlock_irq(lock) (spin_unlock(lock), shim_irqs_on())
#define spin_lock_bh(lock) spin_lock(lock)
#define spin_unlock_bh(lock) spin_unlock(lock)

struct mutex { spinlock_t lock; };
#define mutex_init(mutex) spin_lock_init(&(mutex)->lock)
#define mutex_lock(mutex) spin_lock(&(mutex)->lock)
#define mutex_unlock(mutex) spin_unlock(&(mutex)->lock)

#define kzalloc(size, flags) ((void)(flags), calloc(1, size))
#define kmalloc(size, flags) ((void)(flags), malloc(size))
#define kcalloc(count, size, flags) ((void)(flags), calloc(count, size))
#define kfree(place) free(place)

struct list_head { struct list_head *next, *prev; };
struct hlist_node { struct hlist_node *next, **pprev; };
struct hlist_head { struct hlist_node *first; };

#endif
