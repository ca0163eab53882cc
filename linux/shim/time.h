/* SPDX-License-Identifier: GPL-2.0-only */
/* Time, which is bits. Stands for linux/jiffies.h, delay.h and workqueue.h. A jiffy is a bit, HZ is the bit rate, and a
 * delay of a driver is bits that run; what is put off is done once so many bits have run. */
#ifndef SHIM_TIME_H
#define SHIM_TIME_H

#include "types.h"

#define jiffies shim_jiffies()
#define HZ shim_bit_rate()
unsigned long shim_jiffies(void);
unsigned long shim_bit_rate(void);
unsigned long msecs_to_jiffies(unsigned int milliseconds);
unsigned int jiffies_to_msecs(unsigned long bits);
void udelay(unsigned long microseconds);
#define ndelay(nanoseconds) udelay(DIV_ROUND_UP(nanoseconds, 1000UL))
#define mdelay(milliseconds) udelay((milliseconds) * 1000UL)
#define msleep(milliseconds) udelay((milliseconds) * 1000UL)
#define usleep_range(least, most) udelay(least)

struct work_struct;
typedef void (*work_func_t)(struct work_struct *work);

struct work_struct {
    work_func_t function;
    struct work_struct *next;
    unsigned long due;
    bool waits, is_done;    /* it waits to be done; it is being done */
};

struct delayed_work {
    struct work_struct work;
};

#define INIT_WORK(place, what) (*(place) = (struct work_struct){ .function = (what) })
#define INIT_DELAYED_WORK(place, what) INIT_WORK(&(place)->work, what)
/* A bus begins: nothing waits. */
void shim_forget_time(void);
bool shim_put_off(struct work_struct *work, unsigned long bits);
bool shim_take_back(struct work_struct *work);
/* Takes back the first that is due and may be done now, or gives null. */
struct work_struct *shim_take_due(bool (*may_begin)(const struct work_struct *work));
/* Does one that was taken back. */
void shim_do(struct work_struct *work);
/* Takes one back, or waits until it was done. Whether it waited to be done. */
bool shim_cancel(struct work_struct *work);
/* After how many bits the next one is due that isn't yet: at most so many. */
unsigned long shim_next_due(unsigned long most);
#define schedule_work(place) shim_put_off(place, 0)
#define schedule_delayed_work(place, bits) shim_put_off(&(place)->work, bits)
#define cancel_work_sync(place) shim_cancel(place)
#define cancel_delayed_work(place) shim_take_back(&(place)->work)
#define cancel_delayed_work_sync(place) shim_cancel(&(place)->work)

static inline struct delayed_work *to_delayed_work(struct work_struct *work)
{
    return container_of(work, struct delayed_work, work);
}

#endif
