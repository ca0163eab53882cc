/* SPDX-License-Identifier: GPL-2.0-only */
/* The calendar of the kernels' time (linux/um_timetravel.h): a kernel's work takes none. While all wait bits run, up to
 * the first time for which one asked, or to an interrupt; then one goes on. */
#ifndef KERNEL_CLOCK_H
#define KERNEL_CLOCK_H

#include <stdint.h>

struct kernel;

/* Does what a kernel says to its calendar. Which operation it was; of a kernel that is gone an acknowledgement. */
uint32_t clock_message(struct kernel *kernel);
/* A kernel that runs freely accessed registers: if something may come earlier now it is told so. */
void clock_narrow(struct kernel *kernel);
/* Lets one kernel go on, if all wait. */
void clock_grant(void);

#endif
