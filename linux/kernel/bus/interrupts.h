/* SPDX-License-Identifier: GPL-2.0-only */
/* The interrupt lines of the cards, as their kernels hear of them. */
#ifndef KERNEL_INTERRUPTS_H
#define KERNEL_INTERRUPTS_H

#include <stdint.h>

struct kernel;

/* Tells the kernels of active lines that are due. A line is a level: it is told again, once its handler has ended, as
 * long as it stays active. */
void interrupts_tell(void);
/* Has a kernel take the buffers of its writes back. It has to be about to run: else its own clock may be ahead. */
void interrupts_call_back(struct kernel *kernel);
/* When the first active line is due that isn't told yet, or UINT64_MAX. */
uint64_t interrupts_due(void);

#endif
