/* SPDX-License-Identifier: GPL-2.0-only */
/* How long a bit takes, by the bus timing registers (SJA1000 data sheet, 6.5.1 and 6.5.2). */
#ifndef KERNEL_TIMING_H
#define KERNEL_TIMING_H

#include <stdint.h>

/* A node's register is written. */
void timing_watch_write(unsigned node, unsigned address, uint8_t value);
/* How long a bit takes now, in nanoseconds. */
uint64_t timing_bit(void);
/* When `bits` bits have run, in nanoseconds. */
uint64_t timing_end(uint64_t bits);

#endif
