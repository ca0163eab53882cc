/* SPDX-License-Identifier: GPL-2.0-only */
/* The plan of a run: written at its end. Until then the starts of each node are counted, of which a plan has 64. */
#ifndef KERNEL_PLAN_H
#define KERNEL_PLAN_H

#include <stdint.h>

#include "sja.h"

void plan_begin(sja *session, const char *path);
/* What a driver reads and writes shows in which mode its controller is. */
void plan_watch_read(unsigned node, unsigned address, uint8_t value);
void plan_watch_write(unsigned node, unsigned address, uint8_t value);
void plan_end(void);

#endif
