/* SPDX-License-Identifier: GPL-2.0-only */
/* Time between accesses: how long each takes, which one is late, how late handlers come, and who else acts. bus.h has
 * the calls that set it, and what they mean. */
#ifndef LINUX_AXIS_H
#define LINUX_AXIS_H

#include <stdbool.h>
#include <stdint.h>

/* No access was made yet: a bus begins. */
void axis_begin(void);
/* Counts the next access of a node, whose number in the run this gives. Whether it takes time, or is the late one: then
 * in how many bits it is. */
bool axis_takes_time(unsigned node, uint32_t *bits, uint64_t *number);
/* How many bits after its line rose a handler is called. */
uint32_t axis_latency(void);
/* Who else acts while a node waits in an access. */
enum bus_others axis_others(void);
bool axis_has_edges(void);

#endif
