/* SPDX-License-Identifier: GPL-2.0-only */
/* Strikes that wait for their place in a frame. */
#ifndef KERNEL_STRIKES_H
#define KERNEL_STRIKES_H

#include <stdbool.h>
#include <stdint.h>

/* At a place of the Nth frame that begins for the node from now on. False if too many wait. */
bool strikes_frame(unsigned node, unsigned number, uint32_t place);
/* At a place of each of the first `times` frames that the node starts from now on. */
bool strikes_first(unsigned node, unsigned times, uint32_t place);
/* Takes back what waits. */
void strikes_forget(void);
bool strikes_wait(void);
/* Before each bit: strikes the nodes that are at their place. */
void strikes_seek(void);

#endif
