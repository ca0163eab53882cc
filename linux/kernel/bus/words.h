/* SPDX-License-Identifier: GPL-2.0-only */
/* The words of a guest, and of who started the kernels:
 *
 *     strike K B | K B E T | K frame N PLACE | K PLACE xT
 *     forget
 *     latency BITS
 *     late ACCESS BITS
 *     access_bits A | A/B
 *     where
 *
 * Strikes are those of plans, but that frames count from the word on. */
#ifndef KERNEL_WORDS_H
#define KERNEL_WORDS_H

#include <stddef.h>

struct kernel;

/* Does what a line of a kernel says, and puts into `answer` "ok BIT", or "no" and what is wrong. */
void words_do(struct kernel *kernel, const char *line, char *answer, size_t room);

#endif
