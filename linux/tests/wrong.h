/* SPDX-License-Identifier: GPL-2.0-only */
/* Wrong runs of the timing sweep, grouped by check and line of the driver. */
#ifndef TESTS_WRONG_H
#define TESTS_WRONG_H

#include "variation.h"

/* Adds a run in which something doesn't hold, by its accesses that were kept. */
void wrong_add(const struct variation *variation, const struct ran *ran);
/* Prints each group: how many runs, the first of them in words, where its late access stands, and how to run it again.
 * Then there are none. */
void wrong_print(void);

#endif
