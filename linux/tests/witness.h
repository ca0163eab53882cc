/* SPDX-License-Identifier: GPL-2.0-only */
/* A witness of what each controller told its driver. It sees each access, and judges the error frames that the driver
 * makes of them by linux/can/error.h alone. */
#ifndef TESTS_WITNESS_H
#define TESTS_WITNESS_H

/* Begins to look, for a bus that begins. */
void witness_begin(void);
/* Judges what is left, and says how many error frames weren't those that the controllers told of. The first is printed,
 * with `where` before it. */
unsigned witness_end(const char *where);
/* Whether it looks. The same of one node: how many, and the first of them in words. */
int witness_looks(void);
unsigned witness_of(unsigned node, const char **text);
/* Of the error frames of states, how many tell of the greater counter alone, or of both where they are equal, and how
 * many otherwise. */
unsigned witness_states_by_greater(void);
unsigned witness_states_otherwise(void);

#endif
