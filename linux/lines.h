/* SPDX-License-Identifier: GPL-2.0-only */
/* Interrupt lines: which handlers are due, and a call of one. */
#ifndef LINUX_LINES_H
#define LINUX_LINES_H

#include <stdbool.h>
#include <stdint.h>

/* No line was active: a bus begins. */
void lines_forget(void);
/* Bits ran, or the registers of a node were accessed: lines may be others. */
void lines_ran(void);
void lines_accessed(unsigned node);
/* The nodes whose lines are active, or with edges rose. */
uint32_t lines_that_ask(void);
/* The nodes whose lines have a handler, and aren't held. */
uint32_t lines_handled(void);
/* Whether the handlers of a node's line are to be called now. */
bool lines_are_due(unsigned node);
/* In how many bits, at most so many, a handler comes that is late. */
uint32_t lines_next(uint32_t most);
/* Calls the handlers of a node's line once. One that doesn't end is left, and its line switched off. */
void lines_call(unsigned node);
/* A handler accesses a register; where it is the one that doesn't end it is left here. */
void lines_count(unsigned node, bool is_read, unsigned address, uint8_t value);

#endif
