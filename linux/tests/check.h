/* SPDX-License-Identifier: GPL-2.0-only */
/* What a test says: checks that are counted, and of those that don't hold a line each. */
#ifndef TESTS_CHECK_H
#define TESTS_CHECK_H

#include <stddef.h>
#include <stdint.h>

#include "bus.h"

/* Counts a check, and prints the text where it doesn't hold. Whether it holds. */
int check(int holds, const char *format, ...) __attribute__((format(printf, 2, 3)));
/* The same of one of the checks that each run ends with, of a device: by their names findings tell them apart. */
int check_device(const char *name, unsigned node, int holds, const char *format, ...)
    __attribute__((format(printf, 4, 5)));
/* Of which run these are, in front of what doesn't hold, up to the end of its bus. */
void checks_at(const char *where);
/* Checks that a number is the one that is wanted. */
int check_number(const char *what, long is, long wanted);
/* Checks the frames of one kind that a node's stack got: their notation, with a space between two. */
int check_frames(unsigned node, enum frame_kind kind, const char *wanted);
/* How many frames of a kind a node's stack got, and how many of these are this one. */
unsigned count_kind(unsigned node, enum frame_kind kind);
unsigned count_frames(unsigned node, enum frame_kind kind, const char *frame);
/* The error frames of a node with all of these bits in the identifier, and these in data[1]. */
unsigned count_errors(unsigned node, uint32_t bits, uint8_t second);
struct bus_details details_of(unsigned node);

/* Begins a bus whose cards all have these words, are up and take part. */
void begin_up(unsigned nodes, uint32_t bits, const char *words);
/* Ends it: nothing was lost, no line of the log tells of a bug, and all that judge.h has holds. */
void end_bus(void);

/* In which bit that came about which the next of these is of. */
void check_bit(uint64_t bit);

/* What doesn't hold, as it is kept and not printed: of which check, device, or -1, and bit, and in words. */
enum { FAILURES = 40, FAILURE_TEXT = 200 };
struct failure { const char *name; int node; uint64_t bit; char text[FAILURE_TEXT]; };
struct failures { struct failure all[FAILURES]; unsigned count; };
/* From now on what doesn't hold is kept here, and isn't counted as wrong; with null it is printed, and is. */
void checks_keep(struct failures *place);
/* Counts what was kept as wrong. */
void checks_are_wrong(const struct failures *failures);

long checks_made(void);
long checks_wrong(void);

#endif
