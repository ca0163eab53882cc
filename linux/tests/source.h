/* SPDX-License-Identifier: GPL-2.0-only */
/* Where in the driver an access is made: its functions and lines, by addr2line. */
#ifndef TESTS_SOURCE_H
#define TESTS_SOURCE_H

#include <stddef.h>

#include "history.h"

enum { SOURCE_TEXT = 200 };

/* Learns where all accesses that are kept are made. Before it the next two know of none. */
void source_learn(void);
/* The lines of the driver in which an access stands, as `sja1000_rx:376 < sja1000_interrupt:551`. */
void source_text(const struct history_access *access, char text[SOURCE_TEXT]);
/* Whether it stands in a function of the driver with this name. */
int source_is_in(const struct history_access *access, const char *function);
/* The data sheet's name of a register. */
const char *register_name(unsigned address);

#endif
