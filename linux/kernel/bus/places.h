/* SPDX-License-Identifier: GPL-2.0-only */
/* The names of places in a frame. Whoever starts this process gives them: python/sja.py has the one table of them. */
#ifndef KERNEL_PLACES_H
#define KERNEL_PLACES_H

#include <stdint.h>

/* Reads lines of a number of enum sja_places and its name. */
void places_begin(const char *path);
/* The place with this name, in either case, or SJA_NOWHERE. */
uint32_t places_of(const char *name);

#endif
