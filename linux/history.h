/* SPDX-License-Identifier: GPL-2.0-only */
/* Each access of the drivers in a run, with the bit and the calls in which it was made, where it is kept. */
#ifndef LINUX_HISTORY_H
#define LINUX_HISTORY_H

#include <stdbool.h>
#include <stddef.h>
#include <stdint.h>

enum { HISTORY_CALLS = 12 };

struct history_access {
    uint64_t number;                /* of the run, in the order in which they begin: they are kept as they end */
    uint64_t bit;
    uint8_t node, address, value;
    bool is_write, handles;
    uint8_t depth;
    void *calls[HISTORY_CALLS];     /* where each call goes on, from the innermost on */
};

/* Keeps accesses from now on, or no longer. */
void history_keep(bool keeps);
void history_forget(void);
size_t history_count(void);
const struct history_access *history_access(size_t place);
/* The one with this number, or null. */
const struct history_access *history_numbered(uint64_t number);
/* Whether accesses are kept. */
extern bool history_keeps;
/* An access that was made, where they are. */
void history_add(uint64_t number, unsigned node, bool is_write, unsigned address, uint8_t value);

#endif
