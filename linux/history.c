/* SPDX-License-Identifier: GPL-2.0-only */
#include "history.h"

#include <assert.h>
#include <execinfo.h>
#include <stdlib.h>

#include "bus.h"

static struct history_access *accesses;
static size_t count, room;
bool history_keeps;

void history_keep(bool keeps)
{
    history_keeps = keeps;
}

void history_forget(void)
{
    count = 0;
}

size_t history_count(void)
{
    return count;
}

const struct history_access *history_access(size_t place)
{
    return place < count ? &accesses[place] : NULL;
}

const struct history_access *history_numbered(uint64_t number)
{
    for (size_t i = 0; i < count; i++)
        if (accesses[i].number == number)
            return &accesses[i];
    return NULL;
}

static struct history_access *next_access(void)
{
    if (count == room) {
        room = 2 * room + 1024;
        accesses = realloc(accesses, room * sizeof *accesses);
        assert(accesses != NULL);
    }
    return &accesses[count++];
}

void history_add(uint64_t number, unsigned node, bool is_write, unsigned address, uint8_t value)
{
    struct history_access *made = next_access();

    *made = (struct history_access){ .number = number, .bit = bus_now(), .node = (uint8_t)node,
                                     .address = (uint8_t)address, .value = value, .is_write = is_write,
                                     .handles = bus_handles(node) };
    made->depth = (uint8_t)backtrace(made->calls, HISTORY_CALLS);
}
