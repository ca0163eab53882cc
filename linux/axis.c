/* SPDX-License-Identifier: GPL-2.0-only */
#include "axis.h"

#include "bus.h"

static struct {
    uint32_t parts, whole, latency, late;
    uint64_t late_access;
    enum bus_others others;
    bool has_late, has_edges;
} axis = { .whole = 1 };

/* How many accesses of the run there were, and how many of each node. */
static uint64_t accesses, accesses_of[BUS_NODES];

void bus_access_bits(uint32_t parts, uint32_t whole)
{
    axis.parts = parts;
    axis.whole = whole > 0 ? whole : 1;
}

void bus_latency(uint32_t bits)
{
    axis.latency = bits;
}

void bus_late(uint64_t access, uint32_t bits)
{
    axis.has_late = true;
    axis.late_access = access;
    axis.late = bits;
}

void bus_others(enum bus_others others)
{
    axis.others = others;
}

void bus_edges(int on)
{
    axis.has_edges = on != 0;
}

void bus_on_time(void)
{
    axis.parts = axis.latency = 0;
    axis.has_late = false;
}

uint64_t bus_accesses(void)
{
    return accesses;
}

void axis_begin(void)
{
    accesses = 0;
    for (unsigned node = 0; node < BUS_NODES; node++)
        accesses_of[node] = 0;
}

/* Parts of a bit add up. */
static uint32_t bits_before(uint64_t access)
{
    return (uint32_t)((access + 1) * axis.parts / axis.whole - access * axis.parts / axis.whole);
}

bool axis_takes_time(unsigned node, uint32_t *bits, uint64_t *number)
{
    bool is_late = axis.has_late && accesses == axis.late_access;

    *number = accesses++;
    *bits = axis.parts > 0 ? bits_before(accesses_of[node]++) : 0;
    if (is_late)
        *bits += axis.late;
    return is_late || *bits > 0;
}

uint32_t axis_latency(void)
{
    return axis.latency;
}

enum bus_others axis_others(void)
{
    return axis.others;
}

bool axis_has_edges(void)
{
    return axis.has_edges;
}
