/* SPDX-License-Identifier: GPL-2.0-only */
#include "timing.h"

#include "bus.h"
#include "log.h"

enum { MOD = 0, RM = 1, BTR0 = 6, BTR1 = 7, HALF_CLOCKS = 125, KBIT_500 = 2000 };

/* Since bit `since`, which began at time `at`, a bit takes `bit` nanoseconds. */
static struct {
    uint64_t bit, since, at;
    uint8_t registers[BUS_NODES][2];
} timing = { .bit = KBIT_500 };

uint64_t timing_bit(void)
{
    return timing.bit;
}

uint64_t timing_end(uint64_t bits)
{
    return timing.at + (bits - timing.since) * timing.bit;
}

/* The bit time: one quantum for synchronization, TSEG1 + 1 and TSEG2 + 1 of them. A quantum is 2 (BRP + 1) clocks. */
static uint64_t bit_of(const uint8_t registers[2])
{
    unsigned prescaler = (registers[0] & 0x3f) + 1u;
    unsigned quanta = 3u + (registers[1] & 0xf) + (registers[1] >> 4 & 7);

    return (uint64_t)HALF_CLOCKS * prescaler * quanta;
}

void timing_watch_write(unsigned node, unsigned address, uint8_t value)
{
    uint64_t bit, at = timing_end(bus_ran());

    if (address == BTR0 || address == BTR1)
        timing.registers[node][address - BTR0] = value;
    if (address != MOD || (value & RM))
        return;
    bit = bit_of(timing.registers[node]);
    if (bit == timing.bit)
        return;
    timing.at = at;
    timing.since = bus_ran();
    timing.bit = bit;
    log_say("node %u: a bit takes %llu ns", node, (unsigned long long)bit);
}
