/* SPDX-License-Identifier: GPL-2.0-only */
#include "bus.h"

#include <stddef.h>

#include "control.h"
#include "log.h"
#include "plan.h"
#include "sja.h"
#include "strikes.h"
#include "timing.h"

/* The registers that are looked at, and their bits (SJA1000 data sheet, 6.4.3 and 6.4.5). A node rests if of SR the
 * transmit buffer is released and neither RS, TS nor BS is set. */
enum { VERSION = 3, PLAN_BITS = 2000000, WATCHED = 0xff, LONG_RUN = 1000000,
       MOD = 0, RM = 1, SR = 2, SR_RESTS = 0xb4, SR_TBS = 4 };

struct bus_counts bus_counts;

static struct {
    sja *session;
    unsigned nodes;
    bool has_end;
    uint64_t now, ran;
    uint64_t struck;    /* the number behind the last bit that is struck */
} bus;

/* The value of a call. A session whose plan is full ends the run. */
static uint64_t done(sja_answer answer, const char *what)
{
    switch (answer.status) {
    case SJA_DONE:
        return answer.value;
    case SJA_STEPS_USED:
        control_used("all 65535 accesses of a node are used");
    case SJA_TURNS_USED:
        control_used("all 200000 turns are used");
    case SJA_STRIKES_USED:
        control_used("all 100000 strikes are used");
    case SJA_BROKEN:
        control_fail("the process of the session doesn't answer: SJA names a program that isn't sja");
    default:
        control_fail("%s: status %u of c/sja.h", what, (unsigned)answer.status);
    }
}

void bus_begin(unsigned nodes, const char *plan)
{
    bus.nodes = nodes;
    bus.has_end = plan != NULL;
    done(sja_new(VERSION, plan != NULL ? PLAN_BITS : 0, nodes, &bus.session), "sja_new");
    if (plan != NULL)
        plan_begin(bus.session, plan);
}

void bus_end(void)
{
    if (bus.has_end)
        plan_end();
    sja_free(bus.session);
}

unsigned bus_nodes(void)
{
    return bus.nodes;
}

bool bus_has_end(void)
{
    return bus.has_end;
}

uint8_t bus_read(unsigned node, unsigned address)
{
    uint8_t value = (uint8_t)done(sja_read(bus.session, node, address), "read");

    bus_counts.accesses++;
    plan_watch_read(node, address, value);
    log_say("node %u reads %u %02x", node, address, value);
    return value;
}

void bus_write(unsigned node, unsigned address, uint8_t value)
{
    bus_counts.accesses++;
    log_say("node %u writes %u %02x", node, address, value);
    plan_watch_write(node, address, value);
    timing_watch_write(node, address, value);
    done(sja_write(bus.session, node, address, value), "write");
}

uint64_t bus_lines(void)
{
    return done(sja_lines(bus.session), "lines");
}

uint32_t bus_place(unsigned node)
{
    return (uint32_t)done(sja_place(bus.session, node), "place");
}

static bool rests(unsigned node)
{
    if (done(sja_read(bus.session, node, MOD), "MOD") & RM)
        return true;
    return (done(sja_read(bus.session, node, SR), "SR") & SR_RESTS) == SR_TBS && bus_place(node) == SJA_NOWHERE;
}

bool bus_is_quiet(void)
{
    if (bus.has_end || bus.struck > bus.ran)
        return false;
    for (unsigned node = 0; node < bus.nodes; node++)
        if (!rests(node))
            return false;
    return true;
}

bool bus_strike(unsigned node, uint64_t bit)
{
    sja_answer told = sja_strike(bus.session, node, bit);

    if (told.status == SJA_PAST || told.status == SJA_NO_BIT)
        return false;
    done(told, "strike");
    bus_counts.strikes++;
    if (bit >= bus.struck)
        bus.struck = bit + 1;
    log_say("node %u is struck in bit %llu", node, (unsigned long long)bit);
    return true;
}

uint64_t bus_now(void)
{
    return bus.now;
}

uint64_t bus_ran(void)
{
    return bus.ran;
}

uint64_t bus_bit_time(void)
{
    return timing_bit();
}

uint64_t bus_time_of(uint64_t bits)
{
    return timing_end(bits);
}

/* How many bits may run at once: one as long as a strike waits for its place in a frame. */
static uint32_t stretch(uint64_t count)
{
    if (strikes_wait() && !bus_is_quiet())
        return 1;
    return count < LONG_RUN ? (uint32_t)count : LONG_RUN;
}

/* Runs `count` bits, or up to the first bit after which a line rises. Whether a line rose. */
static bool run_bits(uint64_t count)
{
    while (count > 0) {
        sja_answer told;

        if (timing_end(bus.ran) > bus.now)
            bus.now = timing_end(bus.ran);
        strikes_seek();
        told = sja_bits(bus.session, stretch(count), WATCHED);
        bus.ran += done(told, "bits");
        if (told.value == 0)
            control_used("all 2000000 bits are used");
        count -= told.value;
        if (told.rose != 0)
            return true;
    }
    return false;
}

bool bus_run_until(uint64_t time)
{
    uint64_t end = timing_end(bus.ran);
    bool rose = time > end && run_bits((time - end) / timing_bit());

    if (time > bus.now)
        bus.now = rose ? timing_end(bus.ran) : time;
    return rose;
}
