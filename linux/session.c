/* SPDX-License-Identifier: GPL-2.0-only */
/* The session of the bus, and what is asked of it beside its registers: strikes, places, plan and report. */
#include "shim.h"

#include "bus.h"
#include "session.h"
#include "sja.h"

enum { VERSION = 3 };

static sja *session;
static uint32_t fault;
static uint64_t clock;      /* how many bits were run */
static unsigned strikes;
static bool has_ended;      /* by its report */

/* The value of a call, or 0 where it isn't done. */
static uint64_t done(sja_answer answer)
{
    if (answer.status != SJA_DONE && fault == 0) {
        fault = answer.status;
        shim_log("err", NULL, "the session goes no further: status %u\n", (unsigned)answer.status);
    }
    return answer.status == SJA_DONE ? answer.value : 0;
}

int session_begin(unsigned nodes, uint32_t bits)
{
    sja_answer told = sja_new(VERSION, bits, nodes, &session);

    fault = told.status;
    clock = 0;
    strikes = 0;
    has_ended = false;
    return told.status == SJA_DONE ? 0 : told.status == SJA_NO_MEMORY ? -ENOMEM
        : told.status == SJA_BROKEN || told.status == SJA_STOPPED ? -EPIPE : -EINVAL;
}

void session_end(void)
{
    sja_free(session);
    session = NULL;
    fault = 0;
    clock = 0;
}

bool session_is_begun(void)
{
    return session != NULL;
}

bool session_has_fault(void)
{
    return fault != 0;
}

uint32_t bus_fault(void)
{
    return fault;
}

uint64_t bus_now(void)
{
    return clock;
}

uint8_t session_read(unsigned node, unsigned address)
{
    uint8_t value = fault == 0 ? (uint8_t)done(sja_read(session, node, address)) : 0xff;

    return fault == 0 ? value : 0xff;
}

void session_write(unsigned node, unsigned address, uint8_t value)
{
    if (fault == 0)
        done(sja_write(session, node, address, value));
}

uint32_t session_bits(uint32_t count, uint32_t watch)
{
    uint32_t ran = fault == 0 ? (uint32_t)done(sja_bits(session, count, watch)) : 0;

    clock += ran;
    return ran;
}

bool session_line(unsigned node)
{
    return fault == 0 && done(sja_irq(session, node)) != 0;
}

uint32_t session_lines(void)
{
    return fault == 0 ? (uint32_t)done(sja_lines(session)) : 0;
}

int bus_strike(unsigned node, uint64_t bit)
{
    bool is_done = sja_strike(session, node, bit).status == SJA_DONE;

    strikes += is_done;
    return is_done ? 0 : -EINVAL;
}

unsigned bus_strikes(void)
{
    return strikes;
}

uint32_t bus_at(unsigned node)
{
    return fault == 0 ? (uint32_t)done(sja_place(session, node)) : 0;
}

int64_t bus_plan(char *text, size_t size)
{
    sja_answer told = sja_plan(session, text, size);

    return told.status == SJA_DONE ? (int64_t)told.value : -1;
}

int64_t bus_report(char *text, size_t size)
{
    sja_answer told = sja_report(session, text, size);

    has_ended = has_ended || told.status == SJA_DONE;
    return told.status == SJA_DONE ? (int64_t)told.value : -1;
}

int bus_has_ended(void)
{
    return has_ended;
}
