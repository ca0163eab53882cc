/* SPDX-License-Identifier: GPL-2.0-only */
/* The bus: its devices, how it begins and ends, and the registers that they are driven by. */
#include "shim.h"

#include "axis.h"
#include "bus.h"
#include "card.h"
#include "history.h"
#include "lines.h"
#include "session.h"
#include "stack.h"
#include "strand.h"
#include "turns.h"

enum { ACR = 16, AMR = 20, FILTER = 4 };

static struct net_device *devices[BUS_NODES];
static unsigned nodes;
static bus_witness witness;
static uint8_t left_code, left_mask = 0xff;

void bus_left_filter(uint8_t code, uint8_t mask)
{
    left_code = code;
    left_mask = mask;
}

/* What a boot loader left, where it left a filter. */
static void leave_filter(unsigned node)
{
    for (unsigned i = 0; i < FILTER && left_mask != 0xff; i++) {
        session_write(node, ACR + i, left_code);
        session_write(node, AMR + i, left_mask);
    }
}

int bus_begin(unsigned count, uint32_t bits)
{
    int error;

    if (session_is_begun())
        return -EBUSY;
    shim_log_empty();
    shim_forget_time();
    turns_begin();
    history_forget();
    error = session_begin(count, bits);
    if (error != 0)
        return error;
    nodes = count;
    error = shim_load_modules();
    for (unsigned node = 0; error == 0 && node < nodes; node++) {
        leave_filter(node);
        devices[node] = card_probe(node);
        error = devices[node] == NULL ? -ENODEV : 0;
    }
    return error;
}

unsigned bus_end(void)
{
    if (!session_is_begun())
        return 0;
    turns_end();
    for (unsigned node = nodes; node-- > 0;)
        if (devices[node] != NULL)
            card_remove(devices[node]);
    shim_unload_modules();
    shim_forget_interrupts();
    stack_forget();
    bus_forget_strikes();
    session_end();
    memset(devices, 0, sizeof devices);
    nodes = 0;
    witness = NULL;
    return shim_buffers();
}

struct net_device *bus_device(unsigned node)
{
    return node < nodes ? devices[node] : NULL;
}

int bus_node(const struct net_device *dev)
{
    for (unsigned node = 0; node < nodes; node++)
        if (devices[node] == dev)
            return (int)node;
    return -1;
}

int bus_node_at(const void *place)
{
    for (unsigned node = 0; node < nodes; node++) {
        const char *dev = (const char *)devices[node];

        if (dev != NULL && (const char *)place >= dev && (const char *)place < dev + devices[node]->size)
            return (int)node;
    }
    return -1;
}

/* ---- registers */

uint8_t bus_peek(unsigned node, unsigned address)
{
    uint8_t value = session_read(node, address);

    lines_accessed(node);
    return value;
}

void bus_hold(unsigned node, int is_held)
{
    if (is_held)
        disable_irq_nosync((unsigned)devices[node]->irq);
    else
        enable_irq((unsigned)devices[node]->irq);
    lines_ran();
}

int bus_handles(unsigned node)
{
    const struct strand *strand = strand_current();

    return strand->handles && (strand->kind == STRAND_TEST || strand->node == (int)node);
}

int bus_rests(unsigned node)
{
    return !session_line(node) && !strand_any_of(node);
}

/* An access of a driver takes its time. The number of the access. */
static uint64_t pass(unsigned node)
{
    uint64_t number;
    uint32_t bits;

    if (axis_takes_time(node, &bits, &number))
        turns_wait((int)node, bits);
    return number;
}

/* Who looks on is told of an access that was made. */
static void tell(uint64_t number, unsigned node, bool is_write, unsigned address, uint8_t value)
{
    if (witness != NULL)
        witness(node, is_write, address, value);
    if (history_keeps)
        history_add(number, node, is_write, address, value);
    lines_accessed(node);
    lines_count(node, !is_write, address, value);
}

uint8_t bus_read(unsigned node, unsigned address)
{
    uint64_t number = pass(node);
    uint8_t value = session_read(node, address);

    tell(number, node, false, address, value);
    return value;
}

void bus_write(unsigned node, unsigned address, uint8_t value)
{
    uint64_t number = pass(node);

    session_write(node, address, value);
    tell(number, node, true, address, value);
}

void bus_watch(bus_witness looks)
{
    witness = looks;
}
