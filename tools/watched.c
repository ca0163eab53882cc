/* Where a watched run stops. Two sessions get the same random drivers, of each version and of one to eight nodes. One
 * runs its bits by `sja_bits(count, watch)`, the other bit by bit, with a look at each line by `sja_irq` and
 * `sja_lines` after each. Both have to stop at the same bit with the same lines active, and to read, plan and report
 * the same. The words are a seed and how many sessions, of which 100 have to meet some stops. Prints what was met, or
 * what differs, with status 1. Built with -DALL_ARE_WATCHED it wants a stop where a node rises that isn't watched,
 * too, and has to find a difference. `checks/c_library` runs it. */
#include <stdio.h>
#include <stdlib.h>
#include <string.h>

#include "sja.h"

enum { TEXT = 1 << 22, ALL = 0xff };
enum { MOD = 0, CMR = 1, SR = 2, IR = 3, IER = 4, ALC = 11, EWLR = 13, BUFFER = 16, AMR = 20 };

static sja *watched, *stepped;
static uint32_t nodes;
static uint64_t state;
static unsigned long session, bits, stops, together, at_once, passed, offs;
static char one[TEXT], other[TEXT];

/* A random number below this one (xorshift). */
static uint32_t below(uint32_t limit)
{
    state ^= state << 13;
    state ^= state >> 7;
    state ^= state << 17;
    return (uint32_t)(state >> 16) % limit;
}

/* The value that both answered. Another status or value ends the test. */
static uint64_t same(const char *what, sja_answer of_watched, sja_answer of_stepped)
{
    if (of_watched.status != of_stepped.status || of_watched.value != of_stepped.value
        || of_watched.rose != of_stepped.rose) {
        printf("session %lu: %s: %u %lu watched, %u %lu bit by bit\n", session, what, (unsigned)of_watched.status,
               (unsigned long)of_watched.value, (unsigned)of_stepped.status, (unsigned long)of_stepped.value);
        exit(1);
    }
    return of_watched.value;
}

static uint64_t get(uint32_t node, uint32_t address)
{
    return same("sja_read", sja_read(watched, node, address), sja_read(stepped, node, address));
}

static void put(uint32_t node, uint32_t address, uint32_t value)
{
    same("sja_write", sja_write(watched, node, address, value), sja_write(stepped, node, address, value));
}

/* The lines that are active, a bit a node: told together, and of each node. */
static sja_answer lines(sja *of)
{
    sja_answer all = { .status = SJA_DONE };

    for (uint32_t node = 0; node < nodes; node++)
        all.value |= sja_irq(of, node).value << node;
    same("sja_lines", all, sja_lines(of));
    return all;
}

/* The number of the first of these nodes, counted from 1; 0 of none. */
static uint32_t first_of(uint64_t nodes)
{
    uint32_t node = 1;

    while (nodes != 0 && !(nodes >> (node - 1) & 1))
        node++;
    return nodes != 0 ? node : 0;
}

/* Runs bits in both, up to the first in which the line of a watched node rises. */
static void run(uint32_t count, uint32_t watch)
{
    uint64_t before, now = same("sja_irq", lines(watched), lines(stepped)), risen = 0;
    sja_answer ran = { .status = SJA_DONE };
#ifdef ALL_ARE_WATCHED
    const uint64_t stopping = ALL;
#else
    const uint64_t stopping = watch;
#endif

    for (; ran.value < count && risen == 0 && sja_bits(stepped, 1, 0).value == 1; ran.value++) {
        before = now;
        now = lines(stepped).value;
        risen = now & ~before & stopping;
        passed += (now & ~before & ~(uint64_t)watch) != 0;
    }
    ran.rose = first_of(risen);
    same("sja_bits", sja_bits(watched, count, watch), ran);
    same("sja_irq", lines(watched), lines(stepped));
    bits += ran.value;
    stops += risen != 0;
    together += (risen & (risen - 1)) != 0;
    at_once += risen != 0 && ran.value == 1;
}

/* Writes a frame of one of few identifiers, so that some contend, and asks for it, mostly as it is. */
static void ask(uint32_t node)
{
    put(node, BUFFER, below(9) | (below(4) == 0 ? 0x40 : 0) | (below(3) == 0 ? 0x80 : 0));
    put(node, BUFFER + 1, below(3));
    for (uint32_t i = 2; i < 13; i++)
        put(node, BUFFER + i, below(8) << 5);
    put(node, CMR, below(2) ? 0x01 : 1 + below(0x13));
}

/* Out of reset mode: mostly with a filter that passes all, and with all interrupts. Some have EWLR, RXERR or TXERR,
 * which stand behind one another, near a limit. */
static void start(uint32_t node)
{
    put(node, MOD, 0x01);
    for (uint32_t i = 0; i < 4 && below(8) != 0; i++)
        put(node, AMR + i, 0xff);
    if (below(3) == 0)
        put(node, EWLR + below(3), below(2) ? 240 + below(16) : 1 + below(140));
    put(node, IER, below(4) != 0 ? 0xff : 1u << below(8));
    put(node, MOD, below(6) != 0 ? 0x00 : below(8) << 1);
}

/* What a driver does next. */
static void act(uint32_t node)
{
    uint32_t kind = below(24), bit;

    if (kind < 4)                                           /* some ask at once */
        for (uint32_t each = 0; each < nodes; each++)
            if (below(2))
                ask(each);
    if (kind == 4 || kind == 5)
        put(node, CMR, below(2) ? 0x04 : below(32));
    if (kind >= 6 && kind < 11)
        get(node, IR);
    if (kind == 11 && get(node, SR) >> 7 && ++offs > 0)     /* bus-off: it comes back */
        put(node, MOD, 0x00);
    if (kind == 12)
        get(node, below(2) ? ALC + below(2) : below(256));
    if (kind == 13)
        put(node, IER, below(2) ? 0xff : below(256));
    if (kind == 14 && below(4) == 0)
        start(node);
    for (uint32_t left = kind == 15 ? 4 : kind == 16 && below(6) == 0 ? 36 : 0; left > 0; left--) {
        bit = (uint32_t)sja_now(stepped).value + below(40);
        same("sja_strike", sja_strike(watched, node, bit), sja_strike(stepped, node, bit));
        put(node, CMR, 0x01);
        run(60, below(3) != 0 ? ALL : 0);
    }
    if (kind > 16)
        run(below(300), below(3) == 0 ? 1u << node : below(2) ? below(256) : ALL);
}

/* One session with drivers of its own, and its plan and its report. */
static void drive(uint32_t version)
{
    uint32_t most = 1000 + below(9000);

    same("sja_new", sja_new(version, most, nodes, &watched), sja_new(version, most, nodes, &stepped));
    for (uint32_t node = 0; node < nodes; node++)
        if (below(12) != 0)
            start(node);
    for (uint32_t left = 60 + below(140); left > 0; left--)
        act(below(nodes));
    for (int i = 0; i < 2; i++) {
        sja_answer (*text)(sja *, char *, size_t) = i == 0 ? sja_plan : sja_report;
        uint64_t length = same("a text", text(watched, one, TEXT), text(stepped, other, TEXT));

        same("its bytes", (sja_answer){ .value = 0 }, (sja_answer){ .value = memcmp(one, other, length) != 0 });
    }
    same("sja_free", sja_free(watched), sja_free(stepped));
}

int main(int count, char **words)
{
    uint64_t seed = count > 1 ? strtoull(words[1], NULL, 10) : 1;
    unsigned long sessions = count > 2 ? strtoul(words[2], NULL, 10) : 100;

    for (session = 0; session < sessions; session++) {
        state = (seed + session + 1) * 0x9E3779B97F4A7C15u;
        nodes = 1 + (uint32_t)(session / 3 % 8);
        drive(1 + (uint32_t)(session % 3));
    }
    printf("%lu bits, %lu stops: %lu of two nodes at once, %lu in the first bit\n", bits, stops, together, at_once);
    printf("%lu rises that weren't watched, bus-off seen %lu times\n", passed, offs);
    return sessions < 100 || (stops > 100 && together > 0 && at_once > 0 && passed > 0 && offs > 0) ? 0 : 1;
}
