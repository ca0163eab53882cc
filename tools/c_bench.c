/* Accesses and bits over sja.h, to be counted from outside by `checks/c_bench`: those of a frame, or one kind alone.
 *
 *     c_bench KIND COUNT [NODES [BITS]]
 *
 * Two nodes, or so many, are out of reset mode, by version 3, in sessions of 2,000,000 bits, or of so many; with 0 they
 * are without an end. What is counted are the calls of the functions that are called `counted_..`; all else of a
 * repetition goes by the same calls of sja.h, uncounted. It prints how many calls were counted.
 */
#include <stdio.h>
#include <stdlib.h>
#include <string.h>

#include "sja.h"

enum { MOD = 0, CMR = 1, SR = 2, IR = 3, IER = 4, BUFFER = 16 };
enum { RM = 1, LOM = 2, STM = 4 };
enum { TR = 1, AT = 2, RRB = 4, CDO = 8, SRR = 16, FRAME_BITS = 150 };

static sja *bus;
static uint32_t nodes = 2, most_bits = 2000000;
static unsigned counted;

__attribute__((noinline)) uint64_t counted_read(uint32_t node, uint32_t address)
{
    counted++;
    return sja_read(bus, node, address).value;
}

__attribute__((noinline)) uint32_t counted_write(uint32_t node, uint32_t address, uint32_t value)
{
    counted++;
    return sja_write(bus, node, address, value).status;
}

__attribute__((noinline)) uint64_t counted_bits(uint32_t count, uint32_t watch)
{
    counted++;
    return sja_bits(bus, count, watch).value;
}

/* A session is made and let go. */
__attribute__((noinline)) uint32_t counted_new(void)
{
    sja *other;
    uint32_t status = sja_new(3, most_bits, nodes, &other).status;

    counted++;
    return status == SJA_DONE ? sja_free(other).status : status;
}

__attribute__((noinline)) uint32_t counted_strike(uint32_t node, uint32_t bit)
{
    counted++;
    return sja_strike(bus, node, bit).status;
}

/* Which lines are active: asked at once, or node by node. */
__attribute__((noinline)) uint64_t counted_lines(int is_each)
{
    uint64_t active = 0;

    counted++;
    for (uint32_t node = 0; is_each && node < nodes; node++)
        active |= sja_irq(bus, node).value << node;
    return is_each ? active : sja_lines(bus).value;
}

/* The byte at a place of the transmit buffer: an extended frame of eight bytes. */
static uint32_t byte_of(uint32_t place)
{
    return place == 0 ? 0x88 : place * 17 & 0xff;
}

/* The frame in the transmit buffer of a node goes to the others, uncounted. */
static void sent_by(uint32_t node)
{
    sja_write(bus, node, CMR, TR);
    sja_bits(bus, FRAME_BITS, 0);
}

static void sent(void)
{
    sent_by(0);
}

/* Every node but one releases its message, uncounted. */
static void released_but_by(uint32_t node)
{
    for (uint32_t other = 0; other < nodes; other++)
        if (other != node)
            sja_write(bus, other, CMR, RRB);
}

/* Puts the frame into the transmit buffer of a node, uncounted. */
static void loaded(uint32_t node)
{
    for (uint32_t place = 0; place < 13; place++)
        sja_write(bus, node, BUFFER + place, byte_of(place));
}

/* The 30 accesses of a frame, of which 15 are writes. */
static void frame(void)
{
    for (uint32_t place = 0; place < 13; place++)
        counted_write(0, BUFFER + place, byte_of(place));
    counted_write(0, CMR, TR);
    sja_bits(bus, FRAME_BITS, 0);
    counted_read(0, SR);
    counted_read(1, SR);
    for (uint32_t place = 0; place < 13; place++)
        counted_read(1, BUFFER + place);
    counted_write(1, CMR, RRB);
}

/* A command of node 0 that hands the frame over; node 1 releases it, uncounted. */
static void command(uint32_t value)
{
    counted_write(0, CMR, value);
    sja_bits(bus, FRAME_BITS, 0);
    released_but_by(0);
}

/* Node 1 has a message, releases it and sends one of its own by one byte, which is three steps. */
static void all_commands(void)
{
    sent();
    counted_write(1, CMR, CDO | RRB | TR);
    sja_bits(bus, FRAME_BITS, 0);
    released_but_by(1);
    for (uint32_t other = 2; other < nodes; other++)
        sja_write(bus, other, CMR, RRB);
}

/* Node 1 leaves reset mode with another LOM and STM than it had, which is two steps. */
static void other_mode(void)
{
    static uint32_t modes = STM;

    sja_write(bus, 1, MOD, RM);
    sja_bits(bus, 1, 0);
    modes = modes == STM ? LOM : STM;
    counted_write(1, MOD, modes);
    sja_bits(bus, 12, 0);
}

/* Node 1 goes to reset mode and out of it, of which one is counted. */
static void mode(int stop)
{
    if (stop) {
        counted_write(1, MOD, 1);
        sja_write(bus, 1, MOD, 0);
    } else {
        sja_write(bus, 1, MOD, 1);
        counted_write(1, MOD, 0);
    }
}

/* As many bits as a frame and the idle ones behind it, in which node 0 sends one or not, with node 0 watched or no
 * node. */
static void bits(int busy, uint32_t watch)
{
    if (busy)
        sja_write(bus, 0, CMR, TR);
    counted_bits(FRAME_BITS, watch);
    if (busy)
        released_but_by(0);
}

static int once(const char *kind)
{
    if (!strcmp(kind, "frame-read") || !strcmp(kind, "frame-write"))
        frame();
    else if (!strcmp(kind, "read-SR"))
        counted_read(1, SR);
    else if (!strcmp(kind, "read-IR"))
        counted_read(1, IR);
    else if (!strcmp(kind, "write-IER"))
        counted_write(1, IER, 0xff);
    else if (!strcmp(kind, "write-MOD"))
        counted_write(1, MOD, 0);
    else if (!strcmp(kind, "write-buffer"))
        counted_write(1, BUFFER, byte_of(0));
    else if (!strcmp(kind, "AT"))
        counted_write(1, CMR, AT);
    else if (!strcmp(kind, "CDO"))
        counted_write(1, CMR, CDO);
    else if (!strcmp(kind, "RRB-empty"))
        counted_write(1, CMR, RRB);
    else if (!strcmp(kind, "CDO-RRB-empty"))
        counted_write(1, CMR, CDO | RRB);
    else if (!strcmp(kind, "TR"))
        command(TR);
    else if (!strcmp(kind, "SRR"))
        command(SRR);
    else if (!strcmp(kind, "RRB"))
        sent(), counted_write(1, CMR, RRB);
    else if (!strcmp(kind, "CDO-RRB"))
        sent(), counted_write(1, CMR, CDO | RRB);
    else if (!strcmp(kind, "CDO-RRB-TR"))
        all_commands();
    else if (!strcmp(kind, "start-modes"))
        other_mode();
    else if (!strcmp(kind, "start") || !strcmp(kind, "stop"))
        mode(!strcmp(kind, "stop"));
    else if (!strcmp(kind, "new"))
        counted_new();
    else if (!strcmp(kind, "strike"))       /* any order: 7919 and 1,900,000 have no common factor */
        counted_strike(counted % nodes, 100 + (uint32_t)((uint64_t)counted * 7919 % 1900000));
    else if (!strcmp(kind, "lines") || !strcmp(kind, "irq-of-each"))
        counted_lines(!strcmp(kind, "irq-of-each"));
    else if (!strncmp(kind, "bits-", 5))
        bits(strstr(kind, "busy") != NULL, strstr(kind, "watched") != NULL);
    else
        return 0;
    return 1;
}

int main(int words, char **word)
{
    int count = words >= 3 ? atoi(word[2]) : 0;

    nodes = words >= 4 ? (uint32_t)atoi(word[3]) : nodes;
    most_bits = words >= 5 ? (uint32_t)atoi(word[4]) : most_bits;
    if (count < 1 || nodes < 2 || sja_new(3, most_bits, nodes, &bus).status != SJA_DONE)
        return 2;
    for (uint32_t node = 0; node < nodes; node++)
        sja_write(bus, node, MOD, 0);
    sja_bits(bus, 20, 0);
    loaded(0);
    loaded(1);
    for (int turn = 0; turn < count; turn++)
        if (!once(word[1]))
            return 2;
    printf("%u calls\n", counted);
    return sja_free(bus).status == SJA_DONE ? 0 : 1;
}
