/* A test of a driver in C, to copy: whatever bit its controller sees wrong while a frame comes, the driver has to receive
 * the message once. Prints the strikes after which it doesn't, and how many hold; the status is 0 where all do.
 *
 * Node 1 is the driver's, node 0 the rest of the bus. A driver of your own takes the place of `received`.
 */
#include <stdio.h>

#include "sja.h"

enum { FIRST = 11, LAST = 75 }; /* the bits of the frame: nodes that start at once are on a quiet bus from bit 11 on */

/* The driver under test: how often it receives the message with the data 11. It polls SR for RBS, and gives RRB. */
static unsigned received(sja *bus)
{
    unsigned count = 0;

    while (sja_read(bus, 1, 2).value & 0x01) {
        if (sja_read(bus, 1, 19).value == 0x11)
            count++;
        sja_write(bus, 1, 1, 0x04);
    }
    return count;
}

/* Starts a node, with a filter that each identifier passes. */
static void start(sja *bus, uint32_t node)
{
    for (uint32_t mask = 20; mask < 24; mask++)
        sja_write(bus, node, mask, 0xff);
    sja_write(bus, node, 0, 0x00);
}

/* Whether the message is received once where node 1 sees this bit wrong. */
static int holds(uint32_t bit)
{
    static const uint8_t frame[] = { 0x01, 0x24, 0x60, 0x11 }; /* one byte, identifier 123, data 11 */
    unsigned count;
    sja *bus;

    if (sja_new(3, 1000, 2, &bus).status != SJA_DONE)
        return 0;
    start(bus, 0);
    start(bus, 1);
    sja_strike(bus, 1, bit);
    for (uint32_t place = 0; place < sizeof frame; place++)
        sja_write(bus, 0, 16 + place, frame[place]);
    sja_write(bus, 0, 1, 0x01);
    sja_bits(bus, 400, 0);
    count = received(bus);
    if (count != 1)
        printf("node 1 struck at bit %u: received %u times\n", bit, count);
    return sja_free(bus).status == SJA_DONE && count == 1;
}

int main(void)
{
    unsigned held = 0;

    for (uint32_t bit = FIRST; bit <= LAST; bit++)
        held += holds(bit);
    printf("%u of %u strikes hold\n", held, LAST - FIRST + 1);
    return held == LAST - FIRST + 1 ? 0 : 1;
}
