/* Node 0 sends a frame to node 1, which sees a bit of it wrong. */
#include <stdio.h>
#include "sja.h"

int main(void)
{
    char report[1000] = "";
    sja *bus;

    sja_new(3, 1000, 2, &bus);              /* version 3, at most 1,000 bits, two nodes */
    sja_write(bus, 0, 0, 0x00);             /* node 0, MOD: out of reset mode */
    sja_write(bus, 1, 0, 0x00);             /* node 1 too */
    sja_write(bus, 0, 1, 0x01);             /* node 0, CMR: TR */
    sja_strike(bus, 1, 16);                 /* node 1 sees the other level in bit 16 */
    sja_bits(bus, 200, 0);                  /* 200 bits run */
    printf("ECC %02x\n", (unsigned)sja_read(bus, 1, 12).value);     /* node 1, ECC */
    sja_report(bus, report, sizeof report); /* what happened */
    fputs(report, stdout);
    return sja_free(bus).status == SJA_DONE ? 0 : 1;
}
