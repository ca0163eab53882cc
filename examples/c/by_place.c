/* Node 1 sees the second stuff bit of a frame wrong: the bus runs up to it, and there the bit is struck. */
#include <stdio.h>
#include "sja.h"

int main(void)
{
    static const unsigned char frame[] = { 0x02, 0x24, 0x60, 0x11, 0x22 };     /* 123#1122 */
    char report[1000] = "";
    sja *bus;

    sja_new(3, 1000, 2, &bus);
    sja_write(bus, 0, 0, 0x00);                     /* node 0, MOD: out of reset mode */
    sja_write(bus, 1, 0, 0x00);
    for (unsigned i = 0; i < sizeof frame; i++)
        sja_write(bus, 0, 16 + i, frame[i]);
    sja_write(bus, 0, 1, 0x01);                     /* node 0, CMR: TR */
    if (sja_to(bus, 1, SJA_STUFF + 2, 200).value != 1)
        return 1;
    printf("struck at bit %u, place %x\n", (unsigned)sja_now(bus).value, (unsigned)sja_place(bus, 1).value);
    sja_strike(bus, 1, sja_now(bus).value);
    printf("CRC delimiter in 99 bits: %u\n", (unsigned)sja_to(bus, 0, SJA_CRC_DELIMITER, 99).value);
    printf("no place %u\n", (unsigned)sja_to(bus, 9, SJA_ID + 29, 1).status);
    printf("no node %u %u\n", (unsigned)sja_to(bus, 9, SJA_ID, 1).status, (unsigned)sja_place(bus, 2).status);
    printf("spent: %u\n", (unsigned)sja_to(bus, 0, SJA_SRR, 20000000).value);
    printf("ECC %02x\n", (unsigned)sja_read(bus, 1, 12).value);     /* node 1, ECC */
    sja_report(bus, report, sizeof report);
    fputs(report, stdout);
    return sja_free(bus).status == SJA_DONE ? 0 : 1;
}
