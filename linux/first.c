/* SPDX-License-Identifier: GPL-2.0-only */
/* The first struck frame: can0 sends, can1 sees a stuff bit wrong, and what Linux's driver makes of it is printed. */
#include <stdio.h>

#include "bus.h"
#include "sja.h"

int main(void)
{
    char text[FRAME_TEXT];

    if (bus_begin(2, 100000) != 0) {
        fputs("there is no bus\n", stderr);
        return 1;
    }
    for (unsigned node = 0; node < 2; node++)
        if (bus_link(node, "bitrate 500000 restart-ms 100 berr-reporting on") != 0 || bus_up(node) != 0)
            return 1;
    bus_run(30);                            /* both take part in the bus */
    bus_strike_at(1, 1, SJA_STUFF + 2);
    bus_send(0, "123#1122");
    bus_run(1000);
    for (unsigned node = 0; node < 2; node++)
        for (size_t i = 0; i < bus_frames(node); i++) {
            bus_frame_text(bus_frame(node, i), text);
            printf("bit %lu can%u %s\n", (unsigned long)bus_frame(node, i)->bit, node, text);
        }
    fputs(bus_dmesg(), stdout);
    return bus_end() != 0;
}
