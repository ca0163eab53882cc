/* SPDX-License-Identifier: GPL-2.0-only */
/* Several devices at once: arbitration, eight drivers that contend, an overrun. */
#include <errno.h>
#include <stdio.h>

#include "check.h"
#include "tests.h"

enum { CRTL = 0x4, RX_OVERFLOW = 0x1, SR = 2, DOS = 0x02, DRIVERS = 8, EACH = 10 };

/* Two frames begin in one bit: the lower identifier wins, and the loser is told where it lost. */
void test_arbitration(void)
{
    begin_up(3, 20000, "bitrate 500000");
    check_number("cansend", bus_send(0, "123#11"), 0);
    check_number("cansend", bus_send(1, "122#22"), 0);
    bus_run(500);
    check_frames(2, FRAME_RECEIVED, "122#22 123#11");
    check_frames(0, FRAME_ERROR, "20000202#0A00000000000000");
    check_frames(1, FRAME_ERROR, "");
    check_number("arbitration lost", details_of(0).arbitration_lost, 1);
    end_bus();
}

static void frame_of(char text[FRAME_TEXT], unsigned node, unsigned number)
{
    if (number % 2 == 0)
        sprintf(text, "%03X#%02X%02X", 0x100 + 8 * number + node, node, number);
    else
        sprintf(text, "%08X#%02X%02X%02X", 0x3000000 * number + 1000 * node, node, number, 0xff);
}

/* Eight drivers with full queues: each frame comes once to each of the seven others, and once back as sent. */
void test_contention(void)
{
    char text[FRAME_TEXT];

    begin_up(DRIVERS, 100000, "bitrate 500000");
    for (unsigned number = 0; number < EACH; number++)
        for (unsigned node = 0; node < DRIVERS; node++) {
            frame_of(text, node, number);
            check_number("cansend", bus_send(node, text), 0);
        }
    bus_run(80 * 130);
    for (unsigned node = 0; node < DRIVERS; node++)
        for (unsigned number = 0; number < EACH; number++) {
            frame_of(text, node, number);
            check(count_frames(node, FRAME_SENT, text) == 1, "%s isn't sent once", text);
            for (unsigned other = 0; other < DRIVERS; other++)
                check(count_frames(other, FRAME_RECEIVED, text) == (other != node), "can%u hasn't %s once", other,
                      text);
        }
    check(details_of(7).arbitration_lost > 5, "can7 lost arbitration %u times",
          (unsigned)details_of(7).arbitration_lost);
    check_number("frames that wait", details_of(7).waiting, 0);
    for (unsigned number = 0; number < 12; number++)
        check_number("cansend to a queue of ten", bus_send(0, "123#"), number < 11 ? 0 : -ENOBUFS);
    bus_run(3000);
    end_bus();
}

/* Seven frames come while no handler runs: a FIFO of 64 bytes has room for five of them. */
static void overrun(void)
{
    char text[FRAME_TEXT];

    for (unsigned node = 1; node < DRIVERS; node++) {
        sprintf(text, "10%u#1122334455667788", node);
        check_number("cansend", bus_send(node, text), 0);
    }
    bus_delay(1000);
    bus_run(1000);
}

/* The driver is told once of each overrun, gets what was stored, clears the status, and receives as before. */
void test_overrun(void)
{
    begin_up(DRIVERS, 50000, "bitrate 500000");
    overrun();
    check_frames(0, FRAME_RECEIVED, "101#1122334455667788 102#1122334455667788 103#1122334455667788 "
                                    "104#1122334455667788 105#1122334455667788");
    check_number("error frames of the overrun", count_errors(0, CRTL, RX_OVERFLOW), 1);
    check_number("overruns", (long)details_of(0).rx_over_errors, 1);
    check_number("DOS", bus_peek(0, SR) & DOS, 0);
    check_number("cansend", bus_send(1, "123#"), 0);
    bus_run(500);
    check_number("the frame after it", count_frames(0, FRAME_RECEIVED, "123#"), 1);
    overrun();
    check_number("error frames of both overruns", count_errors(0, CRTL, RX_OVERFLOW), 2);
    check_number("overruns", (long)details_of(0).rx_over_errors, 2);
    end_bus();
}
