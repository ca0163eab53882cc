/* SPDX-License-Identifier: GPL-2.0-only */
/* Devices come up and go down, links are changed, frames keep their form. */
#include <errno.h>
#include <string.h>

#include "check.h"
#include "place.h"
#include "tests.h"

enum { MOD = 0, IER = 4, BTR0 = 6, BTR1 = 7, RM = 1, LOM = 2, STM = 4, STATE_ACTIVE = 0, STATE_STOPPED = 4 };

/* The notation of frames is read and written, and the bits of a frame are those of the standard. */
void test_notation(void)
{
    static const char *const frames[] = { "123#", "7FF#1122334455667788", "12345678#00", "123#R", "123#R8",
                                          "12345678#R4", "123#1122334455667788_9", "00000001#1122334455667788_F" };
    static const char *const none[] = { "", "123", "12#11", "800#11", "20000000#11", "123#1", "123#112233445566778899",
                                        "123#11_9", "123#R9", "xyz#11" };
    struct bus_frame frame;
    char text[FRAME_TEXT];

    for (size_t i = 0; i < sizeof frames / sizeof frames[0]; i++) {
        check(bus_frame_read(frames[i], &frame) == 0, "`%s` isn't read", frames[i]);
        bus_frame_text(&frame, text);
        check(strcmp(text, frames[i]) == 0, "`%s` is written as `%s`", frames[i], text);
    }
    for (size_t i = 0; i < sizeof none / sizeof none[0]; i++)
        check(bus_frame_read(none[i], &frame) == -EINVAL, "`%s` is read", none[i]);
    check_number("DLC.1 of 123#1122", bus_place("123#1122", "DLC.1"), 18);
    check_number("stuff.2 of 123#1122", bus_place("123#1122", "stuff.2"), 40);
    check_number("EOF.7 of 12345678#1122334455667788", bus_place("12345678#1122334455667788", "EOF.7"), 130);
    check_number("ID.29 of 123#1122", bus_place("123#1122", "ID.29"), -1);
}

static void exchange(void)
{
    unsigned before[2] = { count_kind(0, FRAME_RECEIVED), count_kind(1, FRAME_RECEIVED) };

    check_number("cansend", bus_send(0, "123#1122"), 0);
    check_number("cansend", bus_send(1, "12345678#33"), 0);
    bus_run(400);
    check_number("frames 12345678#33 at can0", count_frames(0, FRAME_RECEIVED, "12345678#33"), before[0] + 1);
    check_number("frames 123#1122 at can1", count_frames(1, FRAME_RECEIVED, "123#1122"), before[1] + 1);
}

void test_open_and_close(void)
{
    check_number("bus_begin", bus_begin(2, 50000), 0);
    check_number("ip link set up without a bit rate", bus_up(0), -EINVAL);
    check(strstr(bus_dmesg(), "bit-timing not yet defined") != NULL, "the log doesn't say why it isn't up");
    check_number("cansend to a device that is down", bus_send(0, "123#"), -ENETDOWN);
    for (unsigned node = 0; node < 2; node++)
        check_number("bitrate", bus_link(node, "bitrate 500000"), 0);
    for (unsigned i = 0; i < 20; i++) {
        for (unsigned node = 0; node < 2; node++) {
            check_number("ip link set up", bus_up(node), 0);
            check_number("MOD", bus_peek(node, MOD), 0);
            check_number("state", details_of(node).state, STATE_ACTIVE);
        }
        exchange();
        for (unsigned node = 0; node < 2; node++) {
            check_number("ip link set down", bus_down(node), 0);
            check_number("MOD", bus_peek(node, MOD), RM);
            check_number("IER", bus_peek(node, IER), 0);
            check_number("state", details_of(node).state, STATE_STOPPED);
        }
    }
    end_bus();
}

/* What `ip link` asks comes to the registers, and what it may not ask is refused. */
void test_link(void)
{
    check_number("bus_begin", bus_begin(1, 10000), 0);
    check_number("words that ip hasn't", bus_link(0, "bitrate fast"), -EINVAL);
    check_number("a mode that the driver hasn't", bus_link(0, "fd on"), -EOPNOTSUPP);
    check_number("a bit rate that it can't have", bus_link(0, "bitrate 3000000") == 0, 0);
    check_number("bitrate 125000", bus_link(0, "bitrate 125000"), 0);
    check_number("BTR0", bus_peek(0, BTR0), 0x03);
    check_number("BTR1", bus_peek(0, BTR1), 0x1c);
    check_number("bit rate", details_of(0).bitrate, 125000);
    check_number("sample point", details_of(0).sample_point, 875);
    check_number("triple-sampling", bus_link(0, "bitrate 500000 triple-sampling on restart-ms 100"), 0);
    check_number("restart-ms", bus_link(0, "restart-ms 100"), 0);
    check_number("restart-ms", details_of(0).restart_ms, 100);
    check_number("time segments", bus_link(0, "tq 125 prop-seg 6 phase-seg1 7 phase-seg2 2 sjw 1"), 0);
    check_number("bit rate", details_of(0).bitrate, 500000);
    check_number("listen-only presume-ack", bus_link(0, "listen-only on presume-ack on"), 0);
    check_number("up", bus_up(0), 0);
    check_number("MOD", bus_peek(0, MOD), LOM | STM);
    check_number("bitrate while it is up", bus_link(0, "bitrate 250000"), -EBUSY);
    check_number("a mode while it is up", bus_link(0, "one-shot on"), -EBUSY);
    check_number("restart-ms while it is up", bus_link(0, "restart-ms 1"), -EBUSY);
    check_number("down", bus_down(0), 0);
    check_number("restart while it is down", bus_link(0, "restart-ms 0 restart"), -EINVAL);
    end_bus();
}

/* A DLC of 9 to 15 has eight bytes. With cc-len8-dlc it comes through, at the sender and at the receiver. */
void test_dlc(void)
{
    begin_up(2, 20000, "bitrate 500000 cc-len8-dlc on");
    check_number("cansend", bus_send(0, "123#1122334455667788_9"), 0);
    check_number("cansend", bus_send(0, "12345678#1122334455667788_F"), 0);
    check_number("cansend", bus_send(0, "123#1122334455667788"), 0);
    bus_run(1000);
    check_frames(1, FRAME_RECEIVED, "123#1122334455667788_9 12345678#1122334455667788_F 123#1122334455667788");
    check_number("bytes", (long)details_of(1).rx_bytes, 24);
    check_number("down", bus_down(1), 0);
    check_number("link", bus_link(1, "cc-len8-dlc off"), 0);
    check_number("up", bus_up(1), 0);
    check_number("cansend", bus_send(0, "124#1122334455667788_A"), 0);
    check_number("cansend", bus_send(0, "125#R8"), 0);
    bus_run(1000);
    check_number("a DLC of 10 as 8", count_frames(1, FRAME_RECEIVED, "124#1122334455667788"), 1);
    check_number("a remote frame", count_frames(1, FRAME_RECEIVED, "125#R8"), 1);
    end_bus();
}
