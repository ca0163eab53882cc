/* SPDX-License-Identifier: GPL-2.0-only */
/* The modes that `ip link` switches, each with and without. */
#include <errno.h>
#include <string.h>

#include "check.h"
#include "sja.h"
#include "tests.h"

/* Classes and bytes of linux/can/error.h. */
enum { PROT = 0x8, BUSERROR = 0x80, STATE_PASSIVE = 2 };

/* A stuff bit of the first frame is seen wrong: with berr-reporting both devices tell of it, and without neither does.
 * */
void test_berr_reporting(void)
{
    static const char *const words[] = { "bitrate 500000 berr-reporting on", "bitrate 500000 berr-reporting off" };

    for (int i = 0; i < 2; i++) {
        begin_up(2, 20000, words[i]);
        check_number("strike", bus_strike_at(1, 1, SJA_STUFF + 2), 0);
        check_number("cansend", bus_send(0, "123#1122"), 0);
        bus_run(1000);
        check_frames(1, FRAME_RECEIVED, "123#1122");
        check_frames(0, FRAME_SENT, "123#1122");
        check_frames(1, FRAME_ERROR, i == 0 ? "20000288#0000040800000001" : "");
        check_number("bus errors of can0", details_of(0).bus_error, i == 0 ? 1 : 0);
        check_number("bus errors of can1", details_of(1).bus_error, i == 0 ? 1 : 0);
        check_number("transmit errors of can0", (long)details_of(0).tx_errors, i == 0 ? 1 : 0);
        end_bus();
    }
}

/* A device that listens only receives what the others exchange, and neither acknowledges nor sends. */
void test_listen_only(void)
{
    begin_up(3, 20000, "bitrate 500000");
    check_number("down", bus_down(2), 0);
    check_number("listen-only", bus_link(2, "listen-only on"), 0);
    check_number("up", bus_up(2), 0);
    bus_run(30);
    check_number("cansend", bus_send(2, "001#"), 0);
    check_number("cansend", bus_send(0, "123#1122"), 0);
    bus_run(500);
    check_frames(2, FRAME_RECEIVED, "123#1122");
    check_frames(1, FRAME_RECEIVED, "123#1122");
    check_number("dropped", (long)details_of(2).tx_dropped, 1);
    check_number("down", bus_down(1), 0);
    check_number("cansend", bus_send(0, "124#"), 0);
    bus_run(3000);
    check_number("echoes of a frame that no one acknowledges", count_frames(0, FRAME_SENT, "124#"), 0);
    end_bus();
}

/* One shot: a frame that fails isn't repeated, and none comes back as sent. */
void test_one_shot(void)
{
    begin_up(2, 20000, "bitrate 500000 one-shot on berr-reporting on");
    check_number("strike", bus_strike_at(0, 1, SJA_DATA + 14), 0);
    check_number("cansend", bus_send(0, "123#1122"), 0);
    bus_run(1000);
    check_frames(1, FRAME_RECEIVED, "");
    check_frames(0, FRAME_SENT, "");
    check_number("sent", (long)details_of(0).tx_packets, 0);
    check(details_of(0).tx_errors >= 1, "no transmit error is counted");
    check_number("cansend", bus_send(0, "124#"), 0);
    bus_run(1000);
    check_frames(1, FRAME_RECEIVED, "124#");
    check_frames(0, FRAME_SENT, "124#");
    end_bus();
}

/* Loopback: a device receives its own frames, too. */
void test_loopback(void)
{
    begin_up(2, 20000, "bitrate 500000 loopback on");
    check_number("cansend", bus_send(0, "123#1122"), 0);
    bus_run(500);
    check_frames(0, FRAME_SENT, "123#1122");
    check_frames(0, FRAME_RECEIVED, "123#1122");
    check_frames(1, FRAME_RECEIVED, "123#1122");
    end_bus();
}

/* Presume-ack: alone at a bus, a frame counts as sent. */
void test_presume_ack(void)
{
    begin_up(1, 20000, "bitrate 500000 presume-ack on berr-reporting on");
    check_number("cansend", bus_send(0, "123#1122"), 0);
    check_number("cansend", bus_send(0, "12345678#R"), 0);
    bus_run(500);
    check_frames(0, FRAME_SENT, "123#1122 12345678#R");
    check_frames(0, FRAME_ERROR, "");
    end_bus();
}

/* Alone without it a frame is tried again and again. The device becomes error passive, and never goes bus-off; as
 * another one comes up, the frame is sent. */
void test_no_acknowledgement(void)
{
    check_number("bus_begin", bus_begin(2, 50000), 0);
    for (unsigned node = 0; node < 2; node++)
        check_number("link", bus_link(node, "bitrate 500000 berr-reporting on"), 0);
    check_number("up", bus_up(0), 0);
    check_number("cansend", bus_send(0, "123#1122"), 0);
    bus_run(10000);
    check_frames(0, FRAME_SENT, "");
    check_number("state", details_of(0).state, STATE_PASSIVE);
    check_number("txerr", details_of(0).txerr, 128);
    check_number("bus-off", details_of(0).bus_off, 0);
    check(count_errors(0, PROT | BUSERROR, 0) > 20, "few error frames tell of a missing acknowledgement");
    check(bus_frame(0, 0)->data[3] == 0x19, "the first error is told at %02x, and not in the acknowledge slot",
          bus_frame(0, 0)->data[3]);
    check_number("up", bus_up(1), 0);
    bus_run(1000);
    check_frames(0, FRAME_SENT, "123#1122");
    check_frames(1, FRAME_RECEIVED, "123#1122");
    check(details_of(0).state <= STATE_PASSIVE, "the state is %u", (unsigned)details_of(0).state);
    end_bus();
}
