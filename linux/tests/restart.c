/* SPDX-License-Identifier: GPL-2.0-only */
/* Bus-off and the way back: by restart-ms, and by hand. And devices that go down in each bit of a frame. */
#include <errno.h>
#include <string.h>

#include "check.h"
#include "place.h"
#include "strikes.h"
#include "tests.h"

enum { BUSOFF = 0x40, RESTARTED = 0x100, MOD = 0, RM = 1, TRIES = 40 };

static const char frame[] = "123#1122";

static void go_bus_off(void)
{
    check_number("cansend", bus_send(0, frame), 0);
    check_number("frames to bus-off", strike_to_bus_off(0, bus_place(frame, "data 1.4"), TRIES), 32);
    check_number("error frames of bus-off", count_errors(0, BUSOFF, 0), 1);
    check_number("bus-off", details_of(0).bus_off, 1);
    check_number("carrier", details_of(0).has_carrier, 0);
    check_number("cansend without a carrier", bus_send(0, "125#"), 0);
}

static void is_back(void)
{
    check_number("state", details_of(0).state, STATE_ACTIVE);
    check_number("restarts", details_of(0).restarts, 1);
    check_number("error frames of the restart", count_errors(0, RESTARTED, 0), 1);
    check_number("carrier", details_of(0).has_carrier, 1);
    check_number("txerr", details_of(0).txerr, 0);
    check_number("cansend", bus_send(0, "124#"), 0);
    bus_run(200);
    check_frames(1, FRAME_RECEIVED, "124#");
    check_frames(2, FRAME_RECEIVED, "124#");
    check_frames(0, FRAME_SENT, "124#");
}

/* 100 ms are 50,000 bits at 500 kbit/s. What was under way is dropped, and isn't sent after the restart. */
void test_restart(void)
{
    begin_up(3, 200000, "bitrate 500000 restart-ms 100");
    go_bus_off();
    check(strstr(bus_dmesg(), "bus-off, scheduling restart in 100 ms") != NULL, "the log tells of no restart");
    bus_run(49900);
    check_number("state after 99.8 ms", details_of(0).state, STATE_BUS_OFF);
    bus_run(200);
    is_back();
    end_bus();
}

void test_manual_restart(void)
{
    begin_up(3, 200000, "bitrate 500000");
    check_number("restart where the state is error active", bus_link(0, "restart"), -EBUSY);
    go_bus_off();
    bus_run(60000);
    check_number("state after 120 ms", details_of(0).state, STATE_BUS_OFF);
    check_number("restart", bus_link(0, "restart"), 0);
    bus_run(20);
    is_back();
    check_number("restart once more", bus_link(0, "restart"), -EBUSY);
    end_bus();
}

/* One device goes down so many bits after the SOF. The other two lose nothing that both should have, and after it all
 * three exchange frames as before. */
static void go_down(unsigned who, uint32_t bits)
{
    begin_up(3, 20000, "bitrate 500000 berr-reporting on");
    check_number("cansend", bus_send(0, frame), 0);
    check(bus_to_frame(100) >= 0, "no frame begins");
    bus_run(bits);
    check_number("down", bus_down(who), 0);
    check_number("MOD", bus_peek(who, MOD), RM);
    check_number("state", details_of(who).state, STATE_STOPPED);
    bus_run(1000);
    if (who == 0)
        check(count_frames(1, FRAME_RECEIVED, frame) == count_frames(2, FRAME_RECEIVED, frame),
              "down after bit %u: the frame is with one receiver alone", (unsigned)bits);
    else
        check(count_frames(3 - who, FRAME_RECEIVED, frame) == 1 && count_frames(0, FRAME_SENT, frame) == 1,
              "down after bit %u: the frame isn't sent and received once", (unsigned)bits);
    check_number("up", bus_up(who), 0);
    bus_run(30);
    check_number("cansend", bus_send(who, "124#"), 0);
    check_number("cansend", bus_send((who + 1) % 3, "126#"), 0);
    bus_run(1000);
    for (unsigned node = 0; node < 3; node++) {
        check(count_frames(node, FRAME_RECEIVED, "124#") == (node != who), "down after bit %u: 124#", (unsigned)bits);
        check(count_frames(node, FRAME_RECEIVED, "126#") == (node != (who + 1) % 3), "down after bit %u: 126#",
              (unsigned)bits);
    }
    end_bus();
}

void test_going_down(void)
{
    struct place places[PLACES];
    size_t count = bus_places(frame, places);

    for (unsigned who = 0; who < 2; who++)
        for (uint32_t bit = 0; bit < count + 2; bit++)
            go_down(who, bit);
}
