/* SPDX-License-Identifier: GPL-2.0-only */
/* Scenarios of the timing sweep in which no bit is struck. */
#include <stdio.h>

#include "check.h"
#include "scenario.h"

enum { NODES = SCENARIO_NODES };

/* Frames of both formats back to back, with arbitration that each device loses. */
void act_exchange(void)
{
    static const char *const frames[NODES][4] = { { "123#1122334455667788", "12345678#AA", "0A0#R3", "100#" },
                                                  { "122#1122334455", "00000345#BBCC", "0A1#R1", "101#DD" },
                                                  { "124#11", "1FFFF678#0102030405060708", "7A2#", "102#EEEEEE" } };

    for (unsigned i = 0; i < 4; i++)
        for (unsigned node = 0; node < NODES; node++)
            say(node, frames[node][i]);
    bus_run(2500);
}

/* Each frame is handed over while the one before it is received. */
void act_answers(void)
{
    static const char *const frames[] = { "123#1122", "223#3344", "323#5566", "12300000#77", "423#", "523#8899AABB" };

    for (unsigned i = 0; i < 6; i++) {
        say(i % NODES, frames[i]);
        bus_run(40);
    }
    bus_run(1500);
}

/* Identifiers of both formats that agree in their low bits, or in their high ones. */
void act_alike(void)
{
    static const char *const frames[] = { "123#01", "00000123#02", "048C0000#03", "7FF#04", "000007FF#05",
                                          "1FFC0000#06", "000#07", "00000000#08", "00000123#R2", "123#R2",
                                          "1FFFFFFF#09", "1FFFF7FF#0A" };

    for (unsigned i = 0; i < 12; i++) {
        say(i % NODES, frames[i]);
        bus_run(i % 4 == 3 ? 300 : 10);
    }
    bus_run(1500);
}

/* Two devices send without an end, as it seems, to a third: as much as their queues take. */
void act_flood(void)
{
    char text[FRAME_TEXT];

    for (unsigned i = 0; i < 60; i++) {
        for (unsigned node = 1; node < NODES; node++) {
            sprintf(text, "%X%02X#", 2 + node, i);
            bus_send(node, text);
        }
        bus_run(i < 4 ? 10 : 95);
    }
    bus_run(1500);
}

/* Frames come while the handler of a device is held, which has one of its own to send. */
void act_overrun(void)
{
    bus_hold(0, 1);
    for (unsigned i = 0; i < 4; i++)
        for (unsigned node = 1; node < NODES; node++)
            say_numbered(node, "1%u%u#1122334455667788", i, node);
    say(0, "050#01");
    bus_run(1250);
    bus_hold(0, 0);
    say(0, "051#02");
    say(1, "052#03");
    bus_run(1800);
}

/* A FIFO is nearly full as its handler comes, and runs over while it is read. */
void act_nearly_full(void)
{
    bus_hold(0, 1);
    for (unsigned i = 0; i < 6; i++)
        for (unsigned node = 1; node < NODES; node++)
            say_numbered(node, "1%u%u#1122334455667788", i, node);
    bus_run(600);
    bus_hold(0, 0);
    bus_run(2200);
}

void act_loopback(void)
{
    say(0, "123#1122");
    say(1, "124#3344");
    say(0, "12345678#55");
    say(2, "126#R2");
    bus_run(1500);
}

/* A device goes down with what is pending, and comes up again. */
void act_down_and_up(void)
{
    act_exchange();
    say(0, "223#1122334455667788");
    say(1, "224#1122");
    say(2, "225#1122");
    say(0, "12FFF678#11");
    bus_run(130);
    check_number("down", bus_down(1), 0);
    bus_run(60);
    check_number("up", bus_up(1), 0);
    bus_run(50);
    say(1, "226#00");
    say(0, "227#00");
    bus_run(1500);
}
