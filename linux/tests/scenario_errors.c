/* SPDX-License-Identifier: GPL-2.0-only */
/* Scenarios of the timing sweep in which bits are struck. */
#include "check.h"
#include "scenario.h"
#include "sja.h"
#include "strikes.h"

enum { NODES = SCENARIO_NODES };

/* Strikes an identifier's bit in these frames of can0: each costs its sender 8 of TXERR. */
static void strike_identifiers(unsigned first, unsigned last, unsigned step)
{
    for (unsigned frame = first; frame <= last; frame += step)
        bus_strike_at(0, frame, SJA_ID + 20);
}

static void say_both_formats(uint32_t between)
{
    for (unsigned i = 0; i < 2; i++) {
        say(0, i == 0 ? "123#1122" : "1230ABCD#11");
        say(1, i == 0 ? "124#1122" : "1240ABCD#11");
        say(2, i == 0 ? "125#1122" : "1250ABCD#11");
        bus_run(between);
    }
}

void act_strikes(void)
{
    bus_strike_at(0, 1, SJA_DATA + 12);
    bus_strike_at(1, 3, SJA_CRC + 7);
    bus_strike_at(2, 4, SJA_EOF + 6);
    bus_strike_at(1, 5, SJA_ACK);
    bus_strike_at(0, 6, SJA_ID + 22);
    bus_strike_at(2, 6, SJA_INTERMISSION + 1);
    say_both_formats(0);
    bus_run(2800);
}

/* Can0 is struck until it goes bus-off, and restarts after 500 bits, while the others send. */
void act_bus_off(void)
{
    strike_identifiers(1, 40, 1);
    say(0, "001#11");
    say(1, "323#1122");
    bus_run(400);
    say(0, "002#");
    say(2, "324#1122");
    bus_run(1200);
    say(1, "325#33");
    bus_run(600);
    say(0, "003#55");
    say(1, "326#");
    bus_run(3500);
}

/* The same with a frame of another device before each of its own from error passive on. */
void act_bus_off_busy(void)
{
    strike_identifiers(1, 16, 1);
    strike_identifiers(18, 48, 2);
    say(0, "001#11");
    for (unsigned i = 0; i < 9; i++)
        for (unsigned node = 1; node < NODES; node++)
            say_numbered(node, node == 1 ? "3%u1#0%u22334455" : "3%u2#0%u22334455", i, i);
    bus_run(4200);
    say(0, "003#55");
    say(1, "326#");
    bus_run(800);
}

/* TXERR of can0 is 247 as its frame was sent and the next one is loaded. Then bit errors in two overload flags bring it
 * to bus-off. */
void act_bus_off_loading(void)
{
    strike_identifiers(1, 31, 1);
    bus_strike_on(0, 32, SJA_INTERMISSION + 1, 1U << 1 | 1U << 16 | 1U << 17);
    say(0, "001#11");
    say(0, "1FFFF678#0000000000000000");
    bus_run(3800);
    say(0, "003#55");
    say(1, "326#");
    bus_run(1200);
}

/* Can0 goes bus-off, and is restarted by hand while the others send. */
void act_restart_by_hand(void)
{
    strike_identifiers(1, 40, 1);
    say(0, "001#11");
    say(1, "323#1122");
    for (unsigned i = 0; i < 100 && details_of(0).state != STATE_BUS_OFF; i++)
        bus_run(50);
    say(1, "324#11");
    say(2, "12345678#22");
    bus_run(20);
    check_device("restart", 0, bus_link(0, "restart") == 0, "can0 refuses a restart: %s", bus_refusal());
    say(0, "002#33");
    bus_run(3000);
}

void act_one_shot(void)
{
    bus_strike_at(0, 1, SJA_DATA + 12);
    bus_strike_at(1, 4, SJA_DATA + 14);
    say_both_formats(150);
    say(1, "200#11");
    bus_run(1600);
}

/* The same to bus-off: each frame is struck, and the next one is loaded while the error frame goes on. */
void act_one_shot_off(void)
{
    strike_identifiers(1, 36, 1);
    for (unsigned i = 0; i < 36; i++) {
        say_numbered(0, "1%02X#%02X", i, i);
        if (i % 9 == 4)
            say_numbered(1, "40%u#", i / 9, 0);
        bus_run(45);
    }
    bus_run(3000);
}

/* TXERR of can0 comes to 128, and to and fro. */
void act_passive(void)
{
    strike_identifiers(1, 16, 1);
    strike_identifiers(19, 20, 1);
    say(0, "123#11");
    say(0, "124#");
    say(0, "125#33");
    say(0, "126#");
    bus_run(1200);
    say(1, "127#00");
    bus_run(2000);
}

/* The interrupt of can0 isn't handled any more before it goes down, as in a suspend: what it told of is over as it
 * comes up. */
void act_stale(void)
{
    unsigned before;

    bus_hold(0, 1);
    strike_identifiers(1, 13, 1);
    say(0, "123#1122");
    bus_run(700);
    check_number("down", bus_down(0), 0);
    bus_hold(0, 0);
    before = count_kind(0, FRAME_ERROR);
    check_number("up", bus_up(0), 0);
    bus_run(400);
    check_device("stale", 0, count_kind(0, FRAME_ERROR) == before,
                 "can0 tells of an error that was before it came up");
    say(0, "124#");
    say(1, "125#");
    bus_run(1000);
}

/* Can2 comes up while can0's frames are struck. */
void act_up_in_errors(void)
{
    check_number("down", bus_down(2), 0);
    bus_run(30);
    strike_identifiers(1, 14, 1);
    say(0, "123#1122");
    bus_run(60);
    check_number("up", bus_up(2), 0);
    bus_run(700);
    say(1, "124#");
    say(2, "125#");
    bus_run(1500);
}
