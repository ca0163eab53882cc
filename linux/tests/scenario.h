/* SPDX-License-Identifier: GPL-2.0-only */
/* What three devices do in a run of the timing sweep. */
#ifndef TESTS_SCENARIO_H
#define TESTS_SCENARIO_H

#include "judge.h"

enum { SCENARIO_NODES = 3 };

struct scenario {
    const char *name, *words;       /* of `ip link`, for each device */
    struct facts facts;
    void (*act)(void);
    unsigned each;                  /* of its accesses each so manieth is late: 1 for each */
    int in_part;                    /* whether it's one of those that are tried by default */
};

/* The scenario with a number from 0 on, or null; and the one with a name. */
const struct scenario *scenario(unsigned number);
const struct scenario *scenario_named(const char *name);
/* The facts of the scenario that acts. */
void scenario_begin(const struct scenario *scenario);

/* Hands over a frame; it is refused only where the device may lose it. */
void say(unsigned node, const char *text);
/* The same of a text with numbers in it. */
void say_numbered(unsigned node, const char *format, unsigned one, unsigned two);

/* Traffic. */
void act_exchange(void);
void act_answers(void);
void act_alike(void);
void act_flood(void);
void act_overrun(void);
void act_nearly_full(void);
void act_loopback(void);
void act_down_and_up(void);
/* Errors. */
void act_strikes(void);
void act_bus_off(void);
void act_bus_off_busy(void);
void act_bus_off_loading(void);
void act_restart_by_hand(void);
void act_one_shot(void);
void act_one_shot_off(void);
void act_passive(void);
void act_stale(void);
void act_up_in_errors(void);

#endif
