/* SPDX-License-Identifier: GPL-2.0-only */
#include "scenario.h"

#include <stdio.h>
#include <string.h>

#include "check.h"

#define BASE "bitrate 500000 berr-reporting on"

enum { ALL = 7 };

static const struct scenario scenarios[] = {
    { "exchange", BASE, { 0, 0, 0 }, act_exchange, 1, 1 },
    { "answers", BASE, { 0, 0, 0 }, act_answers, 1, 1 },
    { "alike", BASE, { 0, 0, 0 }, act_alike, 1, 0 },
    { "flood", BASE, { 0, 0, 0 }, act_flood, 40, 0 },
    { "overrun", BASE, { 0, 0, 0 }, act_overrun, 1, 1 },
    { "nearly_full", BASE, { 0, 0, 0 }, act_nearly_full, 1, 0 },
    { "loopback", BASE " loopback on", { 0, 0, 0 }, act_loopback, 1, 0 },
    { "down_and_up", BASE, { 2, 0, 0 }, act_down_and_up, 1, 1 },
    { "strikes", BASE, { 0, 1, 0 }, act_strikes, 1, 1 },
    { "bus_off", BASE " restart-ms 1", { 1, 1, 0 }, act_bus_off, 3, 0 },
    { "bus_off_busy", BASE " restart-ms 1", { 1, 1, 0 }, act_bus_off_busy, 1, 0 },
    { "bus_off_loading", BASE " restart-ms 1", { 1, 1, 0 }, act_bus_off_loading, 1, 1 },
    { "restart_by_hand", BASE, { 1, 1, 0 }, act_restart_by_hand, 3, 0 },
    { "one_shot", BASE " one-shot on", { ALL, 1, 1 }, act_one_shot, 1, 1 },
    { "one_shot_off", BASE " one-shot on restart-ms 1", { ALL, 1, 1 }, act_one_shot_off, 9, 0 },
    { "passive", BASE, { 0, 1, 0 }, act_passive, 1, 0 },
    { "passive_quiet", "bitrate 500000 berr-reporting off", { 0, 1, 0 }, act_passive, 1, 0 },
    { "stale", BASE, { 1, 1, 0 }, act_stale, 1, 1 },
    { "up_in_errors", BASE, { 4, 1, 0 }, act_up_in_errors, 1, 1 },
};
enum { SCENARIOS = sizeof scenarios / sizeof scenarios[0] };

static unsigned lossy;

const struct scenario *scenario(unsigned number)
{
    return number < SCENARIOS ? &scenarios[number] : NULL;
}

const struct scenario *scenario_named(const char *name)
{
    for (unsigned i = 0; i < SCENARIOS; i++)
        if (strcmp(scenarios[i].name, name) == 0)
            return &scenarios[i];
    return NULL;
}

void scenario_begin(const struct scenario *begun)
{
    lossy = begun->facts.lossy;
}

void say(unsigned node, const char *text)
{
    int error = bus_send(node, text);

    check_device("sends", node, error == 0 || (lossy >> node & 1), "can%u refuses %s", node, text);
}

void say_numbered(unsigned node, const char *format, unsigned one, unsigned two)
{
    char text[FRAME_TEXT];

    snprintf(text, sizeof text, format, one, two);
    say(node, text);
}
