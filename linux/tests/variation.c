/* SPDX-License-Identifier: GPL-2.0-only */
#include "variation.h"

#include <stdio.h>
#include <stdlib.h>

#include "history.h"
#include "options.h"
#include "source.h"

enum { BITS = 30000, SETTLES = 700, PLAN = 1 << 22, LEFT = 0xa5 };

static void set_time(const struct variation *of)
{
    bus_on_time();
    if (of->access >= 0)
        bus_late((uint64_t)of->access, of->late);
    bus_access_bits(of->parts, of->whole > 0 ? of->whole : 1);
    bus_latency(of->latency);
    bus_others((enum bus_others)of->others);
    bus_edges(options()->has_edges);
}

static void write_plan(const char *name)
{
    char *text = malloc(PLAN);
    FILE *to = fopen(name, "w");

    if (to == NULL || text == NULL || bus_plan(text, PLAN) < 0)
        fprintf(stderr, "there is no plan in %s\n", name);
    else
        fputs(text, to);
    if (to != NULL)
        fclose(to);
    free(text);
}

/* Each bus finds a filter that somebody left, and takes nothing. */
void run_variation(const struct variation *of, const char *plan, struct ran *ran)
{
    checks_keep(&ran->failures);
    set_time(of);
    bus_left_filter(LEFT, 0);
    scenario_begin(of->scenario);
    begin_up(SCENARIO_NODES, BITS, of->scenario->words);
    of->scenario->act();
    ran->accesses = bus_accesses();
    ran->bits = bus_now();
    bus_on_time();
    bus_forget_strikes();
    bus_run(SETTLES);
    if (plan != NULL)
        write_plan(plan);
    judge_after(SCENARIO_NODES);
    judge_rest(SCENARIO_NODES, &of->scenario->facts);
    end_bus();
    bus_left_filter(0, 0xff);
    checks_keep(NULL);
}

void run_kept(const struct variation *of, struct ran *ran)
{
    history_keep(true);
    run_variation(of, NULL, ran);
    history_keep(false);
    source_learn();
}

void variation_words(const struct variation *of, char text[WORDS_TEXT])
{
    int used = snprintf(text, WORDS_TEXT, "timing --scenario %s --others %u%s", of->scenario->name, of->others,
                        options()->has_edges ? " --edges" : "");

    if (of->access >= 0)
        used += snprintf(text + used, WORDS_TEXT - (size_t)used, " --access %ld --late %u", (long)of->access,
                         (unsigned)of->late);
    if (of->parts > 0)
        used += snprintf(text + used, WORDS_TEXT - (size_t)used, " --access-bits %u/%u", (unsigned)of->parts,
                         (unsigned)of->whole);
    if (of->latency > 0)
        snprintf(text + used, WORDS_TEXT - (size_t)used, " --latency %u", (unsigned)of->latency);
}
