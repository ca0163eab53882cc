/* SPDX-License-Identifier: GPL-2.0-only */
/* The timing sweep: each access of a few scenarios comes late by so many bits, one access a run; then each access takes
 * its time, and handlers come late. What has to hold doesn't hang on when what happens. */
#include <stdio.h>
#include <time.h>

#include "findings.h"
#include "history.h"
#include "options.h"
#include "source.h"
#include "tests.h"
#include "variation.h"
#include "wrong.h"

static const uint32_t delays[] = { 1, 2, 5, 11, 30, 60, 120, 300 }, part_delays[] = { 5, 30, 120 };

static const struct { uint32_t parts, whole, latency; } paces[] = {
    { 1, 5, 0 }, { 1, 2, 0 }, { 1, 1, 0 }, { 3, 2, 0 }, { 2, 1, 0 }, { 3, 1, 0 }, { 5, 1, 0 }, { 0, 1, 1 }, { 0, 1, 5 },
    { 0, 1, 20 }, { 0, 1, 60 }, { 0, 1, 150 }, { 0, 1, 300 }, { 1, 2, 20 }, { 1, 1, 5 }, { 1, 1, 40 }, { 2, 1, 100 } };

enum { DELAYS = sizeof delays / sizeof delays[0], PART_DELAYS = sizeof part_delays / sizeof part_delays[0],
       PACES = sizeof paces / sizeof paces[0] };

/* How many runs of a kind there were, in how many something doesn't hold, and of how many of these all is known. */
struct tally {
    unsigned runs, wrong, known;
};

static unsigned long all_runs;

/* How many runs a second of a processor there were: on standard error, since it's another number each time. */
static void tell_speed(void)
{
    double seconds = (double)clock() / CLOCKS_PER_SEC;

    if (options()->is_timed)
        fprintf(stderr, "  %lu runs, %.0f a second of a processor\n", all_runs, (double)all_runs / seconds);
}

/* One run. What doesn't hold in it is known, or kept. */
static void try(const struct variation *of, struct tally *tally, struct ran *ran)
{
    run_variation(of, NULL, ran);
    tally->runs++;
    all_runs++;
    if (ran->failures.count == 0)
        return;
    run_kept(of, ran);
    if (findings_explain(&ran->failures)) {
        tally->known++;
        return;
    }
    tally->wrong++;
    wrong_add(of, ran);
}

/* Each access, or each so manieth, with each delay. Late by 0 bits others act at the access: it's tried where a queue
 * acts. */
static void try_accesses(struct variation *of, uint64_t accesses, const uint32_t *late, unsigned count,
                         struct tally *tally)
{
    struct ran ran;

    for (uint64_t access = 0; access < accesses; access += of->scenario->each * options()->each)
        for (unsigned i = 0; i < count + (of->others >= OTHERS_QUEUE); i++) {
            of->access = (int64_t)access;
            of->late = i < count ? late[i] : 0;
            try(of, tally, &ran);
        }
    of->access = -1;
    of->late = 0;
}

static void try_paces(struct variation *of, struct tally *tally)
{
    struct ran ran;

    for (unsigned i = 0; i < PACES; i++) {
        of->parts = paces[i].parts;
        of->whole = paces[i].whole;
        of->latency = paces[i].latency;
        try(of, tally, &ran);
    }
}

/* The scenarios that were tried with each access and each delay, bit N for N others, in their order. */
enum { SCENARIOS = 32 };
static unsigned tried[SCENARIOS];

static void note_tried(const struct scenario *of, unsigned others, unsigned count)
{
    for (unsigned i = 0; i < SCENARIOS && count == DELAYS && options()->each == 1; i++)
        if (scenario(i) == of)
            tried[i] |= 1U << others;
}

/* Whether a finding would have been seen: what shows it was tried. */
static int is_tried(const struct finding *of)
{
    for (unsigned i = 0; i < SCENARIOS && scenario(i) != NULL; i++)
        if (scenario(i) == scenario_named(of->shown))
            return tried[i] >> of->others & 1;
    return 0;
}

static void sweep(const struct scenario *scenario, unsigned others, const uint32_t *late, unsigned count)
{
    struct variation of = { .scenario = scenario, .others = others, .access = -1 };
    struct tally lates = { 0 }, all = { 0 };
    struct ran on_time;

    note_tried(scenario, others, count);
    try(&of, &all, &on_time);
    try_accesses(&of, on_time.accesses, late, count, &lates);
    try_paces(&of, &all);
    printf("  %-16s others %u: %5lu accesses in %5lu bits; late %6u, wrong %3u, known %3u; all late %2u, wrong %2u, "
           "known %2u\n", scenario->name, others, (unsigned long)on_time.accesses, (unsigned long)on_time.bits,
           lates.runs, lates.wrong, lates.known, all.runs, all.wrong, all.known);
    fflush(stdout);
}

/* Which findings were seen, and which weren't where they are shown. */
static void tell_findings(void)
{
    unsigned known = 0, gone = 0;

    for (unsigned i = 0; finding(i) != NULL; i++) {
        const struct finding *of = finding(i);

        if (of->runs > 0)
            printf("  known: finding %u, %s (%u %s)\n", of->number, of->title, of->runs,
                   of->runs == 1 ? "run" : "runs");
        else if (is_tried(of))
            printf("  gone: finding %u, %s\n", of->number, of->title);
        known += of->runs > 0;
        gone += of->runs == 0 && is_tried(of);
    }
    if (known > 0)
        printf("  %u known\n", known);
    if (gone > 0)
        printf("  %u gone\n", gone);
}

/* Reads the known findings, where they are to be known. */
static void read_findings(void)
{
    int line;

    if (options()->findings == NULL || options()->version == NULL || finding(0) != NULL)
        return;
    line = findings_read(options()->findings, options()->version);
    check(line == 0, "%s: line %d is none of a finding", options()->findings, line);
}

/* Each access, with its bit and where in the driver it stands. */
static void list_accesses(void)
{
    char where[SOURCE_TEXT];

    for (size_t i = 0; i < history_count(); i++) {
        const struct history_access *access = history_access(i);

        source_text(access, where);
        printf("  %5lu bit %5lu can%u %s %-5s %02x  %s\n", (unsigned long)access->number,
               (unsigned long)access->bit, access->node, access->is_write ? "writes" : "reads ",
               register_name(access->address), access->value, where);
    }
}

/* The run that was asked for. */
static void try_one(void)
{
    const struct options *asked = options();
    struct variation of = { scenario_named(asked->scenario), asked->others > 0 ? (unsigned)asked->others : 0,
                            asked->access, asked->late, asked->parts, asked->whole, asked->latency };
    struct tally tally = { 0 };
    struct ran ran;

    if (asked->plan != NULL)
        run_variation(&of, asked->plan, &ran);
    if (asked->lists) {
        run_kept(&of, &ran);
        list_accesses();
    }
    try(&of, &tally, &ran);
    for (unsigned i = 0; i < ran.failures.count; i++)
        printf("  %s: %s\n", ran.failures.all[i].name, ran.failures.all[i].text);
    wrong_print();
    tell_findings();
    tell_speed();
}

void test_timing(void)
{
    const struct options *asked = options();
    int one = asked->access >= 0 || asked->parts > 0 || asked->latency > 0;

    read_findings();
    if (asked->scenario != NULL && one) {
        try_one();
        return;
    }
    for (unsigned others = OTHERS_NONE; others <= OTHERS_ALL; others++)
        for (unsigned i = 0; scenario(i) != NULL; i++)
            if ((asked->others < 0 ? others < OTHERS_ALL : others == (unsigned)asked->others)
                && (asked->scenario == NULL || scenario(i) == scenario_named(asked->scenario)))
                sweep(scenario(i), others, delays, DELAYS);
    wrong_print();
    tell_findings();
    tell_speed();
}

void test_timing_part(void)
{
    read_findings();
    for (unsigned i = 0; scenario(i) != NULL; i++)
        if (scenario(i)->in_part)
            sweep(scenario(i), options()->others > 0 ? (unsigned)options()->others : OTHERS_NONE, part_delays,
                  PART_DELAYS);
    wrong_print();
    tell_findings();
    tell_speed();
}
