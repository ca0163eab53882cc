/* SPDX-License-Identifier: GPL-2.0-only */
#include "options.h"

#include <stdio.h>
#include <stdlib.h>
#include <string.h>

#include "bus.h"
#include "judge.h"
#include "scenario.h"

static struct options asked = { .whole = 1, .others = -1, .access = -1, .each = 1 };

const struct options *options(void)
{
    return &asked;
}

void set_axis(void)
{
    bus_on_time();
    bus_access_bits(asked.parts, asked.whole);
    bus_latency(asked.latency);
    bus_others(asked.others > 0 ? (enum bus_others)asked.others : OTHERS_NONE);
    bus_edges(asked.has_edges);
}

/* A whole number, up to so much. Whether the word is one. */
static int read_number(const char *word, uint64_t most, uint64_t *number)
{
    char *end;

    if (word[0] < '0' || word[0] > '9')
        return 0;
    *number = strtoull(word, &end, 10);
    return *end == '\0' && *number <= most;
}

/* A whole number, or A/B. */
static int read_parts(const char *word)
{
    unsigned parts, whole = 1;
    int used = 0;

    if (sscanf(word, "%u/%u%n", &parts, &whole, &used) != 2)
        sscanf(word, "%u%n", &parts, &used);
    asked.parts = parts;
    asked.whole = whole;
    return used > 0 && word[used] == '\0' && whole > 0;
}

/* An option that takes a word. 1, 0 where it is none of these, or -1 where its word is wrong. */
static int read_worded(const char *option, const char *word)
{
    const struct { const char *name; const char **place; } texts[] = {
        { "--scenario", &asked.scenario }, { "--plan", &asked.plan }, { "--findings", &asked.findings },
        { "--version", &asked.version }, { "--again", &asked.again } };
    uint64_t number = 0;
    int good = 1;

    for (unsigned i = 0; i < sizeof texts / sizeof texts[0]; i++)
        if (strcmp(option, texts[i].name) == 0) {
            *texts[i].place = word;
            return i > 0 || scenario_named(word) != NULL ? 1 : -1;
        }
    if (strcmp(option, "--access-bits") == 0)
        good = read_parts(word);
    else if (strcmp(option, "--latency") == 0 && (good = read_number(word, 100000, &number)))
        asked.latency = (uint32_t)number;
    else if (strcmp(option, "--late") == 0 && (good = read_number(word, 100000, &number)))
        asked.late = (uint32_t)number;
    else if (strcmp(option, "--others") == 0 && (good = read_number(word, OTHERS_ALL, &number)))
        asked.others = (int)number;
    else if (strcmp(option, "--each") == 0 && (good = read_number(word, 10000, &number) && number > 0))
        asked.each = (uint32_t)number;
    else if (strcmp(option, "--access") == 0 && (good = read_number(word, INT64_MAX, &number)))
        asked.access = (int64_t)number;
    else if (good)
        return 0;
    return good ? 1 : -1;
}

/* An option that takes none. */
static int read_plain(const char *option)
{
    if (strcmp(option, "--edges") == 0)
        asked.has_edges = 1;
    else if (strcmp(option, "--speed") == 0)
        asked.is_timed = 1;
    else if (strcmp(option, "--accesses") == 0)
        asked.lists = 1;
    else if (strcmp(option, "--own") == 0)
        judge_on(0);
    else
        return 0;
    return 1;
}

int read_options(int count, char **words)
{
    for (int i = 1; i < count; i++) {
        int worded = words[i][0] != '-' || i + 1 == count ? 0 : read_worded(words[i], words[i + 1]);

        if (worded < 0) {
            fprintf(stderr, "%s doesn't take %s\n", words[i], words[i + 1]);
            return -1;
        }
        i += worded;
        if (worded || read_plain(words[i]))
            continue;
        if (words[i][0] == '-' || asked.count == OPTION_NAMES) {
            fprintf(stderr, "%s: no such option, or it takes a word\n", words[i]);
            return -1;
        }
        asked.names[asked.count++] = words[i];
    }
    return 0;
}
