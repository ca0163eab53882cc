/* SPDX-License-Identifier: GPL-2.0-only */
#include "check.h"

#include <stdarg.h>
#include <stdio.h>
#include <stdlib.h>
#include <string.h>

#include "judge.h"
#include "witness.h"

/* A device that comes up takes part in the bus after 11 recessive bits. */
enum { ROOM = 4096, JOIN = 30 };

static const char OWN[] = "its own";

static long made, bad;
static struct failures *kept;
static uint64_t of_bit;
static const char *where;        /* of which run a device's check is, or null */

void check_bit(uint64_t bit)
{
    of_bit = bit;
}

void checks_at(const char *run)
{
    where = run;
}

/* Counts a check that doesn't hold, and prints or keeps it. */
static void fail(const char *name, int node, const char *format, va_list words)
{
    if (kept == NULL) {
        bad++;
        printf("  WRONG: %s%s", where != NULL && strcmp(name, OWN) != 0 ? where : "",
               where != NULL && strcmp(name, OWN) != 0 ? ": " : "");
        vprintf(format, words);
        printf("\n");
    } else if (kept->count < FAILURES) {
        struct failure *failure = &kept->all[kept->count++];

        failure->name = name;
        failure->node = node;
        failure->bit = of_bit;
        vsnprintf(failure->text, FAILURE_TEXT, format, words);
    }
}

int check(int holds, const char *format, ...)
{
    va_list words;

    made++;
    if (holds)
        return 1;
    va_start(words, format);
    fail(OWN, -1, format, words);
    va_end(words);
    return 0;
}

int check_device(const char *name, unsigned node, int holds, const char *format, ...)
{
    va_list words;

    made++;
    if (holds)
        return 1;
    va_start(words, format);
    fail(name, (int)node, format, words);
    va_end(words);
    return 0;
}

void checks_keep(struct failures *place)
{
    kept = place;
    if (kept != NULL)
        kept->count = 0;
}

void checks_are_wrong(const struct failures *failures)
{
    bad += failures->count;
}

long checks_made(void)
{
    return made;
}

long checks_wrong(void)
{
    return bad;
}

int check_number(const char *what, long is, long wanted)
{
    return check(is == wanted, "%s is %ld and not %ld", what, is, wanted);
}

int check_frames(unsigned node, enum frame_kind kind, const char *wanted)
{
    char all[ROOM] = "", text[FRAME_TEXT];

    for (size_t i = 0; i < bus_frames(node); i++) {
        const struct bus_frame *frame = bus_frame(node, i);

        bus_frame_text(frame, text);
        if (frame->kind != kind || strlen(all) + strlen(text) + 2 > ROOM)
            continue;
        if (all[0] != '\0')
            strcat(all, " ");
        strcat(all, text);
    }
    return check(strcmp(all, wanted) == 0, "can%u has `%s` and not `%s`", node, all, wanted);
}

unsigned count_kind(unsigned node, enum frame_kind kind)
{
    unsigned count = 0;

    for (size_t i = 0; i < bus_frames(node); i++)
        count += bus_frame(node, i)->kind == kind;
    return count;
}

unsigned count_frames(unsigned node, enum frame_kind kind, const char *wanted)
{
    char text[FRAME_TEXT];
    unsigned count = 0;

    for (size_t i = 0; i < bus_frames(node); i++) {
        bus_frame_text(bus_frame(node, i), text);
        count += bus_frame(node, i)->kind == kind && strcmp(text, wanted) == 0;
    }
    return count;
}

unsigned count_errors(unsigned node, uint32_t bits, uint8_t second)
{
    unsigned count = 0;

    for (size_t i = 0; i < bus_frames(node); i++) {
        const struct bus_frame *frame = bus_frame(node, i);

        count += frame->kind == FRAME_ERROR && (frame->id & bits) == bits && (frame->data[1] & second) == second;
    }
    return count;
}

struct bus_details details_of(unsigned node)
{
    struct bus_details details;
    uint64_t before = bus_now();

    check_number("the answer to `ip -details link show`", bus_details(node, &details), 0);
    if (bus_now() == before)                /* else state and counters are of other times */
        judge_state(node, &details);
    return details;
}

void begin_up(unsigned nodes, uint32_t bits, const char *words)
{
    int error = bus_begin(nodes, bits);

    if (judge_is_on() && !witness_looks())
        witness_begin();
    if (error != 0) {
        printf("no bus: %d, status %u\n", error, (unsigned)bus_fault());
        exit(2);
    }
    for (unsigned node = 0; node < nodes; node++) {
        check(bus_link(node, words) == 0, "can%u refuses `%s`: %s", node, words, bus_refusal());
        check_number("ip link set up", bus_up(node), 0);
    }
    bus_run(JOIN);
}

/* The first line of the log that tells of a bug, without its bit. */
static void find_bug(char line[FAILURE_TEXT])
{
    const char *bug = strstr(bus_dmesg(), "BUG");

    if (bug == NULL)
        bug = strstr(bus_dmesg(), "WARNING");
    snprintf(line, FAILURE_TEXT, "%.*s", bug != NULL ? (int)strcspn(bug, "\n") : 0, bug != NULL ? bug : "");
}

/* The device that the line is of: `irq 16` is the line of can0 by linux/card.c. */
static int device_of(const char *line)
{
    unsigned irq;

    return sscanf(line, "BUG: irq %u", &irq) == 1 ? (int)irq - 16 : -1;
}

void end_bus(void)
{
    char line[FAILURE_TEXT];

    judge_bus();
    find_bug(line);
    if (!check_device("log", (unsigned)device_of(line), bus_bugs() == 0, "the log tells of a bug: %s", line)
        && kept == NULL)
        fputs(bus_dmesg(), stdout);
    check(bus_fault() == 0, "the session went no further: status %u", (unsigned)bus_fault());
    check_number("socket buffers that were lost", bus_end(), 0);
    checks_at(NULL);
}
