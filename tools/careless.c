/* Calls of a careless program, each with the status that it has to have: places and texts that are null, texts of a
 * session without an end, and bits of one, more than a line of the pipe has room for; and, with the word `pipe`, of one
 * over c/sja_pipe.c, SIGCHLD that is ignored, descriptors that were closed, and a program that a check stops. Prints
 * those that have another; the status is 1 then. SJA names the program of the sessions. `checks/c_library` runs it. */
#define _GNU_SOURCE

#include <fcntl.h>
#include <inttypes.h>
#include <signal.h>
#include <stdio.h>
#include <stdlib.h>
#include <string.h>
#include <sys/stat.h>
#include <unistd.h>

#include "sja.h"

enum { ROOM = 4096 };

/* More bits than a line of the pipe has room for. */
enum { MANY = 20000000, HALF = MANY / 2 + 1 };

static const char no_plan[] = "version = 9\n";
static char plan[ROOM], text[ROOM];
static int rows, bad;

static void has_status(const char *row, sja_answer is, uint32_t wanted)
{
    rows++;
    if (is.status == wanted)
        return;
    bad++;
    printf("%s: status %u, not %u\n", row, (unsigned)is.status, (unsigned)wanted);
}

/* A call is done, with this number, and with this node's line that rose, counted from 1. */
static void has_value(const char *row, sja_answer is, uint64_t value, uint32_t rose)
{
    has_status(row, is, SJA_DONE);
    if (is.status != SJA_DONE || (is.value == value && is.rose == rose))
        return;
    bad++;
    printf("%s: %" PRIu64 " and %u, not %" PRIu64 " and %u\n", row, is.value, (unsigned)is.rose, value, (unsigned)rose);
}

static sja *opened(const char *row)
{
    sja *session = NULL;

    has_status(row, sja_new(3, 1000, 2, &session), SJA_DONE);
    return session;
}

/* A plan, as a session writes it. */
static void write_plan(void)
{
    sja *session = opened("a session");

    has_status("bits", sja_bits(session, 20, 0), SJA_DONE);
    has_status("a plan", sja_plan(session, plan, ROOM), SJA_DONE);
    sja_free(session);
}

static void try_null(void)
{
    sja *session = opened("a session");
    sja_answer needs;

    has_status("no place for a handle", sja_new(3, 1000, 2, NULL), SJA_NO_HANDLE);
    has_status("a plan into no text", sja_plan(session, NULL, ROOM), SJA_NO_ROOM);
    has_status("a plan of no session into no text", sja_plan(NULL, NULL, ROOM), SJA_NO_HANDLE);
    needs = sja_report(session, NULL, ROOM);
    has_status("a report into no text", needs, SJA_NO_ROOM);
    has_status("a report into so much room", sja_report(session, text, needs.value), SJA_DONE);
    has_status("no plan with a length", sja_run_plan(NULL, 10, text, ROOM), SJA_NO_PLAN);
    has_status("no plan without a length", sja_run_plan(NULL, 0, text, ROOM), SJA_NO_PLAN);
    has_status("a run into no text", sja_run_plan(plan, strlen(plan), NULL, ROOM), SJA_NO_ROOM);
    sja_free(session);
}

/* A session without an end has neither plan nor report, and goes on. */
static void try_endless(void)
{
    sja *session = NULL;

    has_status("no bits in version 2", sja_new(2, 0, 1, &session), SJA_NO_BITS);
    has_status("nine nodes without an end", sja_new(3, 0, 9, &session), SJA_NO_NODES);
    has_status("a session without an end", sja_new(3, 0, 1, &session), SJA_DONE);
    has_value("more bits than a plan has", sja_bits(session, MANY, 0), MANY, 0);
    has_status("its plan", sja_plan(session, text, ROOM), SJA_ENDLESS);
    has_status("its report", sja_report(session, text, ROOM), SJA_ENDLESS);
    has_status("a read after that", sja_read(session, 0, 2), SJA_DONE);
    has_value("as many bits as were run", sja_now(session), MANY, 0);
    sja_free(session);
}

/* Bits at once come to all that were asked for, to the rise of a watched line, and to a place, also behind more bits
 * than a line of the pipe has room for. An idle node that sees the other level in a bit takes it for SOF, and has a
 * stuff error six bits later, which raises its line. */
static void try_many_bits(void)
{
    sja *session = NULL;

    has_status("a session of many bits", sja_new(3, 0, 2, &session), SJA_DONE);
    for (uint32_t node = 0; node < 2; node++)
        has_status("its bus errors interrupt", sja_write(session, node, 4, 0x80), SJA_DONE);
    has_status("node 1 leaves reset mode", sja_write(session, 1, 0, 0), SJA_DONE);
    has_value("many watched bits", sja_bits(session, MANY, 3), MANY, 0);
    has_status("a strike behind many bits", sja_strike(session, 1, MANY + HALF), SJA_DONE);
    has_value("a watched rise behind many bits", sja_bits(session, MANY, 3), HALF + 7, 2);
    has_value("it is the one that is active", sja_lines(session), 2, 0);
    has_status("its interrupt is read", sja_read(session, 1, 3), SJA_DONE);
    has_status("its error is read", sja_read(session, 1, 12), SJA_DONE);
    has_status("one more strike", sja_strike(session, 1, 2 * MANY + HALF), SJA_DONE);
    has_value("a rise that isn't watched", sja_bits(session, MANY, 1), MANY, 0);
    has_value("all bits up to there", sja_now(session), 2 * MANY + HALF + 7, 0);
    has_status("a strike before a place", sja_strike(session, 1, 3 * MANY + HALF), SJA_DONE);
    has_value("a place behind many bits", sja_to(session, 1, SJA_ID + 27, MANY), 1, 0);
    has_value("all bits up to that place", sja_now(session), 3 * MANY + HALF + 2, 0);
    sja_free(session);
}

/* What a run and a session answer where the kernel keeps no status of a process that ends. */
static void try_ignored(void)
{
    const char *program = getenv("SJA");
    char kept[ROOM];
    sja *session = NULL;

    has_status("a run", sja_run_plan(plan, strlen(plan), kept, ROOM), SJA_DONE);
    signal(SIGCHLD, SIG_IGN);
    has_status("a run, SIGCHLD ignored", sja_run_plan(plan, strlen(plan), text, ROOM), SJA_DONE);
    if (strcmp(kept, text) != 0)
        has_status("another report, SIGCHLD ignored", (sja_answer){ .status = SJA_BROKEN }, SJA_DONE);
    has_status("no plan, SIGCHLD ignored", sja_run_plan(no_plan, strlen(no_plan), text, ROOM), SJA_NO_PLAN);
    session = opened("a session, SIGCHLD ignored");
    has_status("a read, SIGCHLD ignored", sja_read(session, 0, 2), SJA_DONE);
    has_status("a report, SIGCHLD ignored", sja_report(session, text, ROOM), SJA_DONE);
    sja_free(session);
    setenv("SJA", "false", 1);
    has_status("a process with status 1, SIGCHLD ignored", sja_new(3, 1000, 2, &session), SJA_NO_MEMORY);
    setenv("SJA", "/nowhere/sja", 1);
    has_status("no program, SIGCHLD ignored", sja_new(3, 1000, 2, &session), SJA_BROKEN);
    setenv("SJA", program != NULL ? program : "sja", 1);
    signal(SIGCHLD, SIG_DFL);
}

/* Descriptors that the program closed are no memory that was refused, and a file that it opened there isn't written to.
 * */
static void try_closed(void)
{
    sja *session = opened("a session");
    char name[] = "/tmp/careless.XXXXXX";
    struct stat file;
    int end;

    for (end = 3; end < 64; end++)
        close(end);
    has_status("a read, the descriptors closed", sja_read(session, 0, 2), SJA_BROKEN);
    has_status("a report, the descriptors closed", sja_report(session, text, ROOM), SJA_BROKEN);
    sja_free(session);
    session = opened("a session");
    for (end = 3; end < 64; end++)
        close(end);
    end = mkstemp(name);
    for (int other = end + 1; other < 8; other++)
        dup2(end, other);
    has_status("a read, a file in their place", sja_read(session, 0, 2), SJA_BROKEN);
    sja_free(session);
    if (fstat(end, &file) != 0 || file.st_size != 0)
        has_status("the file is still there and empty", (sja_answer){ .status = SJA_BROKEN }, SJA_DONE);
    unlink(name);
    for (int other = end; other < 8; other++)
        close(other);
}

/* A program that answers one line, and that a check stops behind the next, as one with checks is stopped. */
static void try_stopped(void)
{
    static const char stopped[] = "#!/bin/sh\nread -r line\necho ok\nread -r line\nkill -ILL $$\n";
    const char *program = getenv("SJA");
    char name[] = "/tmp/careless.XXXXXX";
    sja *session = NULL;
    int end = mkstemp(name);

    if (end < 0 || write(end, stopped, sizeof stopped - 1) < 0 || fchmod(end, 0700) != 0 || close(end) != 0)
        has_status("no program to stop", (sja_answer){ .status = SJA_BROKEN }, SJA_DONE);
    setenv("SJA", name, 1);
    for (int ignored = 0; ignored < 2; ignored++) {
        if (ignored)
            signal(SIGCHLD, SIG_IGN);
        session = opened("a session that a check will stop");
        has_status("a read that a check stops", sja_read(session, 0, 2), SJA_STOPPED);
        has_status("the next one", sja_read(session, 0, 2), SJA_STOPPED);
        has_status("its report", sja_report(session, text, ROOM), SJA_STOPPED);
        sja_free(session);
        has_status("a run that a check stops", sja_run_plan("1\n2\n", 4, text, ROOM), SJA_STOPPED);
    }
    signal(SIGCHLD, SIG_DFL);
    unlink(name);
    setenv("SJA", program != NULL ? program : "sja", 1);
}

int main(int count, char **words)
{
    write_plan();
    try_null();
    try_endless();
    try_many_bits();
    if (count == 2 && strcmp(words[1], "pipe") == 0) {
        try_ignored();
        try_stopped();
        try_closed();
    }
    printf("%d rows, %d bad\n", rows, bad);
    return bad > 0;
}
