/* SPDX-License-Identifier: GPL-2.0-only */
#include "control.h"

#include <errno.h>
#include <stdarg.h>
#include <stdbool.h>
#include <stdio.h>
#include <stdlib.h>
#include <string.h>
#include <unistd.h>

#include "bus.h"
#include "kernels.h"
#include "words.h"

enum { LINE = 512, FAILED = 2 };

static int fd = -1;
static bool goes;

void control_begin(int given)
{
    fd = given;
}

int control_fd(void)
{
    return fd;
}

static void say(const char *kind, const char *format, va_list words)
{
    char line[LINE];
    int length = snprintf(line, sizeof line, "%s", kind);

    length += vsnprintf(line + length, sizeof line - (size_t)length - 1, format, words);
    if (length > (int)sizeof line - 2)
        length = (int)sizeof line - 2;
    line[length++] = '\n';
    if (write(fd >= 0 ? fd : STDERR_FILENO, line, (size_t)length) < 0)
        _exit(FAILED);
}

void control_say(const char *format, ...)
{
    va_list words;

    va_start(words, format);
    say("", format, words);
    va_end(words);
}

/* Who started this process is gone: nobody else ends the kernels. */
static _Noreturn void leave(void)
{
    kernels_kill();
    exit(FAILED);
}

/* Who started this process ends it, and the kernels first: without a bus they would print that their time is gone. */
static _Noreturn void wait_for_end(void)
{
    char byte;

    while (read(fd, &byte, 1) > 0)
        continue;
    leave();
}

void control_used(const char *format, ...)
{
    va_list words;

    bus_end();
    fflush(NULL);
    va_start(words, format);
    say("used ", format, words);
    va_end(words);
    wait_for_end();
}

void control_fail(const char *format, ...)
{
    va_list words;

    va_start(words, format);
    say("fail ", format, words);
    va_end(words);
    exit(FAILED);
}

/* Reads a line, byte by byte: nothing behind it is taken. */
static void hear_line(char line[LINE])
{
    size_t length = 0;

    for (;;) {
        ssize_t got = read(fd, line + length, 1);

        if (got < 0 && errno == EINTR)
            continue;
        if (got <= 0 || length == LINE - 1)
            leave();
        if (line[length] == '\n')
            break;
        length++;
    }
    line[length] = 0;
}

void control_hear(void)
{
    char line[LINE], verb[8], answer[LINE];
    unsigned number;
    int end = 0;

    hear_line(line);
    if (strcmp(line, "go") == 0) {
        goes = true;
        return;
    }
    if (sscanf(line, "%7s %u%n", verb, &number, &end) != 2 || number >= kernels_count())
        control_fail("not understood: %s", line);
    if (strcmp(verb, "word") == 0) {
        words_do(kernels_at(number), line + end + 1, answer, sizeof answer);
        control_say("%s", answer);
        return;
    }
    if (strcmp(verb, "group") == 0) {
        kernels_at(number)->group = atoi(line + end);
        return;
    }
    snprintf(kernels_at(number)->script, sizeof kernels_at(number)->script, "%s%s", verb, line + end);
}

void control_next(struct kernel *kernel, const char *status, char *answer, size_t room)
{
    if (!kernel->rests)
        control_say("done %u %s", kernels_number(kernel), status);
    kernel->rests = true;
    if (kernel->script[0] == 0 && kernels_rest()) {
        control_say("rest");
        for (goes = false; !goes;)
            control_hear();
    }
    snprintf(answer, room, "%s", kernel->script[0] != 0 ? kernel->script : "wait");
    kernel->rests = kernel->script[0] == 0;
    kernel->script[0] = 0;
}
