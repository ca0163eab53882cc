/* SPDX-License-Identifier: GPL-2.0-only */
/* The kernel's log, and the modules, which begin and end with the bus. */
#include "shim.h"

#include <stdarg.h>
#include <stdio.h>

enum { ROOM = 65536, LINE = 512, MODULES = 16 };

static char text[ROOM];
static size_t length;
static unsigned bugs;

/* A line of the driver's or of the kernel's that tells of a mistake, and not of the bus. */
static bool tells_bug(const char *level, const char *line)
{
    return strcmp(level, "bug") == 0 || strstr(line, "BUG") != NULL || strstr(line, "oops") != NULL;
}

void shim_log(const char *level, const char *name, const char *format, ...)
{
    char line[LINE];
    va_list words;
    size_t count;

    if (strcmp(level, "debug") == 0)
        return;
    va_start(words, format);
    vsnprintf(line, sizeof line, format, words);
    va_end(words);
    count = strlen(line);
    if (count > 0 && line[count - 1] == '\n')
        line[count - 1] = '\0';
    bugs += tells_bug(level, line);
    count = (size_t)snprintf(text + length, ROOM - length, "[%8lu] %s%s%s\n", jiffies, name != NULL ? name : "",
                             name != NULL ? ": " : "", line);
    length = min(length + count, (size_t)ROOM - 1);
}

const char *shim_log_text(void)
{
    return text;
}

unsigned shim_log_bugs(void)
{
    return bugs;
}

void shim_log_empty(void)
{
    length = 0;
    bugs = 0;
    text[0] = '\0';
}

static int (*begins[MODULES])(void);
static void (*ends[MODULES])(void);
static unsigned many_begins, many_ends;

void shim_module_begins(int (*begin)(void))
{
    assert(many_begins < MODULES);
    begins[many_begins++] = begin;
}

void shim_module_ends(void (*end)(void))
{
    assert(many_ends < MODULES);
    ends[many_ends++] = end;
}

int shim_load_modules(void)
{
    for (unsigned i = 0; i < many_begins; i++) {
        int error = begins[i]();

        if (error != 0)
            return error;
    }
    return 0;
}

void shim_unload_modules(void)
{
    for (unsigned i = many_ends; i-- > 0;)
        ends[i]();
}
