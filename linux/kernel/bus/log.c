/* SPDX-License-Identifier: GPL-2.0-only */
#include "log.h"

#include <stdarg.h>
#include <stdio.h>

#include "bus.h"
#include "control.h"

enum { SECOND = 1000000000 };

static FILE *file;

void log_begin(const char *path)
{
    file = fopen(path, "w");
    if (file == NULL)
        control_fail("%s can't be written", path);
}

void log_say(const char *format, ...)
{
    va_list words;

    if (file == NULL)
        return;
    fprintf(file, "%llu.%09llu bit %llu ", (unsigned long long)(bus_now() / SECOND),
            (unsigned long long)(bus_now() % SECOND), (unsigned long long)bus_ran());
    va_start(words, format);
    vfprintf(file, format, words);
    va_end(words);
    fputc('\n', file);
}
