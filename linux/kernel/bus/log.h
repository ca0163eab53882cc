/* SPDX-License-Identifier: GPL-2.0-only */
/* The log: each access, strike and interrupt, a line each, with its time and bit. */
#ifndef KERNEL_LOG_H
#define KERNEL_LOG_H

void log_begin(const char *path);
__attribute__((format(printf, 1, 2))) void log_say(const char *format, ...);

#endif
