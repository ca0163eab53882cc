/* SPDX-License-Identifier: GPL-2.0-only */
/* Who started this process, linux/kernel/kernels.py, and what is said with it, line by line:
 *
 *     it says          script K PATH     kernel K runs this script next
 *                      end K             kernel K switches off next
 *                      word K WORDS      the words of words.h, of kernel K
 *                      group K NUMBER    the process group of kernel K, which is ended if who started this is gone
 *                      go                time goes on
 *     and is told      ready             kernels may begin
 *                      done K STATUS     a kernel's script has ended
 *                      rest              all kernels wait for what is next, and time stands still
 *                      ok .. , no ..     of a word
 *                      used TEXT         the plan is full: this ends the run
 *                      note TEXT         what is worth saying at the end of the run
 *                      fail TEXT         what keeps this process from going on */
#ifndef KERNEL_CONTROL_H
#define KERNEL_CONTROL_H

#include <stddef.h>

struct kernel;

void control_begin(int fd);
int control_fd(void);
__attribute__((format(printf, 1, 2))) void control_say(const char *format, ...);
/* Does the next line that is said. */
void control_hear(void);
/* A kernel's script ended with a status, or it asks again what is next: puts that into `answer`. Once all kernels ask,
 * time stands still until `go` is said. */
void control_next(struct kernel *kernel, const char *status, char *answer, size_t room);
/* Ends the run, whose plan is full. */
__attribute__((format(printf, 1, 2), noreturn)) void control_used(const char *format, ...);
/* Ends this process, with status 2. */
__attribute__((format(printf, 1, 2), noreturn)) void control_fail(const char *format, ...);

#endif
