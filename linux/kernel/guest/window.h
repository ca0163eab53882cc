/* SPDX-License-Identifier: GPL-2.0-only */
/* Lines to the bus and back, through the PCI configuration of this kernel's first card. A line takes a microsecond for
 * each four bytes. */
#ifndef GUEST_WINDOW_H
#define GUEST_WINDOW_H

enum { WINDOW_ROOM = 192 };

/* Says a line, and reads the answer. 0, or -1 if there is no card or the line is too long. */
int window_say(const char *line, char answer[WINDOW_ROOM]);

#endif
