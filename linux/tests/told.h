/* SPDX-License-Identifier: GPL-2.0-only */
/* What a controller told its driver, and whether an error frame is the one for it, by linux/can/error.h. */
#ifndef TESTS_TOLD_H
#define TESTS_TOLD_H

#include <stddef.h>
#include <stdint.h>

#include "bus.h"

/* Interrupts, of the data sheet's 6.4.6. */
enum { EI = 0x04, DOI = 0x08, EPI = 0x20, ALI = 0x40, BEI = 0x80, ERRORS = EI | DOI | EPI | ALI | BEI };
/* The states of a device (linux/can/netlink.h), and one that isn't known; a register that wasn't read. */
enum { TOLD_ACTIVE, TOLD_WARNING, TOLD_PASSIVE, TOLD_OFF, TOLD_ANY };
enum { UNREAD = -1 };

/* What was told since the handler read IR. Of SR these are the first that it read, and the last before the counters; a
 * driver may go by either. */
struct told {
    int interrupts, status, last, alc, ecc, rxerr, txerr;
    size_t frames;          /* how many frames the stack had then */
    int state, restarts;    /* the state that was told before, and whether the controller began anew behind it */
};

/* Whether the frame behind a read of IR, or null, is the one for it: none where no error is told. */
int told_is_good(struct told *is, const struct bus_frame *frame);
/* The state that a frame tells of, or TOLD_ANY where it tells of none. */
int told_by_frame(const struct bus_frame *frame);
/* Whether it is that of the greater counter: 1, or 2 where not, or 0 where it tells of none. */
int told_by_counter(const struct told *is, const struct bus_frame *frame);

#endif
