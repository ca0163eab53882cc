/* SPDX-License-Identifier: GPL-2.0-only */
/* What tests of bus-off and of sweeps share. */
#ifndef TESTS_STRIKES_H
#define TESTS_STRIKES_H

#include <stdint.h>

enum { STATE_ACTIVE = 0, STATE_BUS_OFF = 3, STATE_STOPPED = 4 };

/* Strikes a node in this bit of each frame that begins, counted from its SOF, until its driver says bus-off: how many
 * frames that took, or 0 where so many don't. */
unsigned strike_to_bus_off(unsigned node, int bit, unsigned most);
/* How many frames the controller of a node stored, as the report says, which ends the session. */
long stored_by(unsigned node);

#endif
