/* SPDX-License-Identifier: GPL-2.0-only */
/* What the controllers stored, by the report. */
#ifndef TESTS_STORED_H
#define TESTS_STORED_H

#include "bus.h"

/* Of all activations of a node: the frames that were stored, the overruns, and how many ended with a frame unread. */
struct stored {
    long frames, overruns, unread;
};

/* Reads the report, which ends the session. Whether there is one: not of a bus without an end. */
int read_stored(unsigned nodes, struct stored stored[BUS_NODES]);

#endif
