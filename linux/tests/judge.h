/* SPDX-License-Identifier: GPL-2.0-only */
/* What holds of each run, whatever it tries, by what the stacks got, sent and are told. */
#ifndef TESTS_JUDGE_H
#define TESTS_JUDGE_H

#include "bus.h"

/* What is known of a run: which devices lose what they have, since they go off or down; whether frames may come twice,
 * and whether one that fails is given up. */
struct facts {
    unsigned lossy;
    int is_struck, is_one_shot;
};

/* Each run is looked at from now on, or each test's own checks are all that is checked. */
void judge_on(int is_on);
int judge_is_on(void);
/* Whether a frame is the one that was sent. */
int judge_is_frame(const struct bus_frame *frame, const struct bus_frame *sent);
/* The state of a device that is up is that of its counters, where no interrupt waits. */
void judge_state(unsigned node, const struct bus_details *is);
/* At the end of any run: frames, counts and bytes, as many as the controllers stored. The session ends with it, where
 * it has an end. */
void judge_bus(void);
/* At the end of a run of which this is known: each frame came through or was lost as it may be, and nothing waits. */
void judge_rest(unsigned nodes, const struct facts *facts);
/* Still a bus error and a lost arbitration are told, and all devices exchange frames. */
void judge_after(unsigned nodes);

#endif
