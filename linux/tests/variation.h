/* SPDX-License-Identifier: GPL-2.0-only */
/* A run of a scenario in time of its own: one access is late, or each takes its time and handlers come late. */
#ifndef TESTS_VARIATION_H
#define TESTS_VARIATION_H

#include <stdint.h>

#include "check.h"
#include "scenario.h"

struct variation {
    const struct scenario *scenario;
    unsigned others;
    int64_t access;         /* this one is late, or -1 */
    uint32_t late, parts, whole, latency;
};

/* What came of a run. */
struct ran {
    struct failures failures;
    uint64_t accesses, bits;        /* of the scenario, without what is looked at after it */
};

/* Runs it, and writes its plan to a file where one is named. */
void run_variation(const struct variation *variation, const char *plan, struct ran *ran);
/* The same with each access kept, and known where in the driver it was made. */
void run_kept(const struct variation *variation, struct ran *ran);
/* The words that run it again, behind those of linux/run. */
enum { WORDS_TEXT = 160 };
void variation_words(const struct variation *variation, char text[WORDS_TEXT]);

#endif
