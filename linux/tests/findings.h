/* SPDX-License-Identifier: GPL-2.0-only */
/* Known findings: wrong runs of versions of Linux's driver, each by its checks and by the accesses that lead to it, as
 * a file has them. docs/use/FINDINGS.md says them in words. */
#ifndef TESTS_FINDINGS_H
#define TESTS_FINDINGS_H

#include "check.h"

/* One access of a finding, or that there is none. */
struct finding_step {
    enum {
        STEP_THEN,          /* the next of the node */
        STEP_WHILE,         /* the next ones, as many as there are */
        STEP_LATER,         /* one behind it */
        STEP_SOON,          /* one behind it, before IR is read again */
        STEP_WITHOUT,       /* none before the next step */
        STEP_NEVER          /* none behind it */
    } when;
    char function[60];                                  /* of the driver, or `*` */
    int is_write;
    unsigned first, last;                               /* addresses */
    uint8_t mask, value;
    int is_here;                                        /* in the bit that the check is of */
    unsigned after;                                     /* at least so many bits behind the first step */
};

/* The accesses in turn. A finding has one way or several. */
enum { FINDING_STEPS = 10, FINDING_WAYS = 6, FINDING_CHECKS = 200, FINDING_TITLE = 120, FINDINGS = 16 };
struct finding_way { struct finding_step steps[FINDING_STEPS]; unsigned count; };

struct finding {
    unsigned number;
    char title[FINDING_TITLE], checks[FINDING_CHECKS], shown[40];
    unsigned others;            /* it's shown by this scenario, where so many others act */
    struct finding_way ways[FINDING_WAYS];
    unsigned count;             /* of ways */
    unsigned runs;              /* in which it was found */
};

/* Reads those of a version. 0, or the number of the first line that isn't one of a finding's; -1 where there is no such
 * file. */
int findings_read(const char *file, const char *version);
/* Whether all of this is known, by the accesses that were kept: each check is of a finding, which the run then has. */
int findings_explain(const struct failures *failures);
/* The finding with a number from 0 on, or null. */
const struct finding *finding(unsigned number);

#endif
