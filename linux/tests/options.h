/* SPDX-License-Identifier: GPL-2.0-only */
/* The words behind linux/run KERNEL_TREE: names of tests, and the axis of time between accesses. */
#ifndef TESTS_OPTIONS_H
#define TESTS_OPTIONS_H

#include <stdint.h>

enum { OPTION_NAMES = 40 };

struct options {
    const char *names[OPTION_NAMES];
    unsigned count;
    uint32_t parts, whole, latency;
    int others;                         /* -1 where none is named */
    int has_edges;
    /* of `timing` */
    const char *scenario, *plan;
    int lists;                          /* whether each access is printed */
    int is_timed;                       /* whether it's told how many runs a second there were */
    int64_t access;                     /* -1 where none is named */
    uint32_t late;
    uint32_t each;                      /* each so manieth access is late, or that of the scenario */
    /* known findings: the file, and the version of Linux that they have to be of; null where none is known */
    const char *findings, *version;
    const char *again;                  /* the words of linux/run, to run something again */
};

/* Reads the words. 0, or -1 where one is wrong, which is said on standard error. */
int read_options(int count, char **words);
const struct options *options(void);
/* The axis as it was asked for, for the buses that begin. */
void set_axis(void);

#endif
