/* SPDX-License-Identifier: GPL-2.0-only */
/* The kernels at the bus: their sockets, how far each came, and the time for which each asked its calendar. */
#ifndef KERNEL_KERNELS_H
#define KERNEL_KERNELS_H

#include <stdbool.h>
#include <stdint.h>

#include "delays.h"

struct kernel {
    const char *folder;                 /* its sockets `card` and `clock` are here */
    int listener, clock_listener, clock;
    unsigned first, nodes, given;       /* its nodes of the bus, and how many of them have a card */
    bool waits, ended, rests;           /* for its calendar; is gone; asks for the next script */
    bool polls;                         /* an access that was held is done: it sees so once it goes on */
    uint64_t asked, free;               /* it asked for this time, and runs freely up to that one */
    struct delays delays;
    char script[192];                   /* what it is to run next */
    int group;                          /* its process group, or 0 if it isn't known */
};

/* A kernel of FOLDER:NODES. */
void kernels_add(char *word);
unsigned kernels_count(void);
struct kernel *kernels_at(unsigned number);
unsigned kernels_number(const struct kernel *kernel);
/* Whether its clock may be taken: once the kernels before it wait, so that each run begins alike. */
bool kernels_may_begin(unsigned number);
/* Ends the processes of all. */
void kernels_kill(void);
/* Whether all are gone; whether all ask for the next script, or are gone. */
bool kernels_are_gone(void);
bool kernels_rest(void);

#endif
