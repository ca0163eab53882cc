/* SPDX-License-Identifier: GPL-2.0-only */
/* What a kernel of finite speed takes, in bits of the bus: for each access, for one access, and until a handler is
 * called. */
#ifndef KERNEL_DELAYS_H
#define KERNEL_DELAYS_H

#include <stdint.h>

enum { LATES = 64 };

struct delays {
    uint64_t latency;           /* a handler is called this number of bits after its line rose */
    uint64_t bits, parts;       /* each access lets bits/parts bits run first; 0 parts: none */
    uint64_t done;              /* how many accesses there were since bits and parts were said */
    struct { uint64_t left, bits; } late[LATES];    /* before the access that is `left` ahead run `bits` bits */
};

/* Each access lets bits/parts bits run first; parts of a bit add up. */
void delays_each(struct delays *delays, uint64_t bits, uint64_t parts);
/* Before access number `access` from now on run `bits` bits. */
void delays_late(struct delays *delays, uint64_t access, uint64_t bits);
/* How many bits run before the next access, which counts as done. */
uint64_t delays_next(struct delays *delays);

#endif
