/* SPDX-License-Identifier: GPL-2.0-only */
#include "delays.h"

void delays_each(struct delays *delays, uint64_t bits, uint64_t parts)
{
    delays->bits = bits;
    delays->parts = parts;
    delays->done = 0;
}

void delays_late(struct delays *delays, uint64_t access, uint64_t bits)
{
    unsigned i = 0;

    while (i < LATES - 1 && delays->late[i].left > 0)
        i++;
    delays->late[i].left = access;
    delays->late[i].bits = bits;
}

uint64_t delays_next(struct delays *delays)
{
    uint64_t bits = 0;

    if (delays->parts > 0) {
        bits = (delays->done + 1) * delays->bits / delays->parts - delays->done * delays->bits / delays->parts;
        delays->done++;
    }
    for (unsigned i = 0; i < LATES; i++)
        if (delays->late[i].left > 0 && --delays->late[i].left == 0)
            bits += delays->late[i].bits;
    return bits;
}
