/* SPDX-License-Identifier: GPL-2.0-only */
#include "stored.h"

#include <stdio.h>
#include <string.h>

enum { ROOM = 1 << 20, FIFO = 64, NAME = 20 };

static char text[ROOM];

/* The lines of a node begin with `node K`; each of its activations has one, as `activation 1 stored 1 overrun 0 free
 * 64`. Where the next node's begin, or null. */
static char *add_node(char *at, struct stored *stored)
{
    char *end = strstr(at + 1, "\nnode ");

    while ((at = strstr(at, "\nactivation ")) != NULL && (end == NULL || at < end)) {
        long frames, overruns, room;

        at++;
        if (sscanf(at, "activation %*d stored %ld overrun %ld free %ld", &frames, &overruns, &room) != 3)
            continue;
        stored->frames += frames;
        stored->overruns += overruns;
        stored->unread += room != FIFO;
    }
    return end;
}

int read_stored(unsigned nodes, struct stored stored[BUS_NODES])
{
    char *at;

    if (bus_report(text, sizeof text) < 0)
        return 0;
    at = strstr(text, "\nnode 0 ");
    for (unsigned node = 0; node < nodes; node++) {
        stored[node] = (struct stored){ 0 };
        if (at != NULL)
            at = add_node(at, &stored[node]);
    }
    return 1;
}
