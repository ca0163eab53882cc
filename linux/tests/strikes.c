/* SPDX-License-Identifier: GPL-2.0-only */
#include "strikes.h"

#include <stdio.h>
#include <stdlib.h>
#include <string.h>

#include "check.h"

enum { MOST_GAP = 300 };

unsigned strike_to_bus_off(unsigned node, int bit, unsigned most)
{
    for (unsigned frames = 1; frames <= most; frames++) {
        int64_t start = bus_to_frame(MOST_GAP);

        if (start < 0 || (bit > 0 && bus_strike(node, (uint64_t)(start + bit)) != 0))
            return 0;
        bus_run((uint32_t)bit + 1);
        if (details_of(node).state == STATE_BUS_OFF)
            return frames;
    }
    return 0;
}

/* The lines of a node begin with `node K`; each of its activations has one, as `activation 1 stored 1 overrun 0 free
 * 64`. */
long stored_by(unsigned node)
{
    int64_t size = 0;
    char *text = malloc(1 << 20), name[16];
    const char *at, *end;
    long stored = 0;

    if (text != NULL)
        size = bus_report(text, 1 << 20);
    if (text == NULL || size < 0) {
        free(text);
        return -1;
    }
    snprintf(name, sizeof name, "\nnode %u ", node);
    at = strstr(text, name);
    end = at != NULL ? strstr(at + 1, "\nnode ") : NULL;
    while (at != NULL && (at = strstr(at, "\nactivation ")) != NULL && (end == NULL || at < end)) {
        long count;

        at++;
        stored += sscanf(at, "activation %*d stored %ld", &count) == 1 ? count : 0;
    }
    free(text);
    return stored;
}
