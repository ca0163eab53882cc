/* SPDX-License-Identifier: GPL-2.0-only */
#include "plan.h"

#include <stdbool.h>
#include <stdio.h>
#include <stdlib.h>

#include "bus.h"
#include "control.h"

enum { MOD = 0, RM = 1, STARTS = 64 };

static struct {
    sja *session;
    const char *path;
    bool runs[BUS_NODES];   /* out of reset mode, as far as its driver knows */
    unsigned starts[BUS_NODES];
} plan;

void plan_begin(sja *session, const char *path)
{
    plan.session = session;
    plan.path = path;
}

/* Bus-off sets RM: the driver reads so before it starts its controller again. */
void plan_watch_read(unsigned node, unsigned address, uint8_t value)
{
    if (address == MOD)
        plan.runs[node] = (value & RM) == 0;
}

void plan_watch_write(unsigned node, unsigned address, uint8_t value)
{
    if (plan.path == NULL || address != MOD)
        return;
    if ((value & RM) == 0 && !plan.runs[node] && ++plan.starts[node] > STARTS)
        control_used("all 64 starts of node %u are used", node);
    plan.runs[node] = (value & RM) == 0;
}

/* The text of the plan, or null. */
static char *text_of(void)
{
    sja_answer told = sja_plan(plan.session, NULL, 0);
    char *text = told.status == SJA_NO_ROOM ? malloc((size_t)told.value) : NULL;

    if (text != NULL && sja_plan(plan.session, text, (size_t)told.value).status != SJA_DONE) {
        free(text);
        text = NULL;
    }
    return text;
}

void plan_end(void)
{
    char *text = text_of();
    FILE *file = fopen(plan.path, "w");

    if (text == NULL || file == NULL || fputs(text, file) < 0 || fclose(file) != 0)
        control_fail(text == NULL ? "the plan is longer than a document may be" : "%s can't be written", plan.path);
    free(text);
    for (unsigned node = 0; node < bus_nodes(); node++)
        if (plan.starts[node] == STARTS)
            control_say("note all 64 starts of node %u are used", node);
}
