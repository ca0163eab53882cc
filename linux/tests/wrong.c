/* SPDX-License-Identifier: GPL-2.0-only */
#include "wrong.h"

#include <stdio.h>
#include <string.h>

#include "history.h"
#include "options.h"
#include "source.h"

enum { GROUPS = 200, ACCESS_TEXT = 120 };

/* Runs in which the same check fails first, as an access of the same lines is late. */
struct group {
    const char *name;
    char where[SOURCE_TEXT], first[FAILURE_TEXT], access[ACCESS_TEXT], again[WORDS_TEXT];
    unsigned runs;
};

static struct group groups[GROUPS];
static unsigned count, more;

static struct group *group_of(const char *name, const char *where)
{
    for (unsigned i = 0; i < count; i++)
        if (strcmp(groups[i].name, name) == 0 && strcmp(groups[i].where, where) == 0)
            return &groups[i];
    if (count == GROUPS)
        return NULL;
    groups[count] = (struct group){ .name = name };
    snprintf(groups[count].where, SOURCE_TEXT, "%s", where);
    return &groups[count++];
}

/* The access that is late, in words, or the time that each takes. */
static void tell_access(const struct variation *of, const struct history_access *late, char text[ACCESS_TEXT])
{
    if (late != NULL)
        snprintf(text, ACCESS_TEXT, "access %ld late by %u bits: bit %lu, can%u %s %s", (long)of->access,
                 (unsigned)of->late, (unsigned long)late->bit, late->node, late->is_write ? "writes" : "reads",
                 register_name(late->address));
    else if (of->parts > 0 || of->latency > 0)
        snprintf(text, ACCESS_TEXT, "each access takes %u/%u bits, handlers come after %u", (unsigned)of->parts,
                 (unsigned)(of->whole > 0 ? of->whole : 1), (unsigned)of->latency);
    else
        snprintf(text, ACCESS_TEXT, "on time");
}

void wrong_add(const struct variation *of, const struct ran *ran)
{
    const struct history_access *late = of->access >= 0 ? history_numbered((uint64_t)of->access) : NULL;
    const struct failure *failure = &ran->failures.all[0];
    char where[SOURCE_TEXT] = "";
    struct group *group;

    checks_are_wrong(&ran->failures);
    if (late != NULL)
        source_text(late, where);
    group = group_of(failure->name, where);
    if (group == NULL) {
        more++;
        return;
    }
    if (group->runs++ > 0)
        return;
    snprintf(group->first, FAILURE_TEXT, "%s", failure->text);
    tell_access(of, late, group->access);
    variation_words(of, group->again);
}

void wrong_print(void)
{
    for (unsigned i = 0; i < count; i++) {
        const struct group *group = &groups[i];

        printf("  WRONG in %u %s, %s: %s\n    %s\n", group->runs, group->runs == 1 ? "run" : "runs", group->name,
               group->first, group->access);
        if (group->where[0] != '\0')
            printf("    %s\n", group->where);
        printf("    %s %s\n", options()->again != NULL ? options()->again : "linux/run KERNEL_TREE", group->again);
    }
    if (more > 0)
        printf("  and %u runs more\n", more);
    count = more = 0;
}
