/* SPDX-License-Identifier: GPL-2.0-only */
#include "findings.h"

#include <stdio.h>
#include <string.h>

#include "source.h"

static struct finding findings[FINDINGS];
static unsigned count;

enum { IR = 3 };

const struct finding *finding(unsigned number)
{
    return number < count ? &findings[number] : NULL;
}

/* ---- the file */

/* Whether a word stands among words. */
static int has_word(const char *words, const char *word)
{
    size_t length = strlen(word);

    for (const char *at = strstr(words, word); at != NULL; at = strstr(at + 1, word))
        if ((at == words || at[-1] == ' ' || at[-1] == '|') && strchr(" |\n", at[length]) != NULL)
            return 1;
    return 0;
}

/* A register, with bits of it: `SR`, `IR&80=80`, `buffer`, which is each of 16 to 28. Whether it is one. */
static int read_register(struct finding_step *step, const char *word)
{
    char name[20];
    unsigned mask = 0, value = 0;

    if (sscanf(word, "%19[^&]&%x=%x", name, &mask, &value) < 1)
        return 0;
    step->mask = (uint8_t)mask;
    step->value = (uint8_t)value;
    step->first = 0;
    while (step->first < 32 && strcmp(register_name(step->first), name) != 0)
        step->first++;
    step->last = step->first;
    if (strcmp(name, "buffer") == 0) {
        step->first = 16;
        step->last = 28;
    }
    return step->first < 32;
}

/* `then FUNCTION reads REGISTER`, with `here` or `after N` behind it. Whether it is a step. */
static int read_step(struct finding_step *step, const char *line)
{
    static const char *const whens[] = { "then", "while", "later", "soon", "without", "never" };
    char when[10], does[10], name[20], more[10] = "";
    unsigned kind = 0;

    *step = (struct finding_step){ .after = 0 };
    if (sscanf(line, " %9s %59s %9s %19s %9s %u", when, step->function, does, name, more, &step->after) < 4)
        return 0;
    while (kind <= STEP_NEVER && strcmp(whens[kind], when) != 0)
        kind++;
    step->when = kind;
    step->is_write = strcmp(does, "writes") == 0;
    step->is_here = strcmp(more, "here") == 0;
    return kind <= STEP_NEVER && (step->is_write || strcmp(does, "reads") == 0) && read_register(step, name);
}

/* A line of a finding. Whether it is one. */
static int read_line(struct finding *to, const char *line)
{
    struct finding_way *way = &to->ways[to->count - 1];

    if (strncmp(line, "checks ", 7) == 0)
        return snprintf(to->checks, sizeof to->checks, "%s", line + 7) > 0;
    if (strncmp(line, "shown ", 6) == 0)
        return sscanf(line, "shown %39s others %u", to->shown, &to->others) == 2;
    if (strcmp(line, "way\n") == 0)
        return to->count++ < FINDING_WAYS;
    return to->count > 0 && way->count < FINDING_STEPS && read_step(&way->steps[way->count++], line);
}

/* `finding N of VERSION ..: title`. Whether it's of this version, or -1 where it's no such line. */
static int read_head(const char *line, const char *version, struct finding *to)
{
    const char *versions = strstr(line, " of "), *title = strchr(line, ':');
    char words[FINDING_TITLE];

    if (sscanf(line, "finding %u", &to->number) != 1 || versions == NULL || title == NULL)
        return -1;
    snprintf(words, sizeof words, "%.*s\n", (int)(title - versions - 4), versions + 4);
    snprintf(to->title, sizeof to->title, "%.*s", (int)strcspn(title + 2, "\n"), title + 2);
    return has_word(words, version);
}

int findings_read(const char *file, const char *version)
{
    FILE *from = fopen(file, "r");
    struct finding other, *to = &other;
    char line[200];
    int number = 0, bad = 0;

    while (from != NULL && bad == 0 && fgets(line, sizeof line, from) != NULL) {
        const char *text = line + strspn(line, " ");

        number++;
        if (text[0] == '#' || text[0] == '\n')
            continue;
        if (strncmp(text, "finding ", 8) == 0) {
            struct finding next = { .count = 0 };
            int is_of = read_head(text, version, &next);

            to = is_of > 0 && count < FINDINGS ? &findings[count++] : &other;
            *to = next;
            bad = is_of < 0 ? number : 0;
        } else if (!read_line(to, text)) {
            bad = number;
        }
    }
    if (from != NULL)
        fclose(from);
    return from == NULL ? -1 : bad;
}

/* ---- matching */

/* A way that is followed in the accesses of a node, up to where a check fails. */
struct walk {
    const struct finding_way *way;
    const struct failure *failure;
    int node;
};

static int is_step(const struct walk *walk, const struct finding_step *step, const struct history_access *access,
                   uint64_t begin)
{
    return access->is_write == step->is_write && access->address >= step->first && access->address <= step->last
        && (access->value & step->mask) == step->value && access->bit >= begin + step->after
        && (!step->is_here || access->bit == walk->failure->bit)
        && (strcmp(step->function, "*") == 0 || source_is_in(access, step->function));
}

static int follows(const struct walk *walk, unsigned step, size_t from, uint64_t begin);

/* Whether the rest is followed from an access on that is the step: the first one says in which bit the way begins. */
static int goes_on(const struct walk *walk, unsigned step, size_t place, uint64_t begin)
{
    return follows(walk, step + 1, place + 1, step == 0 ? history_access(place)->bit : begin);
}

/* Whether none of the accesses from one on is the step, and the rest is followed. */
static int has_none(const struct walk *walk, unsigned step, size_t from, uint64_t begin)
{
    for (size_t i = from; i < history_count(); i++)
        if (history_access(i)->node == walk->node && is_step(walk, &walk->way->steps[step], history_access(i), begin))
            return 0;
    return follows(walk, step + 1, from, begin);
}

/* Whether the accesses of the node from one on have the rest of the steps. */
static int follows(const struct walk *walk, unsigned step, size_t from, uint64_t begin)
{
    const struct finding_step *wanted = &walk->way->steps[step], *without = NULL;

    if (step == walk->way->count)
        return 1;
    if (wanted->when == STEP_NEVER)
        return has_none(walk, step, from, begin);
    if (wanted->when == STEP_WITHOUT && step + 1 < walk->way->count)
        without = wanted++;
    step += without != NULL;
    for (size_t i = from; i < history_count(); i++) {
        const struct history_access *access = history_access(i);
        int is = access->node == walk->node && is_step(walk, wanted, access, begin);

        if (access->node != walk->node)
            continue;
        if (wanted->when == STEP_WHILE && !is)
            return follows(walk, step + 1, i, begin);
        if (is && wanted->when != STEP_WHILE && goes_on(walk, step, i, begin))
            return 1;
        if (wanted->when == STEP_THEN || (wanted->when == STEP_SOON && access->address == IR)
            || (without != NULL && is_step(walk, without, access, begin)))
            return 0;
    }
    return wanted->when == STEP_WHILE && follows(walk, step + 1, history_count(), begin);
}

static int explains(const struct finding *of, const struct failure *failure)
{
    if (!has_word(of->checks, failure->name))
        return 0;
    for (int node = 0; node < BUS_NODES; node++)
        for (unsigned way = 0; way < of->count && (failure->node < 0 || failure->node == node); way++) {
            struct walk walk = { &of->ways[way], failure, node };

            if (follows(&walk, 0, 0, 0))
                return 1;
        }
    return 0;
}

int findings_explain(const struct failures *failures)
{
    unsigned found = 0;

    for (unsigned i = 0; i < failures->count; i++) {
        unsigned known = 0;

        while (known < count && !explains(&findings[known], &failures->all[i]))
            known++;
        if (known == count)
            return 0;
        found |= 1U << known;
    }
    for (unsigned known = 0; known < count; known++)
        findings[known].runs += found >> known & 1;
    return found != 0;
}
