/* SPDX-License-Identifier: GPL-2.0-only */
#include "words.h"

#include <stdbool.h>
#include <stdio.h>
#include <string.h>

#include "bus.h"
#include "delays.h"
#include "kernels.h"
#include "log.h"
#include "places.h"
#include "sja.h"
#include "strikes.h"

/* A number has as many digits as in plans; a bit as many as `sja live` takes without an end. */
enum { WORDS = 8, LINE = 192, DIGITS = 7, BIT_DIGITS = 19, STRIKES = 100000 };

static const char no_strike[] = "no strike: K B, K B E T, K frame N PLACE or K PLACE xT";

/* The words of a line, with one space between two. */
struct words { char line[LINE]; const char *at[WORDS]; unsigned count; };

static bool split(struct words *words, const char *line)
{
    words->count = 0;
    if (snprintf(words->line, LINE, "%s", line) >= LINE)
        return false;
    for (char *next = words->line; next != NULL;) {
        if (words->count == WORDS)
            return false;
        words->at[words->count++] = strsep(&next, " ");
    }
    return true;
}

/* A number of one to `digits` digits, from `least` on. */
static bool number(const char *word, unsigned digits, uint64_t least, uint64_t *value)
{
    size_t length = strlen(word);

    if (length == 0 || length > digits || strspn(word, "0123456789") != length)
        return false;
    *value = 0;
    for (; *word != 0; word++)
        *value = *value * 10 + (uint64_t)(*word - '0');
    return *value >= least;
}

static const char *strike_bits(unsigned node, uint64_t bit, uint64_t every, uint64_t times)
{
    if (bit < bus_ran())
        return "the bit has run";
    if (times > STRIKES)
        return "more than 100000 strikes, as many as a plan has";
    for (uint64_t i = 0; i < times; i++)
        if (!bus_strike(node, bit + i * every))
            return "the run ends before this bit";
    return NULL;
}

/* The place that the words from one on name: one word, or two. */
static uint32_t place_of(const struct words *words, unsigned from, unsigned to)
{
    char name[LINE];

    if (to <= from || to > from + 2)
        return SJA_NOWHERE;
    snprintf(name, sizeof name, "%s%s%s", words->at[from], to == from + 2 ? " " : "",
             to == from + 2 ? words->at[from + 1] : "");
    return places_of(name);
}

static const char *strike_place(const struct words *words, unsigned node)
{
    bool is_frame = strcmp(words->at[2], "frame") == 0;
    const char *last = words->at[words->count - 1];
    uint64_t count;
    uint32_t place = is_frame ? place_of(words, 4, words->count) : place_of(words, 2, words->count - 1);

    if (is_frame ? words->count < 5 || !number(words->at[3], DIGITS, 1, &count)
                 : last[0] != 'x' || !number(last + 1, DIGITS, 1, &count))
        return no_strike;
    if (place == SJA_NOWHERE)
        return "no such place";
    if (is_frame ? strikes_frame(node, (unsigned)count, place) : strikes_first(node, (unsigned)count, place))
        return NULL;
    return "256 strikes wait already";
}

static const char *strike(struct kernel *kernel, const struct words *words)
{
    uint64_t node, bit, every, times;

    (void)kernel;
    if (words->count < 3 || !number(words->at[1], DIGITS, 0, &node) || node >= bus_nodes())
        return "no such node";
    if (!number(words->at[2], BIT_DIGITS, 0, &bit))
        return words->count < 4 ? no_strike : strike_place(words, (unsigned)node);
    if (words->count == 3)
        return strike_bits((unsigned)node, bit, 1, 1);
    if (words->count == 5 && number(words->at[3], DIGITS, 1, &every) && number(words->at[4], DIGITS, 1, &times))
        return strike_bits((unsigned)node, bit, every, times);
    return no_strike;
}

static const char *forget(struct kernel *kernel, const struct words *words)
{
    (void)kernel;
    (void)words;
    strikes_forget();
    return NULL;
}

static const char *latency(struct kernel *kernel, const struct words *words)
{
    uint64_t bits;

    if (!number(words->at[1], DIGITS, 0, &bits))
        return "no number of bits";
    kernel->delays.latency = bits;
    return NULL;
}

static const char *late(struct kernel *kernel, const struct words *words)
{
    uint64_t access, bits;

    if (!number(words->at[1], DIGITS, 1, &access) || !number(words->at[2], DIGITS, 0, &bits))
        return "no number of an access and of bits";
    delays_late(&kernel->delays, access, bits);
    return NULL;
}

static const char *access_bits(struct kernel *kernel, const struct words *words)
{
    char text[LINE], *above = text, *below;
    uint64_t bits, parts = 1;

    snprintf(text, sizeof text, "%s", words->at[1]);
    below = strchr(text, '/');
    if (below != NULL)
        *below++ = 0;
    if (!number(above, DIGITS, 0, &bits) || (below != NULL && !number(below, DIGITS, 1, &parts)))
        return "no number of bits: A or A/B";
    delays_each(&kernel->delays, bits, parts);
    return NULL;
}

static const char *where(struct kernel *kernel, const struct words *words)
{
    (void)kernel;
    (void)words;
    return NULL;
}

struct verb {
    const char *name;
    unsigned least, most;       /* how many words there are, with the name */
    const char *(*does)(struct kernel *, const struct words *);
};

static const struct verb verbs[] = {
    { "strike", 1, WORDS, strike }, { "forget", 1, 1, forget }, { "latency", 2, 2, latency }, { "late", 3, 3, late },
    { "access_bits", 2, 2, access_bits }, { "where", 1, 1, where },
};

static const char *do_words(struct kernel *kernel, const char *line)
{
    struct words words;

    if (!split(&words, line))
        return "too long";
    for (unsigned i = 0; i < sizeof verbs / sizeof *verbs; i++) {
        if (strcmp(words.at[0], verbs[i].name) != 0)
            continue;
        return words.count >= verbs[i].least && words.count <= verbs[i].most ? verbs[i].does(kernel, &words)
                                                                            : "too few or too many words";
    }
    return "no such word: strike, forget, latency, late, access_bits or where";
}

void words_do(struct kernel *kernel, const char *line, char *answer, size_t room)
{
    const char *wrong;

    log_say("kernel %u says %s", kernels_number(kernel), line);
    wrong = do_words(kernel, line);
    if (wrong != NULL)
        snprintf(answer, room, "no %s", wrong);
    else
        snprintf(answer, room, "ok %llu", (unsigned long long)bus_ran());
}
