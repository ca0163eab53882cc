/* SPDX-License-Identifier: GPL-2.0-only */
#include "source.h"

#include <stdint.h>
#include <stdio.h>
#include <stdlib.h>
#include <string.h>
#include <unistd.h>

/* Where a call goes on: the functions that stand there, the innermost first. Those of an address are one behind the
 * other. */
struct place {
    const void *address;
    char function[60];
    unsigned line;
};

enum { PLACES = 8000, ADDRESSES = 64, WORD = 20, ROOM = 4096 };

static struct place places[PLACES];
static unsigned count;

const char *register_name(unsigned address)
{
    static const char *const names[] = { "MOD", "CMR", "SR", "IR", "IER", "5", "BTR0", "BTR1", "OCR", "9", "10", "ALC",
        "ECC", "EWLR", "RXERR", "TXERR", "16", "17", "18", "19", "20", "21", "22", "23", "24", "25", "26", "27", "28",
        "RMC", "RBSA", "CDR" };

    return address < sizeof names / sizeof names[0] ? names[address] : "?";
}

static const struct place *place_of(const void *address)
{
    for (unsigned i = 0; i < count; i++)
        if (places[i].address == address)
            return &places[i];
    return NULL;
}

static struct place *add_place(const void *address)
{
    struct place *place = &places[count < PLACES ? count++ : PLACES - 1];

    *place = (struct place){ .address = address };
    return place;
}

/* Whether a file is of the driver, and not of the folder of this program, nor its board. */
static int is_driver(const char *file)
{
    static const char folder[] = LINUX_FOLDER "/", board[] = BOARD_FILE;

    return file[0] == '/' && strncmp(file, folder, sizeof folder - 1) != 0
        && (strncmp(file, board, sizeof board - 1) != 0 || file[sizeof board - 1] != ':');
}

/* Reads what addr2line says: an address, and for each function there its name and `FILE:LINE`. */
static void read_places(FILE *told)
{
    char function[ROOM], file[ROOM];
    const void *address = NULL;

    while (fgets(function, sizeof function, told) != NULL) {
        function[strcspn(function, "\n")] = '\0';
        if (strncmp(function, "0x", 2) == 0) {
            address = (const void *)(uintptr_t)(strtoull(function, NULL, 16) + 1);
            add_place(address);
            continue;
        }
        if (fgets(file, sizeof file, told) == NULL)
            return;
        if (is_driver(file) && strrchr(file, ':') != NULL) {
            struct place *place = add_place(address);

            snprintf(place->function, sizeof place->function, "%.59s", function);
            place->line = (unsigned)strtoul(strrchr(file, ':') + 1, NULL, 10);
        }
    }
}

/* Asks for some addresses at once. Each is where a call goes on: the call is one byte before it. */
static void ask(void *const addresses[], unsigned many)
{
    char command[ROOM + ADDRESSES * WORD], path[ROOM / 2];
    ssize_t length = readlink("/proc/self/exe", path, sizeof path - 1);
    size_t used;
    FILE *told;

    if (length <= 0 || many == 0)
        return;
    path[length] = '\0';
    used = (size_t)snprintf(command, sizeof command, "addr2line -a -f -i -e '%s'", path);
    for (unsigned i = 0; i < many; i++)
        used += (size_t)snprintf(command + used, sizeof command - used, " 0x%lx",
                                 (unsigned long)((uintptr_t)addresses[i] - 1));
    told = popen(command, "r");
    if (told == NULL)
        return;
    read_places(told);
    pclose(told);
}

static int is_among(const void *address, void *const addresses[], unsigned many)
{
    for (unsigned i = 0; i < many; i++)
        if (addresses[i] == address)
            return 1;
    return 0;
}

void source_learn(void)
{
    void *addresses[ADDRESSES];
    unsigned many = 0;

    for (size_t i = 0; i < history_count(); i++) {
        const struct history_access *access = history_access(i);

        for (unsigned k = 0; k < access->depth; k++) {
            if (place_of(access->calls[k]) != NULL || is_among(access->calls[k], addresses, many))
                continue;
            addresses[many++] = access->calls[k];
            if (many == ADDRESSES) {
                ask(addresses, many);
                many = 0;
            }
        }
    }
    ask(addresses, many);
}

/* The next function of the driver behind a place, at the same address. */
static const struct place *next_at(const struct place *place, const void *address)
{
    for (place++; place < places + count && place->address == address; place++)
        if (place->function[0] != '\0')
            return place;
    return NULL;
}

void source_text(const struct history_access *access, char text[SOURCE_TEXT])
{
    size_t used = 0;

    text[0] = '\0';
    for (unsigned k = 0; k < access->depth; k++) {
        const struct place *place = place_of(access->calls[k]);

        while (place != NULL && (place = next_at(place, access->calls[k])) != NULL && used + 80 < SOURCE_TEXT)
            used += (size_t)sprintf(text + used, "%s%s:%u", used > 0 ? " < " : "", place->function, place->line);
    }
}

int source_is_in(const struct history_access *access, const char *function)
{
    for (unsigned k = 0; k < access->depth; k++) {
        const struct place *place = place_of(access->calls[k]);

        while (place != NULL && (place = next_at(place, access->calls[k])) != NULL)
            if (strcmp(place->function, function) == 0)
                return 1;
    }
    return 0;
}
