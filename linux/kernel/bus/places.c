/* SPDX-License-Identifier: GPL-2.0-only */
#include "places.h"

#include <stdio.h>
#include <strings.h>

#include "control.h"
#include "sja.h"

enum { PLACES = 256, NAME = 24 };

static struct { uint32_t place; char name[NAME]; } places[PLACES];
static unsigned count;

void places_begin(const char *path)
{
    FILE *file = fopen(path, "r");

    if (file == NULL)
        control_fail("%s can't be read", path);
    while (count < PLACES && fscanf(file, "%u %23[^\n]", &places[count].place, places[count].name) == 2)
        count++;
    fclose(file);
}

uint32_t places_of(const char *name)
{
    for (unsigned i = 0; i < count; i++)
        if (strcasecmp(places[i].name, name) == 0)
            return places[i].place;
    return SJA_NOWHERE;
}
