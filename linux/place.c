/* SPDX-License-Identifier: GPL-2.0-only */
/* The bits of a frame (Bosch CAN 2.0, part B section 3.1; the CRC sequence 3.1.1, stuff bits section 5). */
#include "place.h"

#include <stdio.h>
#include <string.h>

#include "bus.h"

enum { POLYNOMIAL = 0x4599, CRC_MASK = 0x7fff };

static const uint32_t extended = 0x80000000, remote = 0x40000000;

struct line {
    struct place *places;
    size_t count;
};

static void add(struct line *line, unsigned level, const char *name)
{
    struct place *place = &line->places[line->count++];

    place->level = level != 0;
    snprintf(place->name, PLACE_NAME, "%s", name);
}

/* The bits `high` to `low` of a value, each with its number behind the name. */
static void add_bits(struct line *line, uint32_t value, int high, int low, const char *name, int number)
{
    char whole[PLACE_NAME];

    for (int bit = high; bit >= low; bit--) {
        snprintf(whole, sizeof whole, "%s.%d", name, number + bit - low);
        add(line, value >> bit & 1, whole);
    }
}

static void add_arbitration(struct line *line, const struct bus_frame *frame)
{
    unsigned is_remote = (frame->id & remote) != 0;

    add(line, 0, "SOF");
    if (frame->id & extended) {
        add_bits(line, frame->id, 28, 18, "ID", 18);
        add(line, 1, "SRR");
        add(line, 1, "IDE");
        add_bits(line, frame->id, 17, 0, "ID", 0);
        add(line, is_remote, "RTR");
        add(line, 0, "r1");
    } else {
        add_bits(line, frame->id, 10, 0, "ID", 18);
        add(line, is_remote, "RTR");
        add(line, 0, "IDE");
    }
    add(line, 0, "r0");
}

static void add_data(struct line *line, const struct bus_frame *frame)
{
    char name[PLACE_NAME];

    add_bits(line, frame->dlc > 8 ? frame->dlc : frame->length, 3, 0, "DLC", 0);
    for (unsigned i = 0; i < frame->length && !(frame->id & remote); i++) {
        snprintf(name, sizeof name, "data %u", i + 1);
        add_bits(line, frame->data[i], 7, 0, name, 0);
    }
}

static uint32_t checksum(const struct line *line)
{
    uint32_t crc = 0;

    for (size_t i = 0; i < line->count; i++) {
        uint32_t next = line->places[i].level ^ (crc >> 14 & 1);

        crc = crc << 1 & CRC_MASK;
        if (next)
            crc ^= POLYNOMIAL;
    }
    return crc;
}

/* The bits with a stuff bit of the other level behind each five of one level. */
static void add_stuffed(struct line *line, const struct line *bare)
{
    unsigned same = 0, stuffed = 0;
    char name[PLACE_NAME];

    for (size_t i = 0; i < bare->count; i++) {
        unsigned level = bare->places[i].level;

        same = line->count > 0 && line->places[line->count - 1].level == level ? same + 1 : 1;
        add(line, level, bare->places[i].name);
        if (same < 5)
            continue;
        snprintf(name, sizeof name, "stuff.%u", ++stuffed);
        add(line, !level, name);
        same = 1;
    }
}

static void add_end(struct line *line)
{
    add(line, 1, "CRC delimiter");
    add(line, 0, "ACK");
    add(line, 1, "ACK delimiter");
    for (int i = 1; i <= 7; i++)
        add_bits(line, 1, 0, 0, "EOF", i);
    for (int i = 1; i <= 3; i++)
        add_bits(line, 1, 0, 0, "intermission", i);
}

size_t bus_places(const char *text, struct place places[PLACES])
{
    struct place kept[PLACES];
    struct line bare = { kept, 0 }, line = { places, 0 };
    struct bus_frame frame;

    if (bus_frame_read(text, &frame) != 0)
        return 0;
    add_arbitration(&bare, &frame);
    add_data(&bare, &frame);
    add_bits(&bare, checksum(&bare), 14, 0, "CRC", 0);
    add_stuffed(&line, &bare);
    add_end(&line);
    return line.count;
}

int bus_place(const char *frame, const char *name)
{
    struct place places[PLACES];
    size_t count = bus_places(frame, places);

    for (size_t i = 0; i < count; i++)
        if (strcmp(places[i].name, name) == 0)
            return (int)i;
    return -1;
}
