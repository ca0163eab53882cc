/* SPDX-License-Identifier: GPL-2.0-only */
/* The bits of a frame by name, from SOF to the end of intermission, stuff bits among them: where to strike. */
#ifndef LINUX_PLACE_H
#define LINUX_PLACE_H

#include <stddef.h>
#include <stdint.h>

enum { PLACES = 200, PLACE_NAME = 20 };

/* A bit of a frame: its level, and its name, as SOF, ID.28, RTR, DLC.3, data 1.7, CRC.14, stuff.1, CRC delimiter, ACK,
 * ACK delimiter, EOF.1 or intermission.1. Bytes count from 1, and bits of a byte down from 7. */
struct place {
    uint8_t level;
    char name[PLACE_NAME];
};

/* The bits of a frame in the notation of cansend. How many they are, or 0 where it is no frame. */
size_t bus_places(const char *frame, struct place places[PLACES]);
/* The bit of a frame with this name, counted from SOF, or -1 where it has none. */
int bus_place(const char *frame, const char *name);

#endif
