/* SPDX-License-Identifier: GPL-2.0-only */
/* Frames in the notation of can-utils: 123#1122, 12345678#R4, 123#1122334455667788_9. */
#include "bus.h"

#include <ctype.h>
#include <errno.h>
#include <stdio.h>
#include <stdlib.h>
#include <string.h>

/* The flags of linux/can.h in an identifier. */
static const uint32_t extended = 0x80000000, remote = 0x40000000, error = 0x20000000;

static int digit(char letter)
{
    if (letter >= '0' && letter <= '9')
        return letter - '0';
    letter = (char)toupper((unsigned char)letter);
    return letter >= 'A' && letter <= 'F' ? letter - 'A' + 10 : -1;
}

void bus_frame_text(const struct bus_frame *frame, char text[FRAME_TEXT])
{
    char *at = text;

    if (frame->id & error)
        at += sprintf(at, "%08X#", (unsigned)frame->id);
    else if (frame->id & extended)
        at += sprintf(at, "%08X#", (unsigned)(frame->id & 0x1fffffff));
    else
        at += sprintf(at, "%03X#", (unsigned)(frame->id & 0x7ff));
    if (frame->id & remote)
        at += frame->length > 0 ? sprintf(at, "R%u", (unsigned)frame->length) : sprintf(at, "R");
    for (unsigned i = 0; i < frame->length && !(frame->id & remote); i++)
        at += sprintf(at, "%02X", (unsigned)frame->data[i]);
    if (frame->dlc > 8)
        sprintf(at, "_%X", (unsigned)frame->dlc);
}

/* The identifier before the `#`: three digits, or eight of an extended frame. Where it ends, or null. */
static const char *read_identifier(const char *text, struct bus_frame *frame)
{
    const char *end = strchr(text, '#');

    if (end == NULL || (end - text != 3 && end - text != 8))
        return NULL;
    for (const char *at = text; at < end; at++) {
        if (digit(*at) < 0)
            return NULL;
        frame->id = frame->id << 4 | (uint32_t)digit(*at);
    }
    if (frame->id > (end - text == 8 ? 0x1fffffffU : 0x7ffU))
        return NULL;
    if (end - text == 8)
        frame->id |= extended;
    return end + 1;
}

/* The data: up to eight bytes. Where they end, or null. */
static const char *read_data(const char *at, struct bus_frame *frame)
{
    while (digit(at[0]) >= 0) {
        if (digit(at[1]) < 0 || frame->length == 8)
            return NULL;
        frame->data[frame->length++] = (uint8_t)(digit(at[0]) << 4 | digit(at[1]));
        at += 2;
        at += *at == '.';
    }
    return at;
}

/* `R`, with the DLC up to 8 behind it where it isn't 0. */
static const char *read_remote(const char *at, struct bus_frame *frame)
{
    frame->id |= remote;
    at++;
    if (*at >= '0' && *at <= '8')
        frame->length = (uint8_t)(*at++ - '0');
    return at;
}

int bus_frame_read(const char *text, struct bus_frame *frame)
{
    const char *at;

    *frame = (struct bus_frame){ 0 };
    at = read_identifier(text, frame);
    if (at != NULL)
        at = *at == 'R' ? read_remote(at, frame) : read_data(at, frame);
    if (at != NULL && at[0] == '_' && digit(at[1]) > 8 && frame->length == 8) {
        frame->dlc = (uint8_t)digit(at[1]);
        at += 2;
    }
    return at != NULL && *at == '\0' ? 0 : -EINVAL;
}
