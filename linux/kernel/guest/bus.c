/* SPDX-License-Identifier: GPL-2.0-only */
/* bus WORDS: has the bus do something, from a script in a kernel. */
#include <stdio.h>
#include <string.h>

#include "window.h"

static const char help[] =
    "usage: bus WORDS\n"
    "Has the bus do something, at once. Nodes count from 0, over all kernels; bits are those of the run.\n"
    "  strike K B             node K sees the other level in bit B\n"
    "  strike K B E T         in bit B and then every E bits, T times in all\n"
    "  strike K frame N PLACE at this place of the Nth frame that begins for node K from now on\n"
    "  strike K PLACE xT      at this place of each of the first T frames that node K starts from now on\n"
    "  forget                 takes back the strikes that wait for their place\n"
    "  latency BITS           handlers of this kernel are called BITS bits after their line rose\n"
    "  access_bits A/B        each register access of this kernel lets A/B bits run first\n"
    "  late ACCESS BITS       its register access number ACCESS from now on comes BITS bits later\n"
    "  where                  prints how many bits were run\n"
    "A kernel gives an access up that takes longer than 40 ms.\n"
    "A PLACE is one of plans: SOF, ID.28, RTR, IDE, r0, DLC.3, data 1.7, CRC.14, CRC delimiter, ACK, ACK delimiter,\n"
    "EOF.1, intermission.1, stuff.1 .. The status is 1 if the bus refuses, and says why.\n";

/* The words of a line, with a space between two. Whether it fits. */
static int joined(char **words, char line[WINDOW_ROOM])
{
    size_t length = 0;

    for (line[0] = 0; *words != NULL; words++) {
        length += strlen(*words) + 1;
        if (length >= WINDOW_ROOM)
            return 0;
        strcat(line, line[0] != 0 ? " " : "");
        strcat(line, *words);
    }
    return 1;
}

int main(int count, char **words)
{
    char line[WINDOW_ROOM], answer[WINDOW_ROOM];

    if (count < 2 || strcmp(words[1], "--help") == 0 || strcmp(words[1], "-h") == 0) {
        fputs(help, count < 2 ? stderr : stdout);
        return count < 2 ? 2 : 0;
    }
    if (!joined(words + 1, line) || window_say(line, answer) != 0) {
        fprintf(stderr, "bus: the bus isn't there, or the words are too long\n");
        return 2;
    }
    if (strncmp(answer, "ok", 2) != 0) {
        fprintf(stderr, "bus: %s: %s\n", line, strncmp(answer, "no ", 3) == 0 ? answer + 3 : answer);
        return 1;
    }
    if (strcmp(line, "where") == 0)
        puts(answer + 3);
    return 0;
}
