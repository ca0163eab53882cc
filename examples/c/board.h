/* One controller of a session, as a driver's board has it: two functions that read and write a register, and the time,
 * which is bits. A driver that is put on this bus keeps all of itself but for these. */
#ifndef BOARD_H
#define BOARD_H

#include <stdint.h>

#include "sja.h"

struct board {
    sja *session;
    uint32_t node;
};

/* A message as an application has it. */
struct message {
    uint32_t id;
    int extended;
    int remote;
    uint8_t length;
    uint8_t data[8];
};

/* What a driver lets through: the identifiers that have these bits, and don't care where the mask is 1 (single filter
 * of eleven bits, data sheet, 6.4.15). Of an extended identifier they are its first eleven. */
struct filter {
    uint32_t code;
    uint32_t mask;
};

/* What became of a message that was to be sent. */
enum outcome { PENDING, SENT, NOT_SENT };

/* Ends the program where a call wasn't done. Gives its value. */
uint64_t board_done(const char *call, sja_answer answer);

uint8_t board_read(const struct board *board, uint8_t address);
void board_write(const struct board *board, uint8_t address, uint8_t value);

/* Time between accesses, of all boards, which is none at first. Before access i of a node, from 0, run
 * floor((i+1)A/B) less floor(iA/B) bits, of A parts in B of a bit; before one access of the run, from 0, run so many
 * bits more. board_begin says that a run begins: no access was made, and none takes time. */
void board_begin(void);
void board_access_bits(uint32_t parts, uint32_t whole);
void board_late(uint64_t access, uint32_t bits);
/* How many accesses were made in the run. */
uint64_t board_accesses(void);

/* Runs so many bits. */
void board_wait(const struct board *board, uint32_t bits);

/* Sets the acceptance filter, in reset mode: one filter, for MOD with AFM; all but the identifier isn't looked at. */
void board_filter(const struct board *board, struct filter filter);

/* Writes a message to the transmit buffer (data sheet, 6.4.13). */
void board_put(const struct board *board, const struct message *message);

/* Reads the message in the receive window, and then releases it (data sheet, 6.4.14 and 6.4.4). */
void board_take(const struct board *board, struct message *message);

/* Whether two messages are the same, and a message in one line. */
int message_equals(const struct message *a, const struct message *b);
void message_print(const char *who, const struct message *message);

#endif
