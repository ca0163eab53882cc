/* The board of the two drivers: see board.h. */
#include "board.h"

#include <stdio.h>
#include <stdlib.h>
#include <string.h>

#include "registers.h"

uint64_t board_done(const char *call, sja_answer answer)
{
    if (answer.status != SJA_DONE) {
        fprintf(stderr, "%s: status %u\n", call, (unsigned)answer.status);
        exit(2);
    }
    return answer.value;
}

enum { NODES = 8 };

/* The time between accesses, and how many were made. */
static struct {
    uint32_t parts, whole, late;
    uint64_t late_access, accesses, of_node[NODES];
} axis = { .whole = 1 };

void board_begin(void)
{
    memset(&axis, 0, sizeof axis);
    axis.whole = 1;
}

void board_access_bits(uint32_t parts, uint32_t whole)
{
    axis.parts = parts;
    axis.whole = whole;
}

void board_late(uint64_t access, uint32_t bits)
{
    axis.late_access = access;
    axis.late = bits;
}

uint64_t board_accesses(void)
{
    return axis.accesses;
}

/* An access takes its time. Parts of a bit add up. */
static void pass(const struct board *board)
{
    uint64_t before = axis.of_node[board->node % NODES]++;
    uint64_t bits = (before + 1) * axis.parts / axis.whole - before * axis.parts / axis.whole;

    if (axis.accesses++ == axis.late_access)
        bits += axis.late;
    if (bits > 0)
        board_wait(board, (uint32_t)bits);
}

uint8_t board_read(const struct board *board, uint8_t address)
{
    pass(board);
    return (uint8_t)board_done("read", sja_read(board->session, board->node, address));
}

void board_write(const struct board *board, uint8_t address, uint8_t value)
{
    pass(board);
    board_done("write", sja_write(board->session, board->node, address, value));
}

void board_wait(const struct board *board, uint32_t bits)
{
    board_done("bits", sja_bits(board->session, bits, 0));
}

void board_filter(const struct board *board, struct filter filter)
{
    board_write(board, ACR, (uint8_t)(filter.code >> 3));
    board_write(board, ACR + 1, (uint8_t)(filter.code << 5));
    board_write(board, AMR, (uint8_t)(filter.mask >> 3));
    board_write(board, AMR + 1, (uint8_t)(filter.mask << 5 | 0x1f));
    for (uint8_t i = 2; i < 4; i++) {
        board_write(board, (uint8_t)(ACR + i), 0x00);
        board_write(board, (uint8_t)(AMR + i), 0xff);
    }
}

void board_put(const struct board *board, const struct message *message)
{
    uint8_t info = message->length & INFO_LENGTH;
    uint8_t data = 3;

    if (message->remote)
        info |= INFO_REMOTE;
    if (message->extended) {
        info |= INFO_EXTENDED;
        data = 5;
        board_write(board, BUFFER + 1, (uint8_t)(message->id >> 21));
        board_write(board, BUFFER + 2, (uint8_t)(message->id >> 13));
        board_write(board, BUFFER + 3, (uint8_t)(message->id >> 5));
        board_write(board, BUFFER + 4, (uint8_t)(message->id << 3));
    } else {
        board_write(board, BUFFER + 1, (uint8_t)(message->id >> 3));
        board_write(board, BUFFER + 2, (uint8_t)(message->id << 5));
    }
    if (!message->remote)
        for (uint8_t i = 0; i < message->length && i < 8; i++)
            board_write(board, (uint8_t)(BUFFER + data + i), message->data[i]);
    board_write(board, BUFFER, info);
}

void board_take(const struct board *board, struct message *message)
{
    uint8_t info = board_read(board, BUFFER);
    uint8_t data = 3;
    uint8_t count;

    message->extended = (info & INFO_EXTENDED) != 0;
    message->remote = (info & INFO_REMOTE) != 0;
    message->length = info & INFO_LENGTH;
    if (message->length > 8)
        message->length = 8;
    message->id = (uint32_t)board_read(board, BUFFER + 1) << 3 | board_read(board, BUFFER + 2) >> 5;
    if (message->extended) {
        data = 5;
        message->id = (uint32_t)board_read(board, BUFFER + 1) << 21 | (uint32_t)board_read(board, BUFFER + 2) << 13
            | (uint32_t)board_read(board, BUFFER + 3) << 5 | board_read(board, BUFFER + 4) >> 3;
    }
    count = message->remote ? 0 : message->length;
    for (uint8_t i = 0; i < 8; i++) {
#ifdef RELEASES_EARLY
        /* The first planted mistake: the message is released before its last byte is read. */
        if (i + 1 == count)
            board_write(board, CMR, CMR_RRB);
#endif
        message->data[i] = i < count ? board_read(board, (uint8_t)(BUFFER + data + i)) : 0;
    }
#ifdef RELEASES_EARLY
    if (count == 0)
#endif
        board_write(board, CMR, CMR_RRB);
}

int message_equals(const struct message *a, const struct message *b)
{
    if (a->id != b->id || a->extended != b->extended || a->remote != b->remote || a->length != b->length)
        return 0;
    for (uint8_t i = 0; i < a->length && !a->remote; i++)
        if (a->data[i] != b->data[i])
            return 0;
    return 1;
}

void message_print(const char *who, const struct message *message)
{
    printf("%s: %0*X%s", who, message->extended ? 8 : 3, (unsigned)message->id, message->remote ? " remote" : "");
    for (uint8_t i = 0; i < message->length && !message->remote; i++)
        printf(" %02X", message->data[i]);
    printf("\n");
}
