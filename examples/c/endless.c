/* Two drivers on a bus that goes on until the program is told to stop, by SIGINT or SIGTERM: node 0 polls, node 1 is
 * woken by its interrupt. By turns each sends the other a message that has its number. Of one frame in eleven a bit is
 * struck at its sender, so that it is sent again, and now and then both go bus-off and restart. Each message has to be
 * received once, and in order. A line says from time to time how far the bus has come. Where a number stands behind the
 * program's name it stops after so many bits. The status is 1 where a message was missed or came twice, or a driver
 * didn't come back. */
#define _POSIX_C_SOURCE 200809L

#include <inttypes.h>
#include <signal.h>
#include <stdio.h>
#include <stdlib.h>

#include "board.h"
#include "expect.h"
#include "interrupts.h"
#include "polling.h"
#include "registers.h"

enum { VERSION = 3, WITHOUT_END = 0, ROUND = 300, ROUNDS = 10, LINE = 20000000 };

/* One message of so many is struck, so many bits after it was asked for: in its data. Both send such ones by turns. */
enum { STRUCK = 11, IN_DATA = 50 };

/* Both drivers restart once in so many messages. They are back after 128 times eleven recessive bits. */
enum { RESTARTED = 50, BACK = 1500 };

/* Both drivers let the identifiers through whose first bit is 0. */
static const struct filter FILTER = { .code = 0x000, .mask = 0x3FF };

static volatile sig_atomic_t told_to_stop;

static void stop(int number)
{
    (void)number;
    told_to_stop = 1;
}

/* What a signal does from now on, however often it comes. */
static void on(int number, void (*handler)(int))
{
    struct sigaction action = { .sa_handler = handler };

    sigaction(number, &action, NULL);
}

static uint64_t now(const struct board *board)
{
    return board_done("now", sja_now(board->session));
}

/* The message of this number. */
static struct message numbered(uint64_t number)
{
    struct message message = { .id = (uint32_t)(number % 0x400), .length = 8 };

    for (int i = 0; i < 8; i++)
        message.data[i] = (uint8_t)(number >> 8 * i);
    return message;
}

/* Strikes the frame that a node is about to send, where this message is one that is struck. */
static void strike(const struct board *board, uint64_t number)
{
    uint64_t bit = now(board) + IN_DATA;

    if (number % STRUCK != 0)
        return;
#ifdef TWICE
    /* A planted mistake: in the last bit of EOF it has been received, and is sent again. */
    board_done("to", sja_to(board->session, board->node, SJA_EOF + 7, ROUND));
    bit = now(board);
#endif
    board_done("strike", sja_strike(board->session, board->node, bit));
#ifdef KEEPS
    /* Another one: of each strike memory is kept, as much as the library takes for it. */
    static struct kept { struct kept *before; uint64_t bit, node; } *last;
    struct kept *kept = malloc(sizeof *kept);

    if (kept != NULL)
        *kept = (struct kept){ last, bit, board->node };
    last = kept;
#endif
}

/* The one that polls sends a message, and the other one receives it. */
static void from_polling(struct polling *polling, struct interrupts *interrupts, uint64_t number)
{
    struct message message = numbered(number), received = { 0 };
    enum outcome outcome = PENDING;

    expect("the buffer of polling is free", (unsigned)polling_send(polling, &message, 0), 1);
    strike(&polling->board, number);
    for (int i = 0; i < ROUNDS && outcome == PENDING; i++) {
        interrupts_run(interrupts, ROUND / 2);
        outcome = polling_outcome(polling);
    }
    expect("outcome of polling", outcome, SENT);
    expect("one for interrupts", (unsigned)interrupts_receive(interrupts, &received), 1);
    expect("as it was sent", (unsigned)message_equals(&message, &received), 1);
    expect("no other one for interrupts", (unsigned)interrupts_receive(interrupts, &received), 0);
}

/* The one that is woken sends a message, and the other one receives it. */
static void from_interrupts(struct interrupts *interrupts, struct polling *polling, uint64_t number)
{
    struct message message = numbered(number), received = { 0 };

    expect("the buffer of interrupts is free", (unsigned)interrupts_send(interrupts, &message, 0), 1);
    strike(&interrupts->board, number);
    for (int i = 0; i < ROUNDS && interrupts->outcome == PENDING; i++)
        interrupts_run(interrupts, ROUND / 2);
    expect("outcome of interrupts", interrupts->outcome, SENT);
    expect("one for polling", (unsigned)polling_receive(polling, &received), 1);
    expect("as it was sent", (unsigned)message_equals(&message, &received), 1);
    expect("no other one for polling", (unsigned)polling_receive(polling, &received), 0);
}

/* Takes a controller to bus-off, as many faults would: with 255 in TXERR it goes there as reset mode is left (data
 * sheet, 6.4.12). */
static void go_off(const struct board *board)
{
    board_write(board, MOD, MOD_RM | MOD_AFM);
    board_write(board, TXERR, 0xff);
    board_write(board, MOD, MOD_AFM);
}

/* Both go bus-off, restart and come back. */
static void restart(struct polling *polling, struct interrupts *interrupts)
{
    unsigned restarts = polling->restarts + interrupts->restarts;

    go_off(&polling->board);
    go_off(&interrupts->board);
    polling_care(polling);
    interrupts_run(interrupts, BACK);
    expect("restarts", polling->restarts + interrupts->restarts, restarts + 2);
    expect("interrupts is off", (unsigned)interrupts->off, 0);
}

static void tell(const struct polling *polling, const struct interrupts *interrupts, uint64_t messages)
{
    printf("%" PRIu64 " bits, %" PRIu64 " messages, %u restarts, %" PRIu64 " strikes\n", now(&polling->board), messages,
           polling->restarts + interrupts->restarts, (messages + STRUCK - 1) / STRUCK);
    fflush(stdout);
}

/* Messages until the program is to stop, and how many they were. */
static uint64_t exchange(struct polling *polling, struct interrupts *interrupts, uint64_t bits)
{
    uint64_t number = 0, line = 0;

    while (!told_to_stop && differences == 0 && now(&polling->board) < bits) {
        if (number % RESTARTED == 0)
            restart(polling, interrupts);
        from_polling(polling, interrupts, number++);
        from_interrupts(interrupts, polling, number++);
        if (now(&polling->board) / LINE > line) {
            line = now(&polling->board) / LINE;
            tell(polling, interrupts, number);
        }
    }
    return number;
}

int main(int count, char **words)
{
    uint64_t bits = count > 1 ? strtoull(words[1], NULL, 10) : UINT64_MAX, messages;
    struct polling polling;
    struct interrupts interrupts;
    sja *session;

    /* A process of the session's own ignores what stops this one. */
    on(SIGINT, SIG_IGN);
    board_done("new", sja_new(VERSION, WITHOUT_END, 2, &session));
    on(SIGINT, stop);
    on(SIGTERM, stop);
    if (!polling_open(&polling, session, 0, FILTER) || !interrupts_open(&interrupts, session, 1, FILTER))
        return 1;
    interrupts_run(&interrupts, 30);
    messages = exchange(&polling, &interrupts, bits);
    tell(&polling, &interrupts, messages);
    printf("%u errors seen by node 1, %u differences\n", interrupts.errors, differences);
    board_done("free", sja_free(session));
    return differences == 0 ? 0 : 1;
}
