/* Two drivers on one bus: node 0 polls, node 1 is woken by its interrupt. They open, send each other messages, each
 * runs over, and each goes bus-off and comes back. What they deliver is printed, and what isn't as it has to be; the
 * report of the session behind it where the first word is "report", and the plan that it wrote where it is "plan". The
 * status is 1 where something isn't as it has to be. */
#include <stdio.h>
#include <stdlib.h>
#include <string.h>

#include "board.h"
#include "expect.h"
#include "interrupts.h"
#include "polling.h"
#include "registers.h"

enum { VERSION = 3, BITS = 20000, POLLS = 8, STRIKES = 100, FRAMES = 7, FIT = 5 };

/* Both drivers let the identifiers through whose first bit is 0. */
static const struct filter FILTER = { .code = 0x000, .mask = 0x3FF };

static const struct message HELLO = { .id = 0x123, .length = 2, .data = { 0x11, 0x22 } };
static const struct message ANSWER = {
    .id = 0x08DAF110, .extended = 1, .length = 8, .data = { 1, 2, 3, 4, 5, 6, 7, 8 }
};
static const struct message FILLS = { .id = 0x0F0, .length = 8, .data = { 0xF0, 1, 2, 3, 4, 5, 6, 7 } };
static const struct message ASKS = { .id = 0x055, .remote = 1, .length = 4 };
static const struct message STOPPED = { .id = 0x7F0, .length = 1, .data = { 0x7F } };

static const char *outcome_name(enum outcome outcome)
{
    return outcome == SENT ? "sent" : outcome == NOT_SENT ? "not sent" : "pending";
}

static unsigned now(const struct board *board)
{
    return (unsigned)board_done("now", sja_now(board->session));
}

/* Runs bits until the polling driver's message has an outcome. The other driver's interrupts are handled as they
 * come. */
static enum outcome wait_polling(struct polling *polling, struct interrupts *interrupts)
{
    enum outcome outcome = PENDING;

    for (int i = 0; i < POLLS && outcome == PENDING; i++) {
        interrupts_run(interrupts, 200);
        outcome = polling_outcome(polling);
    }
    return outcome;
}

/* What became of a driver's message, and what has to. */
static void tell(const char *who, enum outcome outcome, enum outcome wanted)
{
    printf("  %s: %s\n", who, outcome_name(outcome));
    expect("the outcome", outcome, wanted);
}

/* Prints all that the two have received: as many messages as they have to deliver, of which this is the last. */
static void deliver(struct polling *polling, unsigned of_polling, struct interrupts *interrupts, unsigned of_interrupts,
                    const struct message *last)
{
    struct message message = { 0 };
    unsigned count;

    for (count = 0; polling_receive(polling, &message); count++)
        message_print("  polling received", &message);
    expect("messages of polling", count, of_polling);
    for (count = 0; interrupts_receive(interrupts, &message); count++)
        message_print("  interrupts received", &message);
    expect("messages of interrupts", count, of_interrupts);
    expect("the last is as it was sent", last == NULL || message_equals(&message, last), 1);
}

/* The one that is woken sends a message. */
static void send_and_tell(struct interrupts *interrupts, const struct message *message)
{
    expect("the buffer is free", (unsigned)interrupts_send(interrupts, message, 0), 1);
    interrupts_run(interrupts, 300);
    tell("interrupts", interrupts->outcome, SENT);
}

/* Each sends the other a message. */
static void talk(struct polling *polling, struct interrupts *interrupts)
{
    printf("talk\n");
    polling_send(polling, &HELLO, 0);
    tell("polling", wait_polling(polling, interrupts), SENT);
    deliver(polling, 0, interrupts, 1, &HELLO);
    send_and_tell(interrupts, &ANSWER);
    deliver(polling, 1, interrupts, 0, &ANSWER);
    send_and_tell(interrupts, &ASKS);
    deliver(polling, 1, interrupts, 0, &ASKS);
}

/* The filter of neither passes this one. */
static void stop(struct polling *polling, struct interrupts *interrupts)
{
    printf("filter\n");
    polling_send(polling, &STOPPED, 0);
    tell("polling", wait_polling(polling, interrupts), SENT);
    send_and_tell(interrupts, &STOPPED);
    deliver(polling, 0, interrupts, 0, NULL);
}

/* Messages of eleven bytes each, of which the polling driver takes none: the FIFO of 64 bytes has room for five. */
static void overrun_polling(struct polling *polling, struct interrupts *interrupts)
{
    struct message message = FILLS;

    printf("overrun of polling\n");
    for (message.data[7] = 0; message.data[7] < FRAMES; message.data[7]++)
        send_and_tell(interrupts, &message);
    polling_care(polling);
    deliver(polling, FIT, interrupts, 0, NULL);
    printf("  polling: %u overrun\n", polling->overruns);
    expect("overruns", polling->overruns, 1);
    expect("DOS", board_read(&polling->board, SR) & SR_DOS, 0);
    send_and_tell(interrupts, &message);
    deliver(polling, 1, interrupts, 0, &message);
}

/* The same with nobody who serves the interrupt of the other driver. Its line is active from the first message on, and
 * is served before the last one comes: else that is lost too. */
static void overrun_interrupts(struct polling *polling, struct interrupts *interrupts)
{
    struct message message = FILLS;

    printf("overrun of interrupts\n");
    for (message.data[7] = 0; message.data[7] < FRAMES; message.data[7]++) {
        polling_send(polling, &message, 0);
        board_wait(&polling->board, 300);
        tell("polling", polling_outcome(polling), SENT);
    }
    polling_send(polling, &message, 0);
    tell("polling", wait_polling(polling, interrupts), SENT);
    deliver(polling, 0, interrupts, FIT + 1, &message);
    printf("  interrupts: %u overrun\n", interrupts->overruns);
    expect("overruns", interrupts->overruns, 1);
    expect("DOS", board_read(&interrupts->board, SR) & SR_DOS, 0);
}

/* Strikes the frame that a node sends. */
static void strike(const struct board *board)
{
    board_done("strike", sja_strike(board->session, board->node, now(board) + 30));
}

/* A controller that has come back from bus-off. */
static void expect_back(const struct board *board)
{
    expect("RM", board_read(board, MOD) & MOD_RM, 0);
    expect("BS and ES", board_read(board, SR) & (SR_BS | SR_ES), 0);
    expect("TXERR", board_read(board, TXERR), 0);
}

/* The polling driver's own frames are struck until it is bus-off. It comes back after 128 times eleven bits. */
static void bus_off_polling(struct polling *polling, struct interrupts *interrupts)
{
    printf("bus-off of polling\n");
    polling_send(polling, &HELLO, 0);
    for (int i = 0; i < STRIKES && polling->restarts == 0; i++) {
        strike(&polling->board);
        interrupts_run(interrupts, 60);
        polling_care(polling);
    }
    printf("  polling: %u restart, TXERR %u\n", polling->restarts, board_read(&polling->board, TXERR));
    interrupts_run(interrupts, 1500);
    expect_back(&polling->board);
    polling_send(polling, &HELLO, 0);
    tell("polling", wait_polling(polling, interrupts), SENT);
    deliver(polling, 0, interrupts, 1, &HELLO);
    expect("restarts", polling->restarts, 1);
    printf("  interrupts: %s, %u errors\n", interrupts->warned ? "warned" : "not warned", interrupts->errors);
}

/* The same with the other driver: it is told that its counter is at the limit, that it is off, and that it is back. */
static void bus_off_interrupts(struct polling *polling, struct interrupts *interrupts)
{
    int warned = 0;

    printf("bus-off of interrupts\n");
    interrupts_send(interrupts, &HELLO, 0);
    for (int i = 0; i < STRIKES && interrupts->restarts == 0; i++) {
        warned = interrupts->warned;
        strike(&interrupts->board);
        interrupts_run(interrupts, 60);
    }
    expect("warned before", (unsigned)warned, 1);
    expect("off", (unsigned)interrupts->off, 1);
    tell("interrupts", interrupts->outcome, NOT_SENT);
    printf("  interrupts: %u restart, TXERR %u\n", interrupts->restarts, board_read(&interrupts->board, TXERR));
    interrupts_run(interrupts, 1500);
    expect("off at the end", (unsigned)interrupts->off, 0);
    expect("warned at the end", (unsigned)interrupts->warned, 0);
    expect_back(&interrupts->board);
    send_and_tell(interrupts, &HELLO);
    deliver(polling, 1, interrupts, 0, &HELLO);
    expect("restarts", interrupts->restarts, 1);
    printf("  interrupts: %u errors, the last with ECC %02X\n", interrupts->errors, interrupts->last_error);
}

/* Prints a text of the session in as much room as it needs. */
static void print_text(sja *session, sja_answer (*call)(sja *, char *, size_t))
{
    char none[1];
    sja_answer needs = call(session, none, 0);
    char *text = needs.status == SJA_NO_ROOM ? malloc(needs.value) : NULL;

    if (text == NULL) {
        printf("no text: status %u\n", (unsigned)needs.status);
        return;
    }
    board_done("text", call(session, text, needs.value));
    fputs(text, stdout);
    free(text);
}

int main(int count, char **words)
{
    struct polling polling;
    struct interrupts interrupts;
    sja *session;

    board_done("new", sja_new(VERSION, BITS, 2, &session));
    if (!polling_open(&polling, session, 0, FILTER) || !interrupts_open(&interrupts, session, 1, FILTER))
        return 1;
    interrupts_run(&interrupts, 30);
    talk(&polling, &interrupts);
    stop(&polling, &interrupts);
    overrun_polling(&polling, &interrupts);
    overrun_interrupts(&polling, &interrupts);
    bus_off_polling(&polling, &interrupts);
    bus_off_interrupts(&polling, &interrupts);
    polling_close(&polling);
    interrupts_close(&interrupts);
    printf("%u bits, %u differences\n", now(&polling.board), differences);
    if (count > 1 && strcmp(words[1], "plan") == 0)
        print_text(session, sja_plan);
    if (count > 1 && strcmp(words[1], "report") == 0)
        print_text(session, sja_report);
    board_done("free", sja_free(session));
    return differences == 0 ? 0 : 1;
}
