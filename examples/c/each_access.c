/* Each access of two drivers is late, one in each run, by so many bits; then each access takes its time. It is looked at
 * what the drivers delivered: what has to come of a message doesn't hang on when a driver looks. The status is 1 where
 * a driver does otherwise. Beside each_bit.c, which strikes each bit. */
#include <stdio.h>
#include <stdlib.h>

#include "board.h"
#include "interrupts.h"
#include "polling.h"

enum { VERSION = 3, BITS = 4000, SETTLES = 30, LATEST = 900, STRUCK = 40 };

static const uint32_t DELAYS[] = { 1, 2, 5, 11, 30, 60, 120, 300 };
enum { COUNT = sizeof DELAYS / sizeof DELAYS[0], MOST_PARTS = 12 };

/* What each driver sends the other one: they begin together, and the first wins. */
static const struct message MESSAGES[2] = { { .id = 0x2A5, .length = 3, .data = { 0xA5, 0x00, 0x5A } },
                                            { .id = 0x2A6, .length = 1, .data = { 0xFF } } };

/* How a run goes: whether messages are tried once, whether a bit of the first is struck, and what is late. */
struct way {
    int once, struck;
    uint64_t access;
    uint32_t late, parts;
};

/* What came of the message of a driver. */
struct result {
    enum outcome outcome;
    unsigned delivered;
    unsigned wrong;
};

static void count_message(struct result *result, const struct message *message, const struct message *sent)
{
    result->delivered++;
    if (!message_equals(message, sent))
        result->wrong++;
}

/* The drivers look after what comes, as long as it may take. */
static void go_on(struct polling *polling, struct interrupts *interrupts, struct result results[2])
{
    struct message message;

    interrupts_run(interrupts, LATEST);
    results[0].outcome = polling_outcome(polling);
    results[1].outcome = interrupts->outcome;
    while (polling_receive(polling, &message))
        count_message(&results[1], &message, &MESSAGES[1]);
    while (interrupts_receive(interrupts, &message))
        count_message(&results[0], &message, &MESSAGES[0]);
}

/* One run. How many accesses there were. */
static uint64_t run(const struct way *way, struct result results[2])
{
    struct polling polling;
    struct interrupts interrupts;
    uint64_t accesses;
    sja *session;

    results[0] = results[1] = (struct result){ .outcome = PENDING };
    board_begin();
    board_access_bits(way->parts, 4);
    board_late(way->access, way->late);
    board_done("new", sja_new(VERSION, BITS, 2, &session));
    if (!polling_open(&polling, session, 0, (struct filter){ .mask = 0x7FF })
        || !interrupts_open(&interrupts, session, 1, (struct filter){ .mask = 0x7FF }))
        exit(2);
    interrupts_run(&interrupts, SETTLES);
    if (way->struck)
        board_done("strike", sja_strike(session, 0, board_done("now", sja_now(session)) + STRUCK));
    polling_send(&polling, &MESSAGES[0], way->once);
    interrupts_send(&interrupts, &MESSAGES[1], way->once);
    go_on(&polling, &interrupts, results);
    accesses = board_accesses();
    board_done("free", sja_free(session));
    return accesses;
}

/* What a driver did that it shouldn't. */
static const char *fault_of(const struct way *way, const struct result *result)
{
    if (result->wrong > 0)
        return "another message was delivered than was sent";
    if (result->outcome == PENDING)
        return "the driver never learns what became of its message";
    if (result->outcome == SENT && result->delivered != 1)
        return "the driver says that the message was sent, and it wasn't delivered once";
    if (result->outcome == NOT_SENT && !way->once)
        return "the driver gives up a message that is to be sent till it is through";
    if (result->outcome == NOT_SENT && result->delivered > 0)
        return "the driver says that the message wasn't sent, and it was delivered";
    return NULL;
}

/* Tries one way, and prints the first fault of those ways that differ in what is late. Whether there was one. */
static unsigned try(const struct way *way, int is_first)
{
    static const char *const names[] = { "polling", "interrupts" };
    struct result results[2];
    unsigned faults = 0;

    run(way, results);
    for (int sender = 0; sender < 2; sender++) {
        const char *fault = fault_of(way, &results[sender]);

        if (fault == NULL)
            continue;
        if (is_first && faults == 0 && way->parts == 0)
            printf("access %u late by %u bits, %s sends: %s\n", (unsigned)way->access, (unsigned)way->late,
                   names[sender], fault);
        else if (is_first && faults == 0)
            printf("each access takes %u/4 bits, %s sends: %s\n", (unsigned)way->parts, names[sender], fault);
        faults++;
    }
    return faults > 0;
}

/* Each access with each delay, and all of them late. How many runs have a fault. */
static unsigned sweep(int once, int struck)
{
    struct way way = { .once = once, .struck = struck };
    struct result results[2];
    uint64_t accesses = run(&way, results);
    unsigned runs = 0, faults = 0;

    for (way.access = 0; way.access < accesses; way.access++)
        for (unsigned i = 0; i < COUNT; i++, runs++) {
            way.late = DELAYS[i];
            faults += try(&way, faults == 0);
        }
    way.late = 0;
    for (way.parts = 1; way.parts <= MOST_PARTS; way.parts++, runs++)
        faults += try(&way, faults == 0);
    printf("%s%s: %u accesses, %u runs, %u with a fault\n", once ? "once" : "till it is through",
           struck ? ", struck" : "", (unsigned)accesses, runs, faults);
    return faults;
}

int main(void)
{
    unsigned faults = 0;

    for (int once = 0; once < 2; once++)
        for (int struck = 0; struck < 2; struck++)
            faults += sweep(once, struck);
    printf("%u faults\n", faults);
    return faults == 0 ? 0 : 1;
}
