/* Each bit of a frame is struck, one in each run, and it is looked at what the drivers delivered. A message that is
 * sent till it is through has to be delivered, once or, where only the transmitter sees an error, twice; and one that
 * is tried once alone has to be delivered where its driver says that it was sent. What is delivered has to be what was
 * sent. The status is 1 where a driver does otherwise. */
#include <stdio.h>
#include <stdlib.h>

#include "board.h"
#include "interrupts.h"
#include "polling.h"

enum { VERSION = 3, BITS = 1000, FRAME = 100, SETTLES = 30, LATEST = 600 };

static const struct message MESSAGE = { .id = 0x2A5, .length = 3, .data = { 0xA5, 0x00, 0x5A } };

/* What came of one run. */
struct result {
    enum outcome outcome;
    unsigned delivered;
    unsigned wrong;
};

/* How often each was seen. */
struct tally {
    unsigned runs;
    unsigned sent;
    unsigned delivered[3];  /* not, once, more than once */
    unsigned faults;
};

static void count_message(struct result *result, const struct message *message)
{
    result->delivered++;
    if (!message_equals(message, &MESSAGE))
        result->wrong++;
}

/* One run: the one driver sends, the other receives, and one bit of one node is struck, counted from where the
 * message is handed over. */
static struct result run(int polling_sends, int once, uint32_t struck, uint32_t bit)
{
    struct result result = { .outcome = PENDING };
    struct polling polling;
    struct interrupts interrupts;
    struct message message;
    sja *session;

    board_done("new", sja_new(VERSION, BITS, 2, &session));
    if (!polling_open(&polling, session, 0, (struct filter){ .mask = 0x7FF })
        || !interrupts_open(&interrupts, session, 1, (struct filter){ .mask = 0x7FF }))
        exit(2);
    interrupts_run(&interrupts, SETTLES);
    board_done("strike", sja_strike(session, struck, SETTLES + bit));
    if (polling_sends)
        polling_send(&polling, &MESSAGE, once);
    else
        interrupts_send(&interrupts, &MESSAGE, once);
    interrupts_run(&interrupts, LATEST);
    result.outcome = polling_sends ? polling_outcome(&polling) : interrupts.outcome;
    while (polling_receive(&polling, &message))
        count_message(&result, &message);
    while (interrupts_receive(&interrupts, &message))
        count_message(&result, &message);
    board_done("free", sja_free(session));
    return result;
}

/* What a driver did that it shouldn't. */
static const char *fault_of(int once, const struct result *result)
{
    if (result->wrong > 0)
        return "another message was delivered than was sent";
    if (result->outcome == PENDING)
        return "the driver never learns what became of its message";
    if (result->outcome == SENT && result->delivered == 0)
        return "the driver says that the message was sent, and it was never delivered";
    if (!once && result->outcome != SENT)
        return "the driver gives up a message that is to be sent till it is through";
    if (once && result->delivered > 1)
        return "a message that is tried once was delivered twice";
    return NULL;
}

/* All bits of a frame, struck at either node. */
static struct tally sweep(int polling_sends, int once)
{
    struct tally tally = { 0 };

    for (uint32_t struck = 0; struck < 2; struck++)
        for (uint32_t bit = 0; bit < FRAME; bit++) {
            struct result result = run(polling_sends, once, struck, bit);
            const char *fault = fault_of(once, &result);

            tally.runs++;
            tally.sent += result.outcome == SENT;
            tally.delivered[result.delivered < 2 ? result.delivered : 2]++;
            if (fault != NULL && tally.faults++ == 0)
                printf("node %u struck in bit %u: %s\n", (unsigned)struck, (unsigned)bit, fault);
        }
    return tally;
}

int main(void)
{
    unsigned faults = 0;

    for (int polling_sends = 0; polling_sends < 2; polling_sends++)
        for (int once = 0; once < 2; once++) {
            struct tally tally = sweep(polling_sends, once);

            printf("%s sends%s: %u runs, %u sent, delivered 0/1/2 times: %u/%u/%u\n",
                   polling_sends ? "polling" : "interrupts", once ? " once" : "", tally.runs, tally.sent,
                   tally.delivered[0], tally.delivered[1], tally.delivered[2]);
            faults += tally.faults;
        }
    printf("%u faults\n", faults);
    return faults == 0 ? 0 : 1;
}
