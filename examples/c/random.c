/* Calls with random arguments, in and out of range, as many as the first word says: each has to be answered with a
 * status, and a million of them have to meet all that there are but for refused memory. Half of the sessions are of all
 * calls. In most others nodes send frames, so that some thousands of messages are stored; some take turn after turn, or
 * strike after strike, until there are no more. Where a second word names a folder, the plan and the report of each
 * session are put there, so that others can look whether a run of the plan has that report. It's a test of the library,
 * beside the sanitizers. */
#include <stdio.h>
#include <stdlib.h>

#include "sja.h"

enum { ALL = 1000000, TEXT = 200000, MOST = 1 << 23, MIXED_BITS = 4000, BUSY_BITS = 30000, LAST = 2000 };
enum { MOD = 0, CMR = 1, BUFFER = 16, BUFFER_BYTES = 13, AMR = 20, STARTING = 5, ROUND = 24 };

/* What a session is for. */
enum manner { MIXED, BUSY, TURNS, STRIKES };

struct driven {
    sja *session;
    uint32_t version;
    uint32_t bits;
    uint32_t nodes;
    enum manner manner;
    unsigned long number;
    unsigned long left;         /* so many calls and it ends */
    uint32_t made;              /* calls of a busy one */
    uint32_t sender;            /* whose frame is written there */
    int ended;                  /* its report was asked for */
};

static uint64_t state = 88172645463325252u;

/* A random number (xorshift). */
static uint32_t any(void)
{
    state ^= state << 13;
    state ^= state >> 7;
    state ^= state << 17;
    return (uint32_t)(state >> 16);
}

/* A number within a limit mostly, or any. */
static uint32_t about(uint32_t limit)
{
    return any() % 16 != 0 ? any() % (limit + 2) : any();
}

static char text[TEXT];
static size_t planned;          /* the length of the plan that it holds */
static char report[64];
static char most[MOST];

/* Asks for a text in some room, seldom for that of a plan, and more seldom for a report, which ends the session. */
static uint32_t ask_text(struct driven *driven, int plan)
{
    sja_answer told;

    if (any() % (plan ? 16 : 256) != 0)
        return sja_now(driven->session).status;
    told = (plan ? sja_plan : sja_report)(driven->session, text, about(TEXT) % TEXT);
    driven->ended = driven->ended || !plan;
    if (told.status == SJA_DONE)
        planned = plan ? told.value : 0;
    return told.status;
}

/* An address: half the time MOD, CMR or one of the transmit buffer. */
static uint32_t some_address(void)
{
    if (any() % 2 == 0)
        return about(31);
    return any() % 3 == 0 ? any() % 2 : BUFFER + any() % BUFFER_BYTES;
}

static uint32_t one_call(struct driven *driven)
{
    sja *session = driven->session;

    switch (any() % 24) {
    case 0:
        return sja_strike(session, about(driven->nodes), about(driven->bits)).status;
    case 1:
        return sja_now(session).status;
    case 2:
    case 3:
        return sja_irq(session, about(2)).status;
    case 4:
    case 5:
        return sja_bits(session, about(20), about(3)).status;
    case 6:
        return ask_text(driven, 1);
    case 7:
        return ask_text(driven, 0);
    case 8:
        return sja_run_plan(text, any() % 8 == 0 ? planned : about(64) % TEXT, report, sizeof report).status;
    case 9:
        return sja_read(NULL, about(2), about(255)).status;
    case 10:
    case 11:
    case 12:
    case 13:
    case 14:
        return sja_read(session, about(2), about(255)).status;
    default:
        return sja_write(session, about(2), some_address(), about(255)).status;
    }
}

/* A call of a session whose nodes send: each leaves reset mode with a filter that passes all. Then, in turn, a frame is
 * written and asked for, bits run, a message is released, a node may leave reset mode again, and calls are made as in
 * other sessions. */
static uint32_t busy_call(struct driven *driven)
{
    sja *session = driven->session;
    uint32_t call = driven->made++, node = any() % driven->nodes;

    if (call < STARTING * driven->nodes)
        return call % STARTING < 4 ? sja_write(session, call / STARTING, AMR + call % STARTING, 0xff).status
                                   : sja_write(session, call / STARTING, MOD, 0).status;
    call = (call - STARTING * driven->nodes) % ROUND;
    if (call == 0)
        driven->sender = node;
    if (call < BUFFER_BYTES)
        return sja_write(session, driven->sender, BUFFER + call, call < 2 ? any() % 9 : any() & 0xe0).status;
    switch (call) {
    case BUFFER_BYTES:
        return sja_write(session, driven->sender, CMR, any() % 8 == 0 ? 3 : 1).status;
    case BUFFER_BYTES + 1:
        return sja_bits(session, any() % 300, about(255)).status;
    case BUFFER_BYTES + 2:
    case BUFFER_BYTES + 3:
        return sja_write(session, node, CMR, 4).status;
    case BUFFER_BYTES + 4:
        return any() % 4 == 0 ? sja_write(session, node, MOD, 0).status : sja_read(session, node, any() % 32).status;
    default:
        return one_call(driven);
    }
}

/* The next call of a session, as it is for. The last ones, but of a busy one, are of all calls. */
static uint32_t next_call(struct driven *driven)
{
    if (driven->manner == MIXED || (driven->manner != BUSY && driven->left < LAST))
        return one_call(driven);
    if (driven->manner == BUSY)
        return busy_call(driven);
    if (driven->manner == STRIKES)
        return sja_strike(driven->session, any() % driven->nodes, any() % driven->bits).status;
    if (driven->left % 2 == 0)
        return sja_bits(driven->session, 1, about(3)).status;
    return sja_read(driven->session, any() % driven->nodes, about(255)).status;
}

/* How many bits a session is to have: a few thousand, or a number at a limit or past it. */
static uint32_t some_bits(void)
{
    switch (any() % 32) {
    case 0:
        return 0;
    case 1:
        return 1;
    case 2:
        return any() | 1 << 22;
    case 3:
        return any() % 8 == 0 ? 200000 : 2000001;
    case 4:
        return 200001;
    default:
        return 1 + any() % MIXED_BITS;
    }
}

/* Begins a session: the 20th takes turns until there are no more in version 3, and each 64th in version 1 or 2. Of the
 * others half are busy. */
static uint32_t begin(struct driven *driven)
{
    unsigned long number = driven->number;

    if (number == 20 || number % 64 == 7)
        *driven = (struct driven){ .version = number == 20 ? 3 : 1 + any() % 2, .bits = number == 20 ? 150000 : 10000,
                                   .nodes = 8, .manner = TURNS, .left = number == 20 ? 222000 : 14000 };
    else if (number % 32 == 3)
        *driven = (struct driven){ .version = 1 + any() % 2, .bits = MIXED_BITS, .nodes = 1 + any() % 3,
                                   .manner = STRIKES, .left = 3500 };
    else if (number % 2 == 0)
        *driven = (struct driven){ .version = 1 + any() % 3, .bits = BUSY_BITS, .nodes = 2 + any() % 7,
                                   .manner = BUSY, .left = 200 + any() % 3000 };
    else
        *driven = (struct driven){ .version = 1 + about(2), .bits = some_bits(), .nodes = about(8),
                                   .left = 1 + any() % (number % 8 == 5 ? 12000 : 3000) };
    driven->number = number;
    return sja_new(driven->version, driven->bits, driven->nodes, &driven->session).status;
}

/* Writes a text of a session to the file NUMBER.END of a folder. Whether that went well. */
static int put(const char *folder, unsigned long number, const char *end, size_t length)
{
    char name[4096];
    FILE *file;
    int whole;

    snprintf(name, sizeof name, "%s/%lu.%s", folder, number, end);
    file = fopen(name, "w");
    if (file == NULL)
        return 0;
    whole = fwrite(most, 1, length, file) == length;
    return fclose(file) == 0 && whole;
}

/* Puts the plan and the report of a session, which ends with it, into a folder, and lets go of it. A session has none
 * where no document says its plan. Whether the files could be written. */
static int ended(struct driven *driven, const char *folder)
{
    int well = 1;

    if (folder != NULL) {
        sja_answer told = sja_plan(driven->session, most, sizeof most);

        if (told.status == SJA_DONE) {
            well = put(folder, driven->number, "plan", told.value);
            told = sja_report(driven->session, most, sizeof most);
            well = well && told.status == SJA_DONE && put(folder, driven->number, "report", told.value);
        }
    }
    sja_free(driven->session);
    driven->session = NULL;
    driven->number++;
    return well;
}

/* Whether the session is to end: where its calls are done, or, soon after its report was asked for. */
static int is_over(struct driven *driven)
{
    return driven->left == 0 || (driven->ended && any() % 16 == 0);
}

/* Whether no call here may have this status: the process of sja_pipe.c is another file's, and no place is asked for. */
static int is_untold(uint32_t status)
{
    return status == SJA_BROKEN || status == SJA_NO_PLACE || status > SJA_ENDLESS;
}

/* Prints how often each status was told. Whether all were that have to be. */
static int told_all(const unsigned long *seen, unsigned long calls)
{
    int all = 1;

    for (uint32_t status = 0; status <= SJA_ENDLESS; status++) {
        if (is_untold(status))
            continue;
        printf("status %2u: %lu\n", (unsigned)status, seen[status]);
        all = all && (seen[status] > 0 || status == SJA_NO_MEMORY);
    }
    if (!all && calls >= ALL)
        fprintf(stderr, "a status was never told\n");
    return all || calls < ALL;
}

int main(int count, char **words)
{
    unsigned long calls = count > 1 ? strtoul(words[1], NULL, 10) : 1000;
    const char *folder = count > 2 ? words[2] : NULL;
    unsigned long seen[SJA_ENDLESS + 1] = { 0 };
    struct driven driven = { 0 };

    for (unsigned long i = 0; i < calls; i++) {
        uint32_t status;

        if (driven.session != NULL && is_over(&driven) && !ended(&driven, folder))
            return 1;
        status = driven.session == NULL ? begin(&driven) : next_call(&driven);
        driven.left -= driven.left > 0;
        if (is_untold(status)) {
            fprintf(stderr, "call %lu: status %u\n", i, (unsigned)status);
            return 1;
        }
        seen[status]++;
    }
    if (driven.session != NULL && !ended(&driven, folder))
        return 1;
    return told_all(seen, calls) ? 0 : 1;
}
