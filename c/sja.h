/* sja.h: a bus of one to eight SJA1000 controllers, which a program drives by its registers, bit by bit.
 *
 * Two files have these calls: the library, proved, in the process of the program; and sja_pipe.c, over a process of
 * its own. README has a first program; docs/use/DRIVER.md says what each call does, and what is proved of it.
 *
 * What a caller owes: a handle comes from sja_new, and isn't used after sja_free; one thread at a time is in a call of
 * a session; a text has as many bytes as its size says and a plan as many as its length says, and the two of
 * sja_run_plan don't overlap; no call comes from a signal handler, nor from the child of a fork in a process with
 * threads. A handle that is null is answered with SJA_NO_HANDLE, a text that is null has no room, and a plan that is
 * null is none. Each number may be any.
 */
#ifndef SJA_H
#define SJA_H

#include <stddef.h>
#include <stdint.h>
#include <stdlib.h>

#ifdef __cplusplus
extern "C" {
#endif

/* A session: its controllers, its bus, and what was done so far. */
typedef struct sja sja;

/* How a call went. A call that isn't done changes nothing, but that sja_report has ended a session with an end all the
 * same. Of several reasons the first of these is told. */
enum sja_status {
    SJA_DONE = 0,
    SJA_NO_HANDLE = 1,    /* the handle is null */
    SJA_ENDED = 2,        /* the session has ended: sja_report ends it */
    SJA_NO_VERSION = 3,   /* the version isn't one from 1 to 3 */
    SJA_NO_BITS = 4,      /* the number of bits isn't one that a session of it may have */
    SJA_NO_NODES = 5,     /* the number of nodes isn't one from 1 to 8 */
    SJA_NO_ADDRESS = 6,   /* the address is past 255 */
    SJA_NO_BYTE = 7,      /* the value is past 255 */
    SJA_NO_NODE = 8,      /* there is no such node */
    SJA_NO_BIT = 9,       /* the session's bits end before this one */
    SJA_PAST = 10,        /* the bit has run */
    SJA_STEPS_USED = 11,  /* the node has no room for the access: a step, before version 3 up to three for a write */
    SJA_TURNS_USED = 12,  /* as many turns were taken as a session has */
    SJA_STRIKES_USED = 13,/* as many strikes were taken as a session has */
    SJA_NO_PLAN = 14,     /* the bytes are no plan, or its run has no place of a strike */
    SJA_NO_DOCUMENT = 15, /* no document says the plan, or it would be too long */
    SJA_NO_ROOM = 16,     /* the text doesn't fit: the value is the size that it needs, with the NUL at its end */
    SJA_NO_MEMORY = 17,   /* memory was refused; of sja_plan and sja_report also: no session stands at the handle */
    SJA_BROKEN = 18,      /* sja_pipe.c alone: the process of the session can't be started, or doesn't answer and
                           * didn't say by its status that memory was refused */
    SJA_NO_PLACE = 19,    /* the number is no place's; told before SJA_NO_NODE */
    SJA_ENDLESS = 20,     /* the session is without an end: it has neither plan nor report, and goes on */
    SJA_STOPPED = 21      /* sja_pipe.c alone: a check stopped the program, one with checks that isn't proved, by a
                           * mistake of its own */
};

/* The places of a frame, and of the intermission after it, as the data sheet and the standard name them. Behind each
 * stands what is added to it: SJA_ID + 28 to SJA_ID + 0, SJA_DATA + 23 for bit 3 of data byte 2, SJA_STUFF + 2 for the
 * second stuff bit. Bytes and stuff bits count from 1, bits of EOF and of intermission too. */
enum sja_places {
    SJA_NOWHERE = 0,             /* at none of them */
    SJA_SOF = 0x100,             /* who starts a frame with the next bit is at SOF */
    SJA_ID = 0x200,              /* 28 to 18, and in an extended frame to 0 */
    SJA_SRR = 0x300,             /* a receiver takes it for SJA_RTR: the format is known with SJA_IDE */
    SJA_RTR = 0x400,
    SJA_IDE = 0x500,
    SJA_R1 = 0x600,
    SJA_R0 = 0x700,
    SJA_DLC = 0x800,             /* 3 to 0 */
    SJA_DATA = 0x900,            /* 10 times the byte, 1 to 8, and its bit, 7 to 0 */
    SJA_CRC = 0xa00,             /* 14 to 0 */
    SJA_CRC_DELIMITER = 0xb00,
    SJA_ACK = 0xc00,
    SJA_ACK_DELIMITER = 0xd00,
    SJA_EOF = 0xe00,             /* 1 to 7 */
    SJA_INTERMISSION = 0xf00,    /* 1 to 3 */
    SJA_STUFF = 0x1000           /* 1 to 29 */
};

/* What a call answers: how it went, and a number, which is 0 where nothing else is said. Of sja_bits alone `rose` is
 * another number than 0: K + 1 where bits came to the rise of the interrupt line of node K. */
typedef struct sja_answer {
    uint32_t status;
    uint32_t rose;
    uint64_t value;
} sja_answer;

/* Makes the place of a session, and puts its handle into *session. There is no session in it, as if it had ended
 * without a plan and a report: SJA_NO_MEMORY is what these two calls answer. Where memory is refused *session is
 * null. */
sja_answer sja_make(sja **session);

/* Begins a session to which nothing happened at a handle, in place of what stands there: by a version of the rules, 1
 * to 3, of which 3 is the one for drivers of the real chip; of at most so many bits, 1 to 200,000, or to 2,000,000 in
 * version 3; with 1 to 8 nodes. Memory for all bits is reserved here. In version 3 with 0 bits it is a session without
 * an end: it goes on as long as it is driven, in the memory that is reserved here, and forgets what is oldest. Starts
 * of its nodes aren't used up. */
sja_answer sja_begin(sja *session, uint32_t version, uint32_t bits, uint32_t nodes);

/* Reads an address of a node, counted from 0: any of the 256. The value is the byte. No bit runs. */
sja_answer sja_read(sja *session, uint32_t node, uint32_t address);

/* Writes a byte to an address of a node: any of the 256. What a register doesn't take, or not in this mode, is ignored,
 * and the status is SJA_DONE all the same: so where MOD is to leave reset mode and all starts of the node are used, 64
 * in version 3 with an end and eight before, RM stays 1. No bit runs. */
sja_answer sja_write(sja *session, uint32_t node, uint32_t address, uint32_t value);

/* Runs so many bits, or as many as are left, or up to the first bit in which the interrupt line of a watched node
 * rises: node K is watched where bit K of watch is 1. The value is how many were run, and rose tells the first node
 * whose line rose; where it is 0 all were run that were asked for or are left. A line that is active already stops
 * nothing, however it came to be: so a driver asks sja_irq first, and handles what is pending. */
sja_answer sja_bits(sja *session, uint32_t count, uint32_t watch);

/* Whether the interrupt line of a node is active: the value is 1 or 0. It's a level: it stays 1 until the interrupt was
 * read or disabled. It clears nothing. */
sja_answer sja_irq(sja *session, uint32_t node);

/* Which interrupt lines are active: bit K of the value is 1 where node K is there and its line is active. As sja_irq of
 * each node, in one call. It clears nothing. */
sja_answer sja_lines(sja *session);

/* As sja_strike below, of the bit that has these halves. */
sja_answer sja_strike_at(sja *session, uint32_t node, uint32_t low, uint32_t high);

/* The value is how many bits were run: the number of the next one. */
sja_answer sja_now(sja *session);

/* At which place of a frame the next bit of a node is, of one that it sends or receives. */
sja_answer sja_place(sja *session, uint32_t node);

/* Runs bits up to the one before which the next bit of a node is at a place, at most so many, and as many as are left;
 * none where it is there already. The value is 1 where it is there then, else 0. sja_strike of the node at sja_now
 * strikes it there. */
sja_answer sja_to(sja *session, uint32_t node, uint32_t place, uint32_t limit);

/* As sja_report, sja_plan and sja_run_plan below, but that neither a text nor a plan is null. */
sja_answer sja_put_report(sja *session, char *text, size_t size);
sja_answer sja_put_plan(sja *session, char *text, size_t size);
sja_answer sja_put_run(const char *plan, size_t length, char *text, size_t size);

/* Lets go of all that the session has in memory, but for the block at the handle. It has ended then, without its plan
 * and its report. */
sja_answer sja_let_go(sja *session);

/* Makes a session to which nothing happened, by a version of the rules, of at most so many bits, with so many nodes,
 * within the limits of sja_begin, and puts its handle into *session. Where there is none, *session is null. Where the
 * place for the handle is null itself the status is SJA_NO_HANDLE. */
static inline sja_answer sja_new(uint32_t version, uint32_t bits, uint32_t nodes, sja **session)
{
    sja_answer told = { SJA_NO_HANDLE, 0, 0 };

    if (session == NULL)
        return told;
    told = sja_make(session);
    if (told.status == SJA_DONE)
        told = sja_begin(*session, version, bits, nodes);
    if (told.status != SJA_DONE) {
        free(*session);
        *session = NULL;
    }
    return told;
}

/* Lets go of a session, and gives its block back. The handle is of no use after it. */
static inline sja_answer sja_free(sja *session)
{
    sja_answer told = sja_let_go(session);

    free(session);
    return told;
}

/* Has a node see the other level in a bit that hasn't run, counted from 0. A bit has 64 bits: a session without an end
 * goes on past 2^32 bits. */
static inline sja_answer sja_strike(sja *session, uint32_t node, uint64_t bit)
{
    return sja_strike_at(session, node, (uint32_t)bit, (uint32_t)(bit >> 32));
}

/* Ends the session, and puts the report of all that happened into the text, with a NUL at its end. The value is the
 * length without it. It can be called again. */
static inline sja_answer sja_report(sja *session, char *text, size_t size)
{
    char none = 0;

    return text != NULL ? sja_put_report(session, text, size) : sja_put_report(session, &none, 0);
}

/* Puts the plan that the session wrote so far into the text, with a NUL at its end: `sja run` takes it. The value is
 * the length without it. */
static inline sja_answer sja_plan(sja *session, char *text, size_t size)
{
    char none = 0;

    return text != NULL ? sja_put_plan(session, text, size) : sja_put_plan(session, &none, 0);
}

/* Runs a plan, and puts its report into the text, with a NUL at its end. The value is the length without it. */
static inline sja_answer sja_run_plan(const char *plan, size_t length, char *text, size_t size)
{
    char none = 0, empty = 0;

    if (plan == NULL) {
        plan = &empty;
        length = 0;
    }
    return text != NULL ? sja_put_run(plan, length, text, size) : sja_put_run(plan, length, &none, 0);
}

#ifdef __cplusplus
}
#endif

#endif
