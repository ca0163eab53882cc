/* SPDX-License-Identifier: GPL-2.0-only */
/* Strands: what runs one after the other in the driver of a node, each in a context of its own. A node has three: its
 * handler, what was put off, and its queue. The test is one more, in whatever driver it calls. A strand that waits in
 * an access gives way to the others, and the test alone lets bits run. Without others that act there is the test's
 * strand alone, in which all is called. */
#ifndef LINUX_STRAND_H
#define LINUX_STRAND_H

#include <setjmp.h>
#include <stdbool.h>
#include <stdint.h>
#include <ucontext.h>

enum strand_kind { STRAND_HANDLER, STRAND_WORK, STRAND_QUEUE, STRAND_TEST };

struct strand {
    enum strand_kind kind;
    int node;               /* whose driver it is in, or -1 */
    bool has_begun;         /* and hasn't ended */
    uint64_t until;         /* the bit up to which it waits */
    const bool *gate;       /* what it waits for as well: that this is false; or null */
    unsigned irqs_off;      /* the locks it holds that keep interrupts off */
    unsigned accesses;      /* of the handler that it is in */
    bool handles, took;     /* whether it is in a handler, and whether that one read an interrupt */
    jmp_buf leave;          /* out of a handler that doesn't end */
    void (*body)(struct strand *strand);
    void *what;             /* for the body */
    ucontext_t context;
    char *stack;
};

/* The strand that runs. */
struct strand *strand_current(void);
struct strand *strand_of(unsigned node, enum strand_kind kind);
/* No strand has begun: a bus begins, or ends. */
void strand_forget(void);

/* From the test's strand: begins a strand, or goes on with it, until it waits or ends. */
void strand_begin(struct strand *strand, void (*body)(struct strand *strand), void *what);
void strand_go_on(struct strand *strand);
/* From any other: the test's strand goes on until this one is gone on with. */
void strand_give_way(void);

/* Whether two of a node have processors of their own. */
bool strand_are_apart(const struct strand *one, const struct strand *other);
/* Whether a strand may begin or go on now, as others of its node wait. */
bool strand_may_act(const struct strand *strand);
/* Whether any but the test's has begun: of a node, or of all. */
bool strand_any_of(unsigned node);
bool strand_any(void);

#endif
