/* A driver that is woken by its interrupt. See interrupts.c. */
#ifndef INTERRUPTS_H
#define INTERRUPTS_H

#include "board.h"

enum { QUEUE = 16 };

struct interrupts {
    struct board board;
    struct message queue[QUEUE];    /* what was received, oldest first from `first` on */
    unsigned first;
    unsigned count;
    unsigned lost;                  /* messages for which the queue had no place */
    int busy;                       /* a message is under way */
    enum outcome outcome;           /* what became of the last one */
    int warned;                     /* an error counter is at the warning limit or past it */
    int off;                        /* bus-off */
    unsigned overruns;
    unsigned restarts;
    uint8_t last_error;             /* ECC as the last bus error left it */
    unsigned errors;
};

int interrupts_open(struct interrupts *driver, sja *session, uint32_t node, struct filter filter);
int interrupts_send(struct interrupts *driver, const struct message *message, int once);
int interrupts_receive(struct interrupts *driver, struct message *message);
void interrupts_handle(struct interrupts *driver);
void interrupts_close(struct interrupts *driver);

/* Runs bits, and handles each interrupt of the driver as it comes, and first one that is pending already. */
void interrupts_run(struct interrupts *driver, uint32_t bits);

#endif
