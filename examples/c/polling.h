/* A driver that polls the status register. See polling.c. */
#ifndef POLLING_H
#define POLLING_H

#include "board.h"

struct polling {
    struct board board;
    int busy;           /* a message is under way */
    int down;           /* it didn't come up again after a bus-off */
    unsigned overruns;
    unsigned restarts;
};

int polling_open(struct polling *driver, sja *session, uint32_t node, struct filter filter);
int polling_send(struct polling *driver, const struct message *message, int once);
enum outcome polling_outcome(struct polling *driver);
int polling_receive(struct polling *driver, struct message *message);
void polling_care(struct polling *driver);
void polling_close(struct polling *driver);

#endif
