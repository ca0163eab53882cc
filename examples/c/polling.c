/* A driver that polls: it reads the status register, and does what is to be done (SJA1000 data sheet, 6.4, and
 * application note AN97076, 5: initialisation, transmission, reception and their polling). */
#include "polling.h"

#include "registers.h"

/* How often a mode that was written is read back before it is given up. */
enum { TRIES = 3 };

/* Enters or leaves reset mode; whether MOD says so then. */
static int into_mode(const struct polling *driver, uint8_t mode)
{
    board_write(&driver->board, MOD, mode);
    for (int i = 0; i < TRIES; i++)
        if ((board_read(&driver->board, MOD) & MOD_RM) == (mode & MOD_RM))
            return 1;
    return 0;
}

/* Opens a controller: reset mode, clock divider, bit timing, output, filter, no interrupt, and out of reset mode.
 * Whether it came up. */
int polling_open(struct polling *driver, sja *session, uint32_t node, struct filter filter)
{
    driver->board.session = session;
    driver->board.node = node;
    driver->busy = 0;
    driver->down = 0;
    driver->overruns = 0;
    driver->restarts = 0;
    if (!into_mode(driver, MOD_RM))
        return 0;
    board_write(&driver->board, CDR, 0x80);
    board_write(&driver->board, IER, 0x00);
    board_filter(&driver->board, filter);
    board_write(&driver->board, BTR0, 0x00);
    board_write(&driver->board, BTR1, 0x1c);
    board_write(&driver->board, OCR, 0x1a);
    board_write(&driver->board, MOD, MOD_RM | MOD_AFM);
    return into_mode(driver, MOD_AFM);
}

/* Takes the controller off the bus. */
void polling_close(struct polling *driver)
{
    into_mode(driver, MOD_RM);
}

/* Sends a message, or tries it once alone. Whether the controller is on the bus and its transmit buffer was free. */
int polling_send(struct polling *driver, const struct message *message, int once)
{
    if ((board_read(&driver->board, SR) & (SR_TBS | SR_BS)) != SR_TBS)
        return 0;
    board_put(&driver->board, message);
    board_write(&driver->board, CMR, once ? CMR_TR | CMR_AT : CMR_TR);
    driver->busy = 1;
    return 1;
}

/* What became of the last message. Where the buffer is free again TCS tells whether it was sent (data sheet, 6.4.5). */
enum outcome polling_outcome(struct polling *driver)
{
    uint8_t status;

    if (!driver->busy)
        return NOT_SENT;
    status = board_read(&driver->board, SR);
    if (!(status & SR_TBS))
        return PENDING;
    driver->busy = 0;
    return status & SR_TCS ? SENT : NOT_SENT;
}

/* Takes the next message, where one was received. */
int polling_receive(struct polling *driver, struct message *message)
{
    if (!(board_read(&driver->board, SR) & SR_RBS))
        return 0;
    board_take(&driver->board, message);
    return 1;
}

/* Looks after what went wrong: a data overrun is counted and cleared, and after a bus-off reset mode is left, so that
 * the controller waits for 128 times eleven recessive bits and comes back (data sheet, 6.4.3 and 6.4.5). What was under
 * way then is lost. Where RM stays 1, as once all starts of a node are used in a session with an end, it is given
 * up. */
void polling_care(struct polling *driver)
{
    uint8_t status = board_read(&driver->board, SR);

    if (status & SR_DOS) {
        driver->overruns++;
        board_write(&driver->board, CMR, CMR_CDO);
    }
    if ((status & SR_BS) && !driver->down && (board_read(&driver->board, MOD) & MOD_RM)) {
        driver->busy = 0;
        driver->down = !into_mode(driver, MOD_AFM);
        driver->restarts += !driver->down;
    }
}
