/* A driver that is woken by its interrupt: it reads the interrupt register once, which clears it, and does what each
 * bit of it asks for (SJA1000 data sheet, 6.4.6 and 6.4.7, and application note AN97076, 5: initialisation,
 * transmission and reception by interrupt). */
#include "interrupts.h"

#include "registers.h"

enum { TRIES = 3, ENABLED = IR_RI | IR_TI | IR_EI | IR_DOI | IR_EPI | IR_ALI | IR_BEI };

/* How many interrupts one call handles at most: a line that never falls is a mistake of the driver. */
enum { MOST_INTERRUPTS = 20 };

/* Enters or leaves reset mode; whether MOD says so then. */
static int into_mode(const struct interrupts *driver, uint8_t mode)
{
    board_write(&driver->board, MOD, mode);
    for (int i = 0; i < TRIES; i++)
        if ((board_read(&driver->board, MOD) & MOD_RM) == (mode & MOD_RM))
            return 1;
    return 0;
}

/* Opens a controller: reset mode, clock divider, filter, bit timing, output, the interrupts, and out of reset mode.
 * What an earlier life left in the captures and in IR is read away. Whether it came up. */
int interrupts_open(struct interrupts *driver, sja *session, uint32_t node, struct filter filter)
{
    *driver = (struct interrupts){ .board = { .session = session, .node = node }, .outcome = NOT_SENT };
    if (!into_mode(driver, MOD_RM))
        return 0;
    board_write(&driver->board, CDR, 0x80);
    board_filter(&driver->board, filter);
    board_write(&driver->board, BTR0, 0x00);
    board_write(&driver->board, BTR1, 0x1c);
    board_write(&driver->board, OCR, 0x1a);
    board_read(&driver->board, ECC);
    board_read(&driver->board, ALC);
    board_read(&driver->board, IR);
    board_write(&driver->board, IER, ENABLED);
    board_write(&driver->board, MOD, MOD_RM | MOD_AFM);
    return into_mode(driver, MOD_AFM);
}

/* Takes the controller off the bus. */
void interrupts_close(struct interrupts *driver)
{
    board_write(&driver->board, IER, 0x00);
    into_mode(driver, MOD_RM);
}

/* Sends a message, or tries it once alone. Whether the transmit buffer was free for it. */
int interrupts_send(struct interrupts *driver, const struct message *message, int once)
{
    if (driver->busy || driver->off)
        return 0;
    board_put(&driver->board, message);
#ifdef ENABLES_LATE
    board_write(&driver->board, IER, ENABLED & ~IR_TI);
#endif
    board_write(&driver->board, CMR, once ? CMR_TR | CMR_AT : CMR_TR);
#ifdef ENABLES_LATE
    /* The first planted race: a message that has ended before is never told of. */
    board_write(&driver->board, IER, ENABLED);
#endif
    driver->busy = 1;
    driver->outcome = PENDING;
    return 1;
}

/* Takes the oldest message of the queue, where there is one. */
int interrupts_receive(struct interrupts *driver, struct message *message)
{
    if (driver->count == 0)
        return 0;
    *message = driver->queue[driver->first];
    driver->first = (driver->first + 1) % QUEUE;
    driver->count--;
    return 1;
}

/* The message that was under way has ended. TI comes where it was sent, and under single shot where it wasn't, too: TCS
 * tells (data sheet, 6.4.4 and 6.4.5). */
static void ended(struct interrupts *driver, uint8_t before)
{
    (void)before;
#ifdef TI_IS_SENT
    /* The second planted mistake: TI is taken for "sent". */
    driver->outcome = SENT;
#elif defined STATUS_FIRST
    /* The second planted race: the status is that of before the message had ended. */
    driver->outcome = before & SR_TCS ? SENT : NOT_SENT;
#else
    driver->outcome = board_read(&driver->board, SR) & SR_TCS ? SENT : NOT_SENT;
#endif
    driver->busy = 0;
}

/* Puts each message that was received into the queue. */
static void received(struct interrupts *driver)
{
    while (board_read(&driver->board, SR) & SR_RBS) {
        struct message message;

        board_take(&driver->board, &message);
        if (driver->count == QUEUE) {
            driver->lost++;
            continue;
        }
        driver->queue[(driver->first + driver->count) % QUEUE] = message;
        driver->count++;
    }
}

/* ES or BS has changed. After a bus-off reset mode is left at once, and the controller waits for 128 times eleven
 * recessive bits; what was under way is lost. At its end both are 0 again. Where RM stays 1, as once all starts of a
 * node are used in a session with an end, it is given up: it stays off. */
static void changed(struct interrupts *driver)
{
    uint8_t status = board_read(&driver->board, SR);

    driver->warned = (status & SR_ES) != 0;
    if ((status & SR_BS) && !driver->off) {
        driver->off = 1;
        if (driver->busy)
            driver->outcome = NOT_SENT;
        driver->busy = 0;
        driver->restarts += (unsigned)into_mode(driver, MOD_AFM);
    } else if (!(status & SR_BS)) {
        driver->off = 0;
    }
}

/* What the interrupt line asks for. IR is read once, and each of its bits is done. */
static void one_interrupt(struct interrupts *driver)
{
    uint8_t before = 0;
    uint8_t pending;

#ifdef STATUS_FIRST
    before = board_read(&driver->board, SR);
#endif
    pending = board_read(&driver->board, IR);
    if (pending & IR_TI)
        ended(driver, before);
    if (pending & IR_RI)
        received(driver);
    if (pending & IR_DOI) {
        driver->overruns++;
        board_write(&driver->board, CMR, CMR_CDO);
    }
    if (pending & IR_EI)
        changed(driver);
    if (pending & IR_BEI) {
        driver->errors++;
        driver->last_error = board_read(&driver->board, ECC);
    }
    if (pending & IR_ALI)
        board_read(&driver->board, ALC);
}

/* Handles interrupts until the line falls. */
void interrupts_handle(struct interrupts *driver)
{
    for (int i = 0; i < MOST_INTERRUPTS; i++) {
        if (!board_done("irq", sja_irq(driver->board.session, driver->board.node)))
            return;
        one_interrupt(driver);
    }
}

/* The line is a level, and bits stop where it rises: so what is pending is handled before each of them runs. */
void interrupts_run(struct interrupts *driver, uint32_t bits)
{
    uint64_t run;

    do {
        interrupts_handle(driver);
        run = board_done("bits", sja_bits(driver->board.session, bits, 1u << driver->board.node));
        bits -= (uint32_t)run;
    } while (run > 0);
    interrupts_handle(driver);
}
