/* SPDX-License-Identifier: GPL-2.0-only */
#include "told.h"

/* A bit of SR (data sheet, 6.4.5). */
enum { BS = 0x80 };
/* linux/can/error.h */
enum { LOSTARB = 0x2, CRTL = 0x4, PROT = 0x8, BUSOFF = 0x40, BUSERROR = 0x80, CNT = 0x200 };
enum { RX_OVERFLOW = 0x1, RX_WARNING = 0x4, TX_WARNING = 0x8, RX_PASSIVE = 0x10, TX_PASSIVE = 0x20, ACTIVE = 0x40 };
enum { PROT_BIT = 0x1, PROT_FORM = 0x2, PROT_STUFF = 0x4, PROT_TX = 0x80 };

static int is_bus_off(const struct told *is)
{
    return (is->interrupts & EI) && is->status != UNREAD && (is->status & BS);
}

/* The class: each bit has its cause. */
static int has_class(const struct told *is, uint32_t id)
{
    int counted = !is_bus_off(is);

    return !(id & LOSTARB) == !(is->interrupts & ALI) && !(id & BUSERROR) == !(is->interrupts & BEI)
        && !(id & PROT) == !(is->interrupts & BEI) && !(id & BUSOFF) == !is_bus_off(is) && !(id & CNT) == !counted
        && (id & 0x1fffffff & ~(uint32_t)(LOSTARB | CRTL | PROT | BUSOFF | BUSERROR | CNT)) == 0
        && ((id & CRTL) || !(is->interrupts & DOI));
}

/* The kind of a bus error, and where it was (6.4.9). */
static int has_error(const struct told *is, const struct bus_frame *frame)
{
    static const uint8_t kinds[] = { PROT_BIT, PROT_FORM, PROT_STUFF, 0 };

    if (!(is->interrupts & BEI))
        return frame->data[2] == 0 && frame->data[3] == 0;
    return is->ecc != UNREAD && frame->data[3] == (is->ecc & 0x1f)
        && frame->data[2] == (kinds[is->ecc >> 6] | (is->ecc & 0x20 ? 0 : PROT_TX));
}

static int has_data(const struct told *is, const struct bus_frame *frame)
{
    int lost = is->interrupts & ALI ? is->alc & 0x1f : 0;
    int counted = !is_bus_off(is);

    return frame->data[0] == lost && !(frame->data[1] & RX_OVERFLOW) == !(is->interrupts & DOI)
        && frame->data[6] == (counted ? is->txerr : 0) && frame->data[7] == (counted ? is->rxerr : 0);
}

/* The state that a counter is in, by the two limits. */
static int state_of(int counter, int warning, int passive)
{
    return counter >= 128 ? passive : counter >= 96 ? warning : 0;
}

/* What is told of the states of both counters by their limits, and of that of the greater one alone. */
static int states_of(const struct told *is, int of_greater)
{
    int states = 0;

    if (!of_greater || is->txerr >= is->rxerr)
        states |= state_of(is->txerr, TX_WARNING, TX_PASSIVE);
    if (!of_greater || is->rxerr >= is->txerr)
        states |= state_of(is->rxerr, RX_WARNING, RX_PASSIVE);
    return states != 0 ? states : ACTIVE;
}

static int told_state(const struct told *is)
{
    int most = is->txerr > is->rxerr ? is->txerr : is->rxerr;

    return is_bus_off(is) ? TOLD_OFF : state_of(most, TOLD_WARNING, TOLD_PASSIVE);
}

/* The error warning state of the greater counter, or of both, whatever the counters are. */
static int warning_of(const struct told *is)
{
    return (is->txerr >= is->rxerr ? TX_WARNING : 0) | (is->rxerr >= is->txerr ? RX_WARNING : 0);
}

/* A state is told where it is another one than before: versions of the driver tell that of the greater counter, or of
 * both. Of EI and EPI one may be told before the other one, and the counters are already those of both: then it is the
 * error warning state that lies between. */
static int has_state(const struct told *is, const struct bus_frame *frame)
{
    int states = frame->id & CRTL ? frame->data[1] & ~RX_OVERFLOW : 0, now = told_state(is);
    int is_half = !(is->interrupts & EI) != !(is->interrupts & EPI);

    if (is->state == TOLD_ANY || is->restarts || is_bus_off(is))
        return 1;
    if (states == 0)
        return !(is->interrupts & (EI | EPI)) || now == is->state || (is_half && is->state == TOLD_WARNING);
    if (is_half && states == warning_of(is) && is->state != TOLD_WARNING)
        return 1;
    return now != is->state && (states == states_of(is, 1) || states == states_of(is, 0));
}

int told_by_frame(const struct bus_frame *frame)
{
    int states = frame->id & CRTL ? frame->data[1] & ~RX_OVERFLOW : 0;

    if (frame->id & BUSOFF)
        return TOLD_OFF;
    if (states & (TX_PASSIVE | RX_PASSIVE))
        return TOLD_PASSIVE;
    return states & (TX_WARNING | RX_WARNING) ? TOLD_WARNING : states & ACTIVE ? TOLD_ACTIVE : TOLD_ANY;
}

int told_by_counter(const struct told *is, const struct bus_frame *frame)
{
    int states = frame->id & CRTL ? frame->data[1] & ~RX_OVERFLOW : 0;

    return states == 0 ? 0 : states == states_of(is, 1) ? 1 : 2;
}

/* Whether the frame behind a read of IR is the one for the interrupts that it told of: none for others. */
static int is_good(const struct told *is, const struct bus_frame *frame)
{
    if (is->interrupts <= 0 || (is->interrupts & ERRORS) == 0)
        return frame == NULL;
    return frame != NULL && has_class(is, frame->id) && has_data(is, frame) && has_error(is, frame)
        && has_state(is, frame);
}

/* By either status that the driver read; where it read none behind IR, by any. */
int told_is_good(struct told *is, const struct bus_frame *frame)
{
    int others[] = { is->status, is->last, 0, BS };

    for (unsigned i = 0; i < (is->status == UNREAD ? 4 : 2); i++) {
        is->status = others[i];
        if (is_good(is, frame))
            return 1;
    }
    is->status = others[0];
    return 0;
}
