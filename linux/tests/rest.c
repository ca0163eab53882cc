/* SPDX-License-Identifier: GPL-2.0-only */
/* The end of a run of which it is known what may be lost: what became of each frame, and what the devices do after
 * it. */
#include <stdio.h>

#include "check.h"
#include "judge.h"
#include "sja.h"

enum { SR = 2, RBS = 1, DOS = 2, TBS = 4, BUSERROR = 0x80, FROM_SENDER = 0x80 };
/* linux/can/netlink.h */
enum { LOOPBACK = 0x1, BERR_REPORTING = 0x10 };

/* ---- what became of each frame */

static unsigned count_in(unsigned node, enum frame_kind kind, const struct bus_frame *sent)
{
    unsigned count = 0;

    for (size_t i = 0; i < bus_frames(node); i++) {
        const struct bus_frame *frame = bus_frame(node, i);

        count += frame->kind == kind && judge_is_frame(frame, sent);
    }
    return count;
}

/* How often nodes were asked to send a frame: one of them, or all. */
static unsigned count_asked(unsigned first, unsigned last, const struct bus_frame *sent)
{
    unsigned count = 0;

    for (unsigned node = first; node <= last; node++)
        for (size_t i = 0; i < bus_asked(node); i++)
            count += judge_is_frame(bus_asked_frame(node, i), sent);
    return count;
}

/* Whether a device may have lost a frame: it goes off or down, or told of an overrun. */
static int may_lose(unsigned node, const struct facts *facts)
{
    struct bus_details is;

    return (facts->lossy >> node & 1) || bus_details(node, &is) != 0 || is.rx_over_errors > 0;
}

/* A frame at the devices that receive it. How often it is there. */
static unsigned judge_receivers(unsigned nodes, unsigned sender, const struct bus_frame *sent, unsigned echoes,
                                unsigned losing, const struct facts *facts)
{
    unsigned asked = count_asked(0, nodes - 1, sent), all = 0;
    char text[FRAME_TEXT];

    bus_frame_text(sent, text);
    for (unsigned node = 0; node < nodes; node++) {
        unsigned got = node == sender ? 0 : count_in(node, FRAME_RECEIVED, sent);

        all += got;
        if (node == sender)
            continue;
        if (!(losing >> node & 1))
            check_device("lost", node, got >= echoes, "can%u lost %s without an overrun", node, text);
        if (!facts->is_struck)
            check_device("twice", node, got <= asked, "can%u received %s %u times", node, text, got);
    }
    return all;
}

static void judge_sent(unsigned nodes, unsigned sender, const struct bus_frame *sent, unsigned losing, int loops,
                       const struct facts *facts)
{
    unsigned asked = count_asked(sender, sender, sent), echoes = count_in(sender, FRAME_SENT, sent), got;
    char text[FRAME_TEXT];

    bus_frame_text(sent, text);
    check_device("sent", sender, echoes <= asked, "can%u: %s comes back as sent %u times", sender, text, echoes);
    if (!(facts->lossy >> sender & 1))
        check_device("sent", sender, echoes == asked, "can%u: %s doesn't come back as sent", sender, text);
    got = judge_receivers(nodes, sender, sent, echoes, losing, facts);
    if (loops)
        check_device("looped", sender, count_in(sender, FRAME_RECEIVED, sent) == echoes,
                     "can%u: %s is received by itself %u times", sender, text, count_in(sender, FRAME_RECEIVED, sent));
    if (echoes > 0 && losing == 0 && nodes > 1)
        check_device("sent", sender, got > 0, "can%u: %s comes back as sent, and no one has it", sender, text);
}

/* ---- what is at rest */

/* Errors of sending and of receiving are those that error frames tell of, and overruns. */
static void judge_error_counts(unsigned node, const struct bus_details *is)
{
    unsigned long sending = 0, receiving = (unsigned long)is->rx_over_errors;

    for (size_t i = 0; i < bus_frames(node); i++) {
        const struct bus_frame *frame = bus_frame(node, i);

        if (frame->kind != FRAME_ERROR || !(frame->id & BUSERROR))
            continue;
        sending += (frame->data[2] & FROM_SENDER) != 0;
        receiving += (frame->data[2] & FROM_SENDER) == 0;
    }
    check_device("counts", node, sending == is->tx_errors && receiving == is->rx_errors,
                 "can%u counts %lu errors of sending and %lu of receiving, and tells of %lu and %lu", node,
                 (unsigned long)is->tx_errors, (unsigned long)is->rx_errors, sending, receiving);
}

static void judge_device(unsigned node, const struct bus_details *is, const struct facts *facts)
{
    uint8_t status = bus_peek(node, SR);

    judge_state(node, is);
    check_device("waiting", node, is->waiting == 0, "can%u: %d frames wait for ever", node, is->waiting);
    check_device("rest", node, (status & (TBS | DOS | RBS)) == TBS, "can%u: SR is %02x at rest", node, status);
    if (!facts->is_one_shot && (is->ctrlmode & BERR_REPORTING))
        judge_error_counts(node, is);
}

void judge_rest(unsigned nodes, const struct facts *facts)
{
    struct bus_details is[BUS_NODES];
    unsigned losing = 0;

    for (unsigned node = 0; node < nodes; node++) {
        losing |= (unsigned)may_lose(node, facts) << node;
        bus_details(node, &is[node]);
        judge_device(node, &is[node], facts);
    }
    for (unsigned node = 0; node < nodes; node++)
        for (size_t i = 0; i < bus_asked(node); i++)
            judge_sent(nodes, node, bus_asked_frame(node, i), losing, is[node].ctrlmode & LOOPBACK, facts);
}

/* ---- what is told after it */

/* A device sends, and the others receive. Whether it sends. */
static int judge_exchange(unsigned nodes, unsigned node)
{
    char text[FRAME_TEXT];

    sprintf(text, "7E%u#AA", node);
    bus_send(node, text);
    bus_run(250);
    if (!check_device("sends", node, count_frames(node, FRAME_SENT, text) == 1, "after it can%u doesn't send", node))
        return 0;
    for (unsigned other = 0; other < nodes; other++)
        if (other != node)
            check_device("receives", other, count_frames(other, FRAME_RECEIVED, text) == 1,
                         "after it can%u doesn't receive", other);
    return 1;
}

/* A frame of another device is struck at this one. */
static void judge_bus_error(unsigned sender, unsigned node)
{
    unsigned before = count_errors(node, BUSERROR, 0);
    char text[FRAME_TEXT];

    bus_strike_at(node, 1, SJA_DATA + 24);
    sprintf(text, "6F%u#112233", node);
    bus_send(sender, text);
    bus_run(350);
    check_device("bus_error", node, count_errors(node, BUSERROR, 0) > before, "can%u tells of no bus error any more",
                 node);
}

static void judge_lost_arbitration(unsigned winner, unsigned node)
{
    struct bus_details before, is;

    bus_details(node, &before);
    bus_send(winner, "6E1#");
    bus_send(node, "6E2#");
    bus_run(400);
    bus_details(node, &is);
    check_device("arbitration", node, is.arbitration_lost > before.arbitration_lost,
                 "can%u tells of no lost arbitration any more", node);
}

void judge_after(unsigned nodes)
{
    struct bus_details is;
    unsigned senders = 0, node = nodes - 1;

    bus_details(0, &is);
    for (unsigned sender = 0; sender < nodes; sender++)
        senders |= (unsigned)judge_exchange(nodes, sender) << sender;
    for (unsigned struck = 0; struck < nodes && (is.ctrlmode & BERR_REPORTING); struck++) {
        unsigned sender = (struck + 1) % nodes;

        while (!(senders >> sender & 1) && sender != struck)
            sender = (sender + 1) % nodes;
        if (sender != struck)
            judge_bus_error(sender, struck);
    }
    if ((senders >> node & 1) && (senders >> (node - 1) & 1))
        judge_lost_arbitration(node - 1, node);
}
