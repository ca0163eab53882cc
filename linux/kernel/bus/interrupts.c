/* SPDX-License-Identifier: GPL-2.0-only */
#include "interrupts.h"

#include <string.h>

#include <linux/virtio_pcidev.h>

#include "bus.h"
#include "card.h"
#include "kernels.h"
#include "log.h"
#include "vhost.h"

/* How often a line is told that stays active in one instant; after how many writes without a read a kernel is called,
 * to take its buffers back. */
enum { INSISTS = 8, UNCALLED = 200 };

/* Whether a kernel may be in its handler. With INTx it gives the buffer of the last interrupt back as its handler has
 * ended; with plain memory before it begins, but then it waits for nothing but accesses in it. */
static bool is_handled(const struct card *card)
{
    if (card->was_told && ring_given(&card->interrupts) == card->told_with)
        return true;
    return card_message() == VIRTIO_PCIDEV_OP_PME && (card->holds || card->kernel->polls);
}

static bool may_tell(struct card *card)
{
    if (!card->is_rising) {
        card->is_rising = true;
        card->rise_due = bus_now() + card->kernel->delays.latency * bus_bit_time();
    }
    if (card->rise_due > bus_now() || is_handled(card))
        return false;
    card->insists = card->was_told && card->told_at == bus_now() ? card->insists + 1 : 0;
    card->told_at = bus_now();
    return card->insists <= INSISTS;
}

static void tell(struct card *card)
{
    unsigned operation = card_message();
    struct virtio_pcidev_msg message = { .op = (uint8_t)operation, .addr = operation == VIRTIO_PCIDEV_OP_INT };
    struct chain chain;

    if (!ring_take(card, &card->interrupts, &chain) || chain.answer == NULL || chain.room < sizeof message)
        return;
    card->is_rising = false;
    card->was_told = true;
    card->told_with = ring_given(&card->interrupts);
    memcpy(chain.answer, &message, sizeof message);
    ring_give(&card->interrupts, &chain, sizeof message);
    bus_counts.interrupts++;
    log_say("interrupt of nodes %u to %u", card->first, card->first + card->channels - 1);
    vhost_call(card, 1);
}

void interrupts_tell(void)
{
    for (unsigned i = 0; i < vhost_cards(); i++) {
        struct card *card = vhost_card(i);

        if (card->call_fd < 0 || card->kernel->ended || card->interrupts.available == NULL || !card_is_active(card))
            card->is_rising = false;
        else if (may_tell(card))
            tell(card);
    }
}

void interrupts_call_back(struct kernel *kernel)
{
    for (unsigned i = 0; i < vhost_cards(); i++) {
        struct card *card = vhost_card(i);

        if (card->kernel != kernel || card->uncalled <= UNCALLED || card->call_fd < 0)
            continue;
        card->uncalled = 0;
        vhost_call(card, 0);
    }
}

uint64_t interrupts_due(void)
{
    uint64_t first = UINT64_MAX;

    for (unsigned i = 0; i < vhost_cards(); i++) {
        const struct card *card = vhost_card(i);

        if (card->is_rising && card->rise_due > bus_now() && card->rise_due < first)
            first = card->rise_due;
    }
    return first;
}
