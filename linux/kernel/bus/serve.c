/* SPDX-License-Identifier: GPL-2.0-only */
#include "serve.h"

#include <string.h>

#include <linux/virtio_pcidev.h>

#include "bus.h"
#include "delays.h"
#include "kernels.h"

static void read_message(const struct chain *chain, struct virtio_pcidev_msg *message)
{
    memcpy(message, chain->bytes, sizeof *message);
}

/* How many bits run before an access. One of the configuration, or of the card's own registers, takes none. */
static uint64_t delay_of(struct card *card, const struct chain *chain)
{
    struct virtio_pcidev_msg message;
    bool is_memory;

    read_message(chain, &message);
    is_memory = message.op == VIRTIO_PCIDEV_OP_MMIO_READ || message.op == VIRTIO_PCIDEV_OP_MMIO_WRITE;
    return is_memory && card_is_register(card, message.bar, message.addr) ? delays_next(&card->kernel->delays) : 0;
}

static void read_all(struct card *card, struct chain *chain, const struct virtio_pcidev_msg *message)
{
    for (size_t i = 0; i < message->size && i < chain->room; i++) {
        if (message->op == VIRTIO_PCIDEV_OP_CFG_READ)
            chain->answer[i] = card_read_config(card, message->addr + i);
        else if (message->op == VIRTIO_PCIDEV_OP_MMIO_READ)
            chain->answer[i] = card_read(card, message->bar, message->addr + i);
    }
}

static void write_all(struct card *card, const struct chain *chain, const struct virtio_pcidev_msg *message)
{
    for (size_t i = 0; i < message->size && sizeof *message + i < chain->length; i++) {
        uint8_t value = chain->bytes[sizeof *message + i];

        if (message->op == VIRTIO_PCIDEV_OP_CFG_WRITE)
            card_write_config(card, message->addr + i, value);
        else if (message->op == VIRTIO_PCIDEV_OP_MMIO_WRITE)
            card_write(card, message->bar, message->addr + i, value);
    }
}

/* Does the access that is held, and gives its buffers back. A kernel looks for those itself as it reads. */
static void access_held(struct card *card)
{
    struct virtio_pcidev_msg message;

    read_message(&card->held, &message);
    read_all(card, &card->held, &message);
    write_all(card, &card->held, &message);
    ring_give(&card->commands, &card->held, card->held.room < message.size ? (uint32_t)card->held.room : message.size);
    card->uncalled = card->held.room > 0 ? 0 : card->uncalled + 1;
}

void serve(struct card *card)
{
    while (card->holds || ring_take(card, &card->commands, &card->held)) {
        if (!card->holds)
            card->due = bus_ran() + delay_of(card, &card->held);
        card->kernel->polls |= card->holds;
        card->holds = bus_ran() < card->due;
        if (card->holds)
            return;
        access_held(card);
    }
}
