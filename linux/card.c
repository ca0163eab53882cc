/* SPDX-License-Identifier: GPL-2.0-only */
/* A board: a card with one SJA1000 whose 32 registers lie one behind the other, and an interrupt line of its own. It is
 * what the kernel's own files beside sja1000.c are, sja1000_isa.c say. Copy it for a card of your own. */
#include <linux/netdevice.h>

#include <linux/can/dev.h>
#include <linux/can/platform/sja1000.h>

#include "sja1000.h"

#include "bus.h"
#include "card.h"

enum { OSCILLATOR = 16000000, FIRST_LINE = 16 };

/* What the board keeps of a card: behind it, at priv->priv, lies nothing else. */
struct card {
    unsigned node;
};

/* Where register `reg` lies. A card that has them four bytes apart, or in an index and a data register, says so here.
 * */
static u8 card_read(const struct sja1000_priv *priv, int reg)
{
    const struct card *card = priv->priv;

    return bus_read(card->node, (unsigned)reg);
}

static void card_write(const struct sja1000_priv *priv, int reg, u8 value)
{
    const struct card *card = priv->priv;

    bus_write(card->node, (unsigned)reg, value);
}

struct net_device *card_probe(unsigned node)
{
    struct net_device *dev = alloc_sja1000dev(sizeof(struct card));
    struct sja1000_priv *priv;
    struct card *card;

    if (dev == NULL)
        return NULL;
    priv = netdev_priv(dev);
    card = priv->priv;
    card->node = node;
    priv->reg_base = card;
    priv->read_reg = card_read;
    priv->write_reg = card_write;
    priv->can.clock.freq = OSCILLATOR / 2;
    priv->ocr = OCR_TX0_PUSHPULL;
    priv->cdr = CDR_CBP;
    dev->irq = FIRST_LINE + (int)node;
    if (register_sja1000dev(dev) != 0) {
        free_sja1000dev(dev);
        return NULL;
    }
    return dev;
}

void card_remove(struct net_device *dev)
{
    unregister_sja1000dev(dev);
    free_sja1000dev(dev);
}
