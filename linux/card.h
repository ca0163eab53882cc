/* SPDX-License-Identifier: GPL-2.0-only */
/* What a board file has to have: how a card with one controller is found, and taken away. It calls bus_read and
 * bus_write for its registers, and sets dev->irq to the number of its interrupt line. */
#ifndef LINUX_CARD_H
#define LINUX_CARD_H

struct net_device;

/* Makes the device of the controller with this number, and registers it. Null where that failed. */
struct net_device *card_probe(unsigned node);
void card_remove(struct net_device *dev);

#endif
