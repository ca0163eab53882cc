/* SPDX-License-Identifier: GPL-2.0-only */
/* Requests of a kernel for a card, by the vhost-user protocol. */
#ifndef KERNEL_VHOST_H
#define KERNEL_VHOST_H

#include <stdbool.h>

#include "card.h"

/* Takes a kernel's next card, if it has nodes left. */
void vhost_accept(struct kernel *kernel);
unsigned vhost_cards(void);
struct card *vhost_card(unsigned number);
/* Does the next request for a card. False if its kernel is gone. */
bool vhost_request(struct card *card);
/* Calls the handler of a ring in the kernel, and waits until the kernel knows. */
void vhost_call(struct card *card, unsigned ring);

#endif
