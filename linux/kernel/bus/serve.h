/* SPDX-License-Identifier: GPL-2.0-only */
/* What a kernel asks of a card: its accesses, each done when it is due. */
#ifndef KERNEL_SERVE_H
#define KERNEL_SERVE_H

#include "card.h"

/* Does the accesses that are due, in order. */
void serve(struct card *card);

#endif
