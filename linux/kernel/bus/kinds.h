/* SPDX-License-Identifier: GPL-2.0-only */
/* The cards, a row each: what their drivers in Linux look at, in drivers/net/can/sja1000. */
#ifndef KERNEL_KINDS_H
#define KERNEL_KINDS_H

#include <stdbool.h>
#include <stdint.h>

enum { CARD_CHANNELS = 8 };

struct kind {
    const char *name;                   /* of the driver */
    const char *option;                 /* of the kernel */
    uint16_t vendor, device, subvendor;
    uint16_t subdevices[4];             /* by the number of controllers */
    uint32_t bars[6];                   /* their sizes */
    unsigned bar, first, between, stride, channels;   /* where controllers lie, and their registers */
    unsigned gate_at;                   /* BAR 0: the 32 bits of the register that lets interrupts through */
    uint32_t gate;                      /* all these have to be set in it */
    uint8_t latches[CARD_CHANNELS];     /* or for each controller the bit that keeps its interrupt; its gate is 16
                                         * bits above */
    struct { unsigned bar, address; uint8_t value; } constant;  /* what another address reads */
    bool is_plain;                      /* no PCI driver knows it: the driver is told by parameters */
};

extern const struct kind kinds[];
extern const unsigned kinds_count;

#endif
