/* SPDX-License-Identifier: GPL-2.0-only */
/* A card of a kernel: its PCI configuration, and the registers of its controllers. */
#ifndef KERNEL_CARD_H
#define KERNEL_CARD_H

#include <stdbool.h>
#include <stdint.h>

#include "ring.h"

/* WINDOW: from this offset of a configuration on a guest writes its words, and reads the answers. */
enum { CONFIG = 256, WINDOW = 64, MEMORIES = 8 };

struct kernel;

struct card {
    struct kernel *kernel;
    int fd, call_fd;                    /* requests of its kernel, and calls of its handlers */
    unsigned first, channels;           /* its nodes of the bus */
    struct { uint64_t from, size; uint8_t *at; } memory[MEMORIES];
    unsigned memories;
    struct ring commands, interrupts;
    uint8_t config[CONFIG];
    uint32_t gate, latched;             /* the register that lets interrupts through, and what it keeps of them */
    char window[CONFIG - WINDOW + 1];
    bool holds;                         /* an access that is done once `due` bits have run */
    struct chain held;
    uint64_t due;
    bool is_rising, was_told;           /* its line is to be told at `rise_due`, and was told before */
    uint64_t rise_due, told_at;
    uint16_t told_with;                 /* the interrupt buffers that the kernel had given by then */
    unsigned insists, uncalled;
};

/* Chooses a row of the table by the name of its driver. False if there is none. */
bool card_choose(const char *name);
/* Prints the table: driver, controllers, the kernel's option, and words of its command line. */
void card_list(void);
unsigned card_channels(void);

void card_reset(struct card *card);
uint8_t card_read_config(const struct card *card, uint64_t address);
void card_write_config(struct card *card, uint64_t address, uint8_t value);
uint8_t card_read(struct card *card, unsigned bar, uint64_t address);
void card_write(struct card *card, unsigned bar, uint64_t address, uint8_t value);
/* Whether an address is a register of a controller. */
bool card_is_register(const struct card *card, unsigned bar, uint64_t address);
/* Whether the card's interrupt line is active. */
bool card_is_active(struct card *card);
/* The operation of virtio_pcidev.h by which its interrupt is told, and its address. */
unsigned card_message(void);

#endif
