/* SPDX-License-Identifier: GPL-2.0-only */
/* A split ring of virtio, in the memory of a kernel (Virtual I/O Device 1.1, section 2.6). */
#ifndef KERNEL_RING_H
#define KERNEL_RING_H

#include <stdbool.h>
#include <stddef.h>
#include <stdint.h>

enum { CHAIN_BYTES = 512 };

struct ring {
    uint32_t size;
    uint16_t seen;
    struct { uint64_t address; uint32_t length; uint16_t flags, next; } *descriptors;
    struct { uint16_t flags, index, ring[]; } *available;
    struct { uint16_t flags, index; struct { uint32_t id, length; } ring[]; } *used;
};

/* A chain of buffers: the bytes of those to read, and where answers go. */
struct chain {
    uint16_t head;
    size_t length, room;
    uint8_t bytes[CHAIN_BYTES], *answer;
};

struct card;

/* Where an address of the kernel's memory is here. */
void *ring_at(struct card *card, uint64_t address, uint64_t length);
/* How many chains the kernel has given in all. */
uint16_t ring_given(const struct ring *ring);
/* Takes the next chain. False if there is none. */
bool ring_take(struct card *card, struct ring *ring, struct chain *chain);
/* Gives a chain back, with `length` bytes of answer. */
void ring_give(struct ring *ring, const struct chain *chain, uint32_t length);

#endif
