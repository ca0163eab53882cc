/* SPDX-License-Identifier: GPL-2.0-only */
#include "ring.h"

#include <string.h>

#include "card.h"
#include "control.h"

enum { HAS_NEXT = 1, IS_TO_WRITE = 2 };

void *ring_at(struct card *card, uint64_t address, uint64_t length)
{
    for (unsigned i = 0; i < card->memories; i++)
        if (address >= card->memory[i].from && length <= card->memory[i].size
            && address - card->memory[i].from <= card->memory[i].size - length)
            return card->memory[i].at + (address - card->memory[i].from);
    control_fail("a kernel names an address that it doesn't have");
}

uint16_t ring_given(const struct ring *ring)
{
    return __atomic_load_n(&ring->available->index, __ATOMIC_ACQUIRE);
}

static void add(struct chain *chain, uint8_t *bytes, uint32_t length, bool is_to_write)
{
    if (is_to_write) {
        chain->answer = bytes;
        chain->room = length;
    } else if (chain->length + length <= CHAIN_BYTES) {
        memcpy(chain->bytes + chain->length, bytes, length);
        chain->length += length;
    }
}

bool ring_take(struct card *card, struct ring *ring, struct chain *chain)
{
    uint16_t next, flags;

    if (ring->available == NULL || ring->size == 0 || ring->seen == ring_given(ring))
        return false;
    *chain = (struct chain){ .head = ring->available->ring[ring->seen++ % ring->size] };
    next = chain->head;
    for (uint32_t i = 0; i < ring->size; i++) {
        uint32_t length = ring->descriptors[next % ring->size].length;

        flags = ring->descriptors[next % ring->size].flags;
        add(chain, ring_at(card, ring->descriptors[next % ring->size].address, length), length, flags & IS_TO_WRITE);
        if (!(flags & HAS_NEXT))
            break;
        next = ring->descriptors[next % ring->size].next;
    }
    return true;
}

void ring_give(struct ring *ring, const struct chain *chain, uint32_t length)
{
    uint16_t index = ring->used->index;

    ring->used->ring[index % ring->size].id = chain->head;
    ring->used->ring[index % ring->size].length = length;
    __atomic_store_n(&ring->used->index, (uint16_t)(index + 1), __ATOMIC_RELEASE);
}
