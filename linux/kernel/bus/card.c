/* SPDX-License-Identifier: GPL-2.0-only */
#include "card.h"

#include <stdio.h>
#include <string.h>

#include <linux/virtio_pcidev.h>

#include "bus.h"
#include "control.h"
#include "kernels.h"
#include "kinds.h"
#include "words.h"

/* Offsets in a PCI configuration. */
enum { VENDOR = 0, DEVICE = 2, COMMAND = 4, CLASS = 0x0a, CACHE_LINE = 0x0c, BAR = 0x10, BARS_END = 0x28,
       SUBVENDOR = 0x2c, SUBDEVICE = 0x2e, INTERRUPT_LINE = 0x3c, INTERRUPT_PIN = 0x3d,
       NETWORK_OTHER = 0x0280, INTA = 1, GATE_BYTES = 4 };

static const struct kind *kind = &kinds[0];

bool card_choose(const char *name)
{
    for (unsigned i = 0; i < kinds_count; i++)
        if (strcmp(kinds[i].name, name) == 0) {
            kind = &kinds[i];
            return true;
        }
    return false;
}

void card_list(void)
{
    for (unsigned i = 0; i < kinds_count; i++)
        printf("%s %u %s %s\n", kinds[i].name, kinds[i].channels, kinds[i].option, kinds[i].is_plain ? "plain" : "pci");
}

unsigned card_channels(void)
{
    return kind->channels;
}

unsigned card_message(void)
{
    return kind->is_plain ? VIRTIO_PCIDEV_OP_PME : VIRTIO_PCIDEV_OP_INT;
}

/* ---- the configuration */

static void put_16(struct card *card, unsigned at, unsigned value)
{
    card->config[at] = (uint8_t)value;
    card->config[at + 1] = (uint8_t)(value >> 8);
}

void card_reset(struct card *card)
{
    unsigned row = (card->channels < 4 ? card->channels : 4) - 1;

    memset(card->config, 0, sizeof card->config);
    put_16(card, VENDOR, kind->vendor);
    put_16(card, DEVICE, kind->device);
    put_16(card, CLASS, NETWORK_OTHER);
    put_16(card, SUBVENDOR, kind->subvendor != 0 ? kind->subvendor : kind->vendor);
    put_16(card, SUBDEVICE, kind->subdevices[row]);
    card->config[INTERRUPT_PIN] = INTA;
    card->gate = card->latched = 0;
}

uint8_t card_read_config(const struct card *card, uint64_t address)
{
    return address < CONFIG ? card->config[address] : 0xff;
}

/* Does the line that the guest wrote, and puts the answer in its place. */
static void obey(struct card *card)
{
    char *answer = (char *)card->config + WINDOW;
    size_t room = CONFIG - WINDOW;

    memset(answer, 0, room);
    if (strncmp(card->window, "next ", 5) == 0)
        control_next(card->kernel, card->window + 5, answer, room - 1);
    else
        words_do(card->kernel, card->window, answer, room - 1);
    strcat(answer, "\n");
}

static void write_window(struct card *card, uint64_t offset, uint8_t value)
{
    card->window[offset] = (char)(value == '\n' ? 0 : value);
    if (value == '\n')
        obey(card);
}

/* A BAR takes the bits of an address above its size. */
static void write_bar(struct card *card, uint64_t address, uint8_t value)
{
    uint32_t size = kind->bars[(address - BAR) / 4], mask = size > 0 ? ~(size - 1) : 0;

    card->config[address] = (uint8_t)(value & mask >> 8 * (address & 3));
}

void card_write_config(struct card *card, uint64_t address, uint8_t value)
{
    if (address >= CONFIG)
        return;
    if (address >= WINDOW)
        write_window(card, address - WINDOW, value);
    else if (address >= BAR && address < BARS_END)
        write_bar(card, address, value);
    else if (address == COMMAND || address == COMMAND + 1 || address == INTERRUPT_LINE || address == CACHE_LINE)
        card->config[address] = value;
}

/* ---- the registers */

/* Which controller's register an address is, or false. */
static bool is_register(const struct card *card, unsigned bar, uint64_t address, unsigned *channel, unsigned *number)
{
    if (bar != kind->bar || address < kind->first)
        return false;
    *channel = (unsigned)((address - kind->first) / kind->between);
    *number = (unsigned)((address - kind->first) % kind->between) / kind->stride;
    return *channel < card->channels && *number < BUS_REGISTERS && (address - kind->first) % kind->stride == 0;
}

bool card_is_register(const struct card *card, unsigned bar, uint64_t address)
{
    unsigned channel, number;

    return is_register(card, bar, address, &channel, &number);
}

static bool is_gate(unsigned bar, uint64_t address)
{
    bool has_gate = kind->gate != 0 || kind->latches[0] != 0;

    return has_gate && bar == 0 && address >= kind->gate_at && address < kind->gate_at + GATE_BYTES;
}

/* Which of the bits that keep interrupts have a line behind them that is active now. */
static uint32_t latches_of(const struct card *card)
{
    uint64_t lines = bus_lines() >> card->first;
    uint32_t latches = 0;

    for (unsigned i = 0; i < card->channels; i++)
        if (lines >> i & 1)
            latches |= kind->latches[i];
    return latches;
}

static uint8_t read_gate(struct card *card, unsigned shift)
{
    card->latched |= latches_of(card);
    return (uint8_t)((card->gate | card->latched) >> shift);
}

/* A bit that keeps an interrupt is cleared by a 1; if its line is still active it is set again. */
static void write_gate(struct card *card, unsigned shift, uint8_t value)
{
    uint32_t bits = (uint32_t)value << shift, mask = (uint32_t)0xff << shift;

    if (kind->latches[0] == 0 || shift >= 16)
        card->gate = (card->gate & ~mask) | bits;
    else
        card->latched &= ~bits;
}

uint8_t card_read(struct card *card, unsigned bar, uint64_t address)
{
    unsigned channel, number;

    if (is_register(card, bar, address, &channel, &number))
        return bus_read(card->first + channel, number);
    if (is_gate(bar, address))
        return read_gate(card, 8 * (unsigned)(address - kind->gate_at));
    return bar == kind->constant.bar && address == kind->constant.address ? kind->constant.value : 0;
}

void card_write(struct card *card, unsigned bar, uint64_t address, uint8_t value)
{
    unsigned channel, number;

    if (is_register(card, bar, address, &channel, &number))
        bus_write(card->first + channel, number, value);
    else if (is_gate(bar, address))
        write_gate(card, 8 * (unsigned)(address - kind->gate_at), value);
}

bool card_is_active(struct card *card)
{
    uint64_t lines = bus_lines() >> card->first & ((1u << card->channels) - 1);

    if (kind->latches[0] == 0)
        return lines != 0 && (card->gate & kind->gate) == kind->gate;
    card->latched |= latches_of(card);
    return (card->latched & card->gate >> 16) != 0;
}
