/* SPDX-License-Identifier: GPL-2.0-only */
/* `ip link`: its words become attributes, and the kernel's own netlink.c does what they say, or refuses it. */
#include <linux/netdevice.h>

#include <linux/can/dev.h>
#include <net/rtnetlink.h>

#include <stdio.h>

#include "bus.h"
#include "stack.h"
#include "turns.h"

enum { WORD = 32, ROOM = 4096 };

static uint32_t bit_rate = 500000;
static struct netlink_ext_ack refusal;

uint32_t bus_bit_rate(void)
{
    return bit_rate;
}

const char *bus_refusal(void)
{
    return refusal.text;
}

/* What the words ask for. */
struct change {
    struct can_bittiming timing;
    struct can_ctrlmode mode;
    u32 restart_ms;
    bool has_timing, has_restart_ms, restarts;
};

static const struct { const char *word; u32 flag; } modes[] = {
    { "loopback", CAN_CTRLMODE_LOOPBACK }, { "listen-only", CAN_CTRLMODE_LISTENONLY },
    { "triple-sampling", CAN_CTRLMODE_3_SAMPLES }, { "one-shot", CAN_CTRLMODE_ONE_SHOT },
    { "berr-reporting", CAN_CTRLMODE_BERR_REPORTING }, { "fd", CAN_CTRLMODE_FD },
    { "fd-non-iso", CAN_CTRLMODE_FD_NON_ISO }, { "presume-ack", CAN_CTRLMODE_PRESUME_ACK },
    { "cc-len8-dlc", CAN_CTRLMODE_CC_LEN8_DLC },
};

/* A word of two that is a mode, `on` or `off`. Whether it is one. */
static bool take_mode(struct change *change, const char *word, const char *value)
{
    for (unsigned i = 0; i < ARRAY_SIZE(modes); i++)
        if (strcmp(word, modes[i].word) == 0 && (strcmp(value, "on") == 0 || strcmp(value, "off") == 0)) {
            change->mode.mask |= modes[i].flag;
            if (strcmp(value, "on") == 0)
                change->mode.flags |= modes[i].flag;
            return true;
        }
    return false;
}

/* A word of two that is a number. Whether it is one. */
static bool take_number(struct change *change, const char *word, const char *value)
{
    const struct { const char *word; u32 *place; } numbers[] = {
        { "bitrate", &change->timing.bitrate }, { "tq", &change->timing.tq }, { "sjw", &change->timing.sjw },
        { "prop-seg", &change->timing.prop_seg }, { "phase-seg1", &change->timing.phase_seg1 },
        { "phase-seg2", &change->timing.phase_seg2 }, { "sample-point", &change->timing.sample_point },
        { "restart-ms", &change->restart_ms },
    };
    char *end;

    for (unsigned i = 0; i < ARRAY_SIZE(numbers); i++) {
        if (strcmp(word, numbers[i].word) != 0)
            continue;
        if (numbers[i].place == &change->timing.sample_point)
            *numbers[i].place = (u32)(strtod(value, &end) * 1000 + 0.5);
        else
            *numbers[i].place = (u32)strtoul(value, &end, 10);
        if (numbers[i].place == &change->restart_ms)
            change->has_restart_ms = true;
        else
            change->has_timing = true;
        return end != value && *end == '\0';
    }
    return false;
}

/* Reads the words. 0, or -EINVAL at the first that is none of ip's. */
static int read_words(struct change *change, const char *words)
{
    char word[WORD], value[WORD];
    int used;

    while (sscanf(words, " %31s%n", word, &used) == 1) {
        words += used;
        if (strcmp(word, "restart") == 0) {
            change->restarts = true;
            continue;
        }
        if (sscanf(words, " %31s%n", value, &used) != 1)
            return -EINVAL;
        words += used;
        if (!take_mode(change, word, value) && !take_number(change, word, value)) {
            shim_refuse(&refusal, "no such words: %s %s", word, value);
            return -EINVAL;
        }
    }
    return 0;
}

static void put_change(struct sk_buff *skb, const struct change *change)
{
    u32 now = 1;

    if (change->has_timing)
        nla_put(skb, IFLA_CAN_BITTIMING, sizeof change->timing, &change->timing);
    if (change->mode.mask != 0)
        nla_put(skb, IFLA_CAN_CTRLMODE, sizeof change->mode, &change->mode);
    if (change->has_restart_ms)
        nla_put_u32(skb, IFLA_CAN_RESTART_MS, change->restart_ms);
    if (change->restarts)
        nla_put(skb, IFLA_CAN_RESTART, sizeof now, &now);
}

static int changed(struct net_device *dev, struct sk_buff *skb)
{
    const struct rtnl_link_ops *ops = dev->rtnl_link_ops;
    struct nlattr *none[1] = { NULL }, *data[IFLA_CAN_MAX + 1];
    int error = shim_parse(data, IFLA_CAN_MAX, skb->data, (int)skb->len);

    if (error == 0 && ops->validate != NULL)
        error = ops->validate(none, data, &refusal);
    return error == 0 ? ops->changelink(dev, none, data, &refusal) : error;
}

int bus_link(unsigned node, const char *words)
{
    struct net_device *dev = bus_device(node);
    struct change change = { .has_timing = false };
    struct sk_buff *skb;
    int error;

    refusal.text[0] = '\0';
    error = dev == NULL ? -ENODEV : read_words(&change, words);
    if (error != 0)
        return error;
    skb = alloc_skb(ROOM, GFP_KERNEL);
    put_change(skb, &change);
    turns_enter(node);
    error = changed(dev, skb);
    turns_leave();
    kfree_skb(skb);
    if (error == 0 && change.has_timing)
        bit_rate = ((struct can_priv *)netdev_priv(dev))->bittiming.bitrate;
    return error;
}
