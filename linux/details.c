/* SPDX-License-Identifier: GPL-2.0-only */
/* What `ip -details -statistics link show` says of a device: what the kernel's netlink.c puts into its message, read
 * back, and the statistics of the device. And the kernel's log. */
#include <linux/netdevice.h>

#include <linux/can/dev.h>
#include <net/rtnetlink.h>

#include "bus.h"
#include "stack.h"
#include "turns.h"

enum { ROOM = 4096 };

const char *bus_state_name(uint32_t state)
{
    static const char *const names[] = { "ERROR-ACTIVE", "ERROR-WARNING", "ERROR-PASSIVE", "BUS-OFF", "STOPPED",
                                         "SLEEPING" };

    return state < ARRAY_SIZE(names) ? names[state] : "?";
}

static void take_timing(struct bus_details *details, const struct nlattr *attribute)
{
    struct can_bittiming timing;

    if (attribute == NULL)
        return;
    memcpy(&timing, nla_data(attribute), sizeof timing);
    details->bitrate = timing.bitrate;
    details->sample_point = timing.sample_point;
    details->brp = timing.brp;
    details->sjw = timing.sjw;
    details->tseg1 = timing.prop_seg + timing.phase_seg1;
    details->tseg2 = timing.phase_seg2;
}

static void take_attributes(struct bus_details *details, struct nlattr *data[])
{
    struct can_ctrlmode mode;
    struct can_berr_counter counters = { 0 };

    take_timing(details, data[IFLA_CAN_BITTIMING]);
    details->state = nla_get_u32(data[IFLA_CAN_STATE]);
    details->restart_ms = nla_get_u32(data[IFLA_CAN_RESTART_MS]);
    memcpy(&mode, nla_data(data[IFLA_CAN_CTRLMODE]), sizeof mode);
    details->ctrlmode = mode.flags;
    if (data[IFLA_CAN_BERR_COUNTER] != NULL)
        memcpy(&counters, nla_data(data[IFLA_CAN_BERR_COUNTER]), sizeof counters);
    details->txerr = counters.txerr;
    details->rxerr = counters.rxerr;
}

static void take_counts(struct bus_details *details, const struct nlattr *attribute)
{
    struct can_device_stats counts;

    memcpy(&counts, nla_data(attribute), sizeof counts);
    details->bus_error = counts.bus_error;
    details->error_warning = counts.error_warning;
    details->error_passive = counts.error_passive;
    details->bus_off = counts.bus_off;
    details->arbitration_lost = counts.arbitration_lost;
    details->restarts = counts.restarts;
}

static void take_statistics(struct bus_details *details, const struct net_device *dev)
{
    details->rx_packets = dev->stats.rx_packets;
    details->tx_packets = dev->stats.tx_packets;
    details->rx_bytes = dev->stats.rx_bytes;
    details->tx_bytes = dev->stats.tx_bytes;
    details->rx_errors = dev->stats.rx_errors;
    details->tx_errors = dev->stats.tx_errors;
    details->rx_dropped = dev->stats.rx_dropped;
    details->tx_dropped = dev->stats.tx_dropped;
    details->rx_over_errors = dev->stats.rx_over_errors;
    details->is_up = netif_running(dev);
    details->has_carrier = netif_carrier_ok(dev);
    details->waiting = (int)dev->waiting;
}

int bus_details(unsigned node, struct bus_details *details)
{
    struct net_device *dev = bus_device(node);
    struct nlattr *data[IFLA_CAN_MAX + 1], *counts[IFLA_INFO_XSTATS + 1];
    struct sk_buff *skb, *more;
    int error;

    *details = (struct bus_details){ 0 };
    if (dev == NULL)
        return -ENODEV;
    skb = alloc_skb(ROOM, GFP_KERNEL);
    more = alloc_skb(ROOM, GFP_KERNEL);
    turns_enter(node);
    error = dev->rtnl_link_ops->fill_info(skb, dev);
    if (error == 0)
        error = dev->rtnl_link_ops->fill_xstats(more, dev);
    turns_leave();
    if (error == 0)
        error = shim_parse(data, IFLA_CAN_MAX, skb->data, (int)skb->len);
    if (error == 0)
        error = shim_parse(counts, IFLA_INFO_XSTATS, more->data, (int)more->len);
    if (error == 0) {
        take_attributes(details, data);
        take_counts(details, counts[IFLA_INFO_XSTATS]);
        take_statistics(details, dev);
    }
    kfree_skb(skb);
    kfree_skb(more);
    return error;
}

const char *bus_dmesg(void)
{
    return shim_log_text();
}

unsigned bus_bugs(void)
{
    return shim_log_bugs();
}
