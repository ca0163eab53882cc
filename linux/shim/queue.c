/* SPDX-License-Identifier: GPL-2.0-only */
/* The queue of frames that wait for a driver: a pfifo, as CAN devices have it. */
#include "shim.h"

#include "../bus.h"
#include "../stack.h"
#include "../turns.h"

void netif_start_queue(struct net_device *dev)
{
    dev->stopped = false;
}

void netif_stop_queue(struct net_device *dev)
{
    dev->stopped = true;
}

void netif_wake_queue(struct net_device *dev)
{
    dev->stopped = false;
    turns_wake(dev);
}

bool netif_queue_stopped(const struct net_device *dev)
{
    return dev->stopped;
}

bool netif_carrier_ok(const struct net_device *dev)
{
    return dev->has_carrier;
}

void netif_carrier_on(struct net_device *dev)
{
    dev->has_carrier = true;
}

/* Without a carrier the stack empties the queue and drops what is sent. It does so in a work of its own, soon after;
 * here at once. */
void netif_carrier_off(struct net_device *dev)
{
    dev->has_carrier = false;
    shim_drop_waiting(dev);
}

void shim_drop_waiting(struct net_device *dev)
{
    while (dev->first != NULL) {
        struct sk_buff *skb = dev->first;

        dev->first = skb->next;
        kfree_skb(skb);
    }
    dev->waiting = 0;
}

bool shim_may_send(const struct net_device *dev)
{
    return netif_running(dev) && !dev->stopped && dev->has_carrier && !dev->is_sending && dev->first != NULL;
}

/* A driver that calls back from within its own sending isn't handed a second frame meanwhile. */
bool shim_send_waiting(struct net_device *dev)
{
    bool any = false;

    while (shim_may_send(dev)) {
        struct sk_buff *skb = dev->first;

        dev->first = skb->next;
        dev->waiting--;
        skb->next = NULL;
        dev->is_sending = true;
        if (dev->netdev_ops->ndo_start_xmit(skb, dev) == NETDEV_TX_BUSY) {
            skb->next = dev->first;
            dev->first = skb;
            dev->waiting++;
            dev->stopped = true;
        }
        dev->is_sending = false;
        any = true;
    }
    return any;
}

/* What can_send and the queue below it answer. */
int dev_queue_xmit(struct sk_buff *skb)
{
    struct net_device *dev = skb->dev;
    struct sk_buff **place = &dev->first;

    if (!netif_running(dev)) {
        kfree_skb(skb);
        return -ENETDOWN;
    }
    if (!dev->has_carrier) {
        kfree_skb(skb);
        return 0;
    }
    if (dev->waiting >= dev->tx_queue_len) {
        kfree_skb(skb);
        return -ENOBUFS;
    }
    while (*place != NULL)
        place = &(*place)->next;
    *place = skb;
    dev->waiting++;
    turns_send(dev);
    return 0;
}

int netif_rx(struct sk_buff *skb)
{
    stack_receive(skb);
    return NET_RX_SUCCESS;
}
