/* SPDX-License-Identifier: GPL-2.0-only */
/* Where the shim hands frames to the stack above the devices, and where the bus asks for strikes by place. */
#ifndef LINUX_STACK_H
#define LINUX_STACK_H

#include <stdint.h>

struct sk_buff;
struct net_device;

/* Takes a buffer that a driver received, or that comes back as sent. */
void stack_receive(struct sk_buff *skb);
/* The device of a node, and the node of a device, which is -1 where it isn't one of the bus. */
struct net_device *bus_device(unsigned node);
int bus_node(const struct net_device *dev);
/* The node in whose device's memory a place is, or -1. */
int bus_node_at(const void *place);
/* Drops all that was received. */
void stack_forget(void);
/* Strikes the next bit of each node that is at its place. How many bits may run then before the next look: at most so
 * many. */
uint32_t seek_strike(uint32_t most);

#endif
