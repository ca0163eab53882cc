/* SPDX-License-Identifier: GPL-2.0-only */
/* The stack above the devices: it keeps what they deliver, and hands them what is sent. */
#include <linux/netdevice.h>

#include <linux/can/dev.h>

#include "bus.h"
#include "stack.h"
#include "turns.h"

/* The frames of one node, in turn: those that its driver handed over, and those that were handed to it. */
static struct frames {
    struct bus_frame *frames;
    size_t count, room;
} got[BUS_NODES], asked[BUS_NODES];

/* The socket that all frames are sent by: a frame that comes back with it is one of its own. */
static struct sock sender = { .sk_refcnt = { 1 } };

static struct bus_frame *new_frame(struct frames *of)
{
    if (of->count == of->room) {
        of->room = 2 * of->room + 16;
        of->frames = realloc(of->frames, of->room * sizeof *of->frames);
        assert(of->frames != NULL);
    }
    return &of->frames[of->count++];
}

void stack_receive(struct sk_buff *skb)
{
    const struct can_frame *frame = (const struct can_frame *)skb->data;
    int node = bus_node(skb->dev);

    if (node < 0 || skb->protocol != htons(ETH_P_CAN) || !can_is_can_skb(skb)) {
        shim_log("bug", skb->dev->name, "BUG: the driver hands over what is no CAN frame\n");
    } else {
        struct bus_frame *kept = new_frame(&got[node]);

        *kept = (struct bus_frame){ .bit = bus_now(), .id = frame->can_id, .length = frame->len,
                                    .dlc = frame->len8_dlc };
        kept->kind = frame->can_id & CAN_ERR_FLAG ? FRAME_ERROR : skb->sk != NULL ? FRAME_SENT : FRAME_RECEIVED;
        memcpy(kept->data, frame->data, sizeof kept->data);
    }
    kfree_skb(skb);
}

void stack_forget(void)
{
    for (unsigned node = 0; node < BUS_NODES; node++)
        got[node].count = asked[node].count = 0;
}

size_t bus_frames(unsigned node)
{
    return node < BUS_NODES ? got[node].count : 0;
}

const struct bus_frame *bus_frame(unsigned node, size_t number)
{
    return number < bus_frames(node) ? &got[node].frames[number] : NULL;
}

size_t bus_asked(unsigned node)
{
    return node < BUS_NODES ? asked[node].count : 0;
}

const struct bus_frame *bus_asked_frame(unsigned node, size_t number)
{
    return number < bus_asked(node) ? &asked[node].frames[number] : NULL;
}

/* As can_send: the frame in a buffer with room before it, where older kernels keep what is CAN's of it, and its own
 * copy that the driver may keep. */
static struct sk_buff *buffer_of(struct net_device *dev, const struct bus_frame *from)
{
    struct can_frame *frame;
    struct sk_buff *skb = alloc_can_skb(dev, &frame);

    if (skb == NULL)
        return NULL;
    frame->can_id = from->id;
    frame->len = from->length;
    frame->len8_dlc = from->dlc;
    memcpy(frame->data, from->data, sizeof frame->data);
    skb->pkt_type = dev->flags & IFF_ECHO ? PACKET_LOOPBACK : PACKET_HOST;
    can_skb_set_owner(skb, &sender);
    return skb;
}

int bus_send(unsigned node, const char *text)
{
    struct net_device *dev = bus_device(node);
    struct bus_frame frame;
    struct sk_buff *skb;
    int error = bus_frame_read(text, &frame);

    if (dev == NULL)
        return -ENODEV;
    if (error != 0)
        return error;
    skb = buffer_of(dev, &frame);
    if (skb == NULL)
        return -ENOMEM;
    frame.bit = bus_now();
    *new_frame(&asked[node]) = frame;
    error = dev_queue_xmit(skb);
    if (error != 0)
        asked[node].count--;
    return error;
}

int bus_up(unsigned node)
{
    struct net_device *dev = bus_device(node);
    int error;

    if (dev == NULL)
        return -ENODEV;
    turns_enter(node);
    error = dev_open(dev);
    turns_leave();
    return error;
}

int bus_down(unsigned node)
{
    struct net_device *dev = bus_device(node);
    int error;

    if (dev == NULL)
        return -ENODEV;
    turns_enter(node);
    error = dev_close(dev);
    turns_leave();
    return error;
}
