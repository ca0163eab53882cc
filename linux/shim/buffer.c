/* SPDX-License-Identifier: GPL-2.0-only */
/* Socket buffers, counted: who takes one and never gives it back is told at the end of a bus. */
#include "shim.h"

static unsigned buffers;

unsigned shim_buffers(void)
{
    return buffers;
}

struct sk_buff *alloc_skb(unsigned int size, gfp_t flags)
{
    struct sk_buff *skb = calloc(1, sizeof *skb);
    struct shim_bytes *shared = calloc(1, sizeof *shared + size);

    (void)flags;
    assert(skb != NULL && shared != NULL);
    shared->users = 1;
    skb->users = 1;
    skb->shared = shared;
    skb->head = skb->data = skb->tail = shared->bytes;
    skb->end = skb->head + size;
    buffers++;
    return skb;
}

struct sk_buff *netdev_alloc_skb(struct net_device *dev, unsigned int size)
{
    struct sk_buff *skb = alloc_skb(size, GFP_ATOMIC);

    skb->dev = dev;
    return skb;
}

struct sk_buff *skb_clone(struct sk_buff *skb, gfp_t flags)
{
    struct sk_buff *clone = malloc(sizeof *clone);

    (void)flags;
    assert(clone != NULL);
    *clone = *skb;
    clone->next = NULL;
    clone->sk = NULL;
    clone->destructor = NULL;
    clone->users = 1;
    clone->shared->users++;
    buffers++;
    return clone;
}

struct sk_buff *skb_get(struct sk_buff *skb)
{
    skb->users++;
    return skb;
}

void kfree_skb(struct sk_buff *skb)
{
    if (skb == NULL || --skb->users > 0)
        return;
    if (skb->destructor != NULL)
        skb->destructor(skb);
    if (--skb->shared->users == 0)
        free(skb->shared);
    free(skb);
    buffers--;
}

void skb_reserve(struct sk_buff *skb, int size)
{
    skb->data += size;
    skb->tail += size;
}

void *skb_put(struct sk_buff *skb, unsigned int size)
{
    unsigned char *place = skb->tail;

    assert(size <= skb_tailroom(skb));
    skb->tail += size;
    skb->len += size;
    return place;
}

void *skb_put_zero(struct sk_buff *skb, unsigned int size)
{
    return memset(skb_put(skb, size), 0, size);
}

unsigned int skb_headroom(const struct sk_buff *skb)
{
    return (unsigned int)(skb->data - skb->head);
}

unsigned int skb_tailroom(const struct sk_buff *skb)
{
    return (unsigned int)(skb->end - skb->tail);
}

void *skb_ext_add(struct sk_buff *skb, enum skb_ext_id id)
{
    assert(id == SKB_EXT_CAN);
    skb->has_extension = true;
    return skb->extension;
}

void *skb_ext_find(const struct sk_buff *skb, enum skb_ext_id id)
{
    assert(id == SKB_EXT_CAN);
    return skb->has_extension ? (void *)skb->extension : NULL;
}

bool refcount_inc_not_zero(refcount_t *count)
{
    if (count->count == 0)
        return false;
    count->count++;
    return true;
}

void sock_efree(struct sk_buff *skb)
{
    skb->sk->sk_refcnt.count--;
}
