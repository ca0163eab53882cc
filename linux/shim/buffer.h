/* SPDX-License-Identifier: GPL-2.0-only */
/* Socket buffers: a frame on its way between the stack and a driver. Stands for linux/skbuff.h and net/sock.h. */
#ifndef SHIM_BUFFER_H
#define SHIM_BUFFER_H

#include "types.h"

#define GFP_KERNEL 0U
#define GFP_ATOMIC 1U
#define CHECKSUM_NONE 0
#define CHECKSUM_UNNECESSARY 1
#define PACKET_HOST 0
#define PACKET_BROADCAST 1
#define PACKET_LOOPBACK 5

struct net_device;

/* The socket that a frame was sent by: how many frames hold it. */
typedef struct { int count; } refcount_t;
struct sock {
    refcount_t sk_refcnt;
};

struct skb_shared_hwtstamps {
    u64 hwtstamp;
};

struct skb_shared_info {
    u8 tx_flags;
    struct skb_shared_hwtstamps hwtstamps;
};

enum { SKBTX_HW_TSTAMP = 1, SKBTX_SW_TSTAMP = 2, SKBTX_IN_PROGRESS = 4 };

/* An extension is what the kernel of 7.2 keeps beside a buffer; CAN's is the one that there is. */
enum skb_ext_id { SKB_EXT_CAN, SKB_EXT_NUM };
enum { SHIM_EXTENSION = 64 };

/* The bytes of a buffer, which clones share. */
struct shim_bytes {
    int users;
    struct skb_shared_info info;
    unsigned char bytes[];
};

struct sk_buff {
    struct sk_buff *next;
    struct net_device *dev;
    struct sock *sk;
    void (*destructor)(struct sk_buff *skb);
    int users;
    unsigned int len;
    __be16 protocol;
    u8 pkt_type;
    u8 ip_summed;
    struct shim_bytes *shared;
    unsigned char *head, *data, *tail, *end;
    u16 mac_header, network_header, transport_header;
    bool has_extension;
    _Alignas(8) unsigned char extension[SHIM_EXTENSION];
};

struct sk_buff *alloc_skb(unsigned int size, gfp_t flags);
struct sk_buff *netdev_alloc_skb(struct net_device *dev, unsigned int size);
struct sk_buff *skb_clone(struct sk_buff *skb, gfp_t flags);
struct sk_buff *skb_get(struct sk_buff *skb);
void kfree_skb(struct sk_buff *skb);
void skb_reserve(struct sk_buff *skb, int size);
void *skb_put(struct sk_buff *skb, unsigned int size);
void *skb_put_zero(struct sk_buff *skb, unsigned int size);
unsigned int skb_headroom(const struct sk_buff *skb);
unsigned int skb_tailroom(const struct sk_buff *skb);
void *skb_ext_add(struct sk_buff *skb, enum skb_ext_id id);
void *skb_ext_find(const struct sk_buff *skb, enum skb_ext_id id);
bool refcount_inc_not_zero(refcount_t *count);
void sock_efree(struct sk_buff *skb);
/* How many buffers there are, for whoever looks for one that was lost. */
unsigned shim_buffers(void);

#define consume_skb kfree_skb
#define dev_kfree_skb kfree_skb
#define dev_kfree_skb_any kfree_skb
#define dev_kfree_skb_irq kfree_skb
#define dev_consume_skb_any kfree_skb
#define skb_shinfo(skb) (&(skb)->shared->info)
#define skb_hwtstamps(skb) (&skb_shinfo(skb)->hwtstamps)
#define skb_reset_mac_header(skb) ((skb)->mac_header = (u16)((skb)->data - (skb)->head))
#define skb_reset_network_header(skb) ((skb)->network_header = (u16)((skb)->data - (skb)->head))
#define skb_reset_transport_header(skb) ((skb)->transport_header = (u16)((skb)->data - (skb)->head))
/* No one asks for the time at which a frame was handed over: these two tell nobody. */
#define skb_tx_timestamp(skb) ((void)(skb))
#define skb_tstamp_tx(skb, stamps) ((void)(skb), (void)(stamps))

#endif
