/* SPDX-License-Identifier: GPL-2.0-only */
/* What `ip link` says and asks. Stands for net/netlink.h and net/rtnetlink.h: attributes in a buffer or in a table. */
#ifndef SHIM_NETLINK_H
#define SHIM_NETLINK_H

#include "buffer.h"
#include "types.h"

enum { NLA_UNSPEC, NLA_U8, NLA_U16, NLA_U32, NLA_U64, NLA_STRING, NLA_FLAG, NLA_NESTED };
#define NLA_ALIGNTO 4
#define NLA_HDRLEN ((int)ALIGN(sizeof(struct nlattr), NLA_ALIGNTO))
#define IFLA_INFO_XSTATS 3

struct net;
struct net_device;
struct list_head;

struct nlattr {
    u16 nla_len;
    u16 nla_type;
};

struct nla_policy {
    u8 type;
    u16 len;
};

/* Why a change was refused, in words. */
struct netlink_ext_ack {
    char text[256];
};

#define NL_SET_ERR_MSG(extack, text) shim_refuse(extack, "%s", text)
#define NL_SET_ERR_MSG_MOD(extack, text) shim_refuse(extack, "%s", text)
#define NL_SET_ERR_MSG_FMT(extack, ...) shim_refuse(extack, __VA_ARGS__)
#define NL_SET_ERR_MSG_FMT_MOD(extack, ...) shim_refuse(extack, __VA_ARGS__)
void shim_refuse(struct netlink_ext_ack *extack, const char *format, ...) __attribute__((format(printf, 2, 3)));

struct rtnl_newlink_params {
    struct net *src_net;
    struct nlattr **data, **tb;
};

struct rtnl_link_ops {
    const char *kind;
    bool netns_refund;
    unsigned int maxtype;
    const struct nla_policy *policy;
    void (*setup)(struct net_device *dev);
    int (*validate)(struct nlattr *tb[], struct nlattr *data[], struct netlink_ext_ack *extack);
    int (*newlink)();
    int (*changelink)(struct net_device *dev, struct nlattr *tb[], struct nlattr *data[],
                      struct netlink_ext_ack *extack);
    void (*dellink)(struct net_device *dev, struct list_head *head);
    size_t (*get_size)(const struct net_device *dev);
    int (*fill_info)(struct sk_buff *skb, const struct net_device *dev);
    size_t (*get_xstats_size)(const struct net_device *dev);
    int (*fill_xstats)(struct sk_buff *skb, const struct net_device *dev);
};

int rtnl_link_register(struct rtnl_link_ops *ops);
void rtnl_link_unregister(struct rtnl_link_ops *ops);
/* No other thread changes a device. */
#define ASSERT_RTNL() ((void)0)

static inline void *nla_data(const struct nlattr *attribute)
{
    return (char *)attribute + NLA_HDRLEN;
}

static inline int nla_len(const struct nlattr *attribute)
{
    return attribute->nla_len - NLA_HDRLEN;
}

static inline size_t nla_total_size(size_t payload)
{
    return ALIGN(NLA_HDRLEN + payload, (size_t)NLA_ALIGNTO);
}

u32 nla_get_u32(const struct nlattr *attribute);
u16 nla_get_u16(const struct nlattr *attribute);
int nla_put(struct sk_buff *skb, int type, int length, const void *data);
int nla_put_u32(struct sk_buff *skb, int type, u32 value);
int nla_put_u16(struct sk_buff *skb, int type, u16 value);
struct nlattr *nla_nest_start(struct sk_buff *skb, int type);
int nla_nest_end(struct sk_buff *skb, struct nlattr *start);
void nla_nest_cancel(struct sk_buff *skb, struct nlattr *start);
int nla_parse_nested(struct nlattr *table[], int most, const struct nlattr *attribute, const struct nla_policy *policy,
                     struct netlink_ext_ack *extack);
/* Puts the attributes that lie in so many bytes into a table. -EINVAL where they are cut off. */
int shim_parse(struct nlattr *table[], int most, void *bytes, int length);

#endif
