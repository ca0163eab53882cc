/* SPDX-License-Identifier: GPL-2.0-only */
/* Attributes of netlink: a number, a structure or a nest of them, each with its length and type before it. */
#include "shim.h"

#include <stdarg.h>
#include <stdio.h>

void shim_refuse(struct netlink_ext_ack *extack, const char *format, ...)
{
    va_list words;

    if (extack == NULL)
        return;
    va_start(words, format);
    vsnprintf(extack->text, sizeof extack->text, format, words);
    va_end(words);
}

int rtnl_link_register(struct rtnl_link_ops *ops)
{
    return ops->kind != NULL ? 0 : -EINVAL;
}

void rtnl_link_unregister(struct rtnl_link_ops *ops)
{
    (void)ops;
}

u32 nla_get_u32(const struct nlattr *attribute)
{
    u32 value;

    memcpy(&value, nla_data(attribute), sizeof value);
    return value;
}

u16 nla_get_u16(const struct nlattr *attribute)
{
    u16 value;

    memcpy(&value, nla_data(attribute), sizeof value);
    return value;
}

int nla_put(struct sk_buff *skb, int type, int length, const void *data)
{
    size_t whole = nla_total_size((size_t)length);
    struct nlattr *attribute;

    if (skb_tailroom(skb) < whole)
        return -EMSGSIZE;
    attribute = skb_put_zero(skb, (unsigned)whole);
    attribute->nla_type = (u16)type;
    attribute->nla_len = (u16)(NLA_HDRLEN + length);
    if (length > 0)
        memcpy(nla_data(attribute), data, (size_t)length);
    return 0;
}

int nla_put_u32(struct sk_buff *skb, int type, u32 value)
{
    return nla_put(skb, type, sizeof value, &value);
}

int nla_put_u16(struct sk_buff *skb, int type, u16 value)
{
    return nla_put(skb, type, sizeof value, &value);
}

struct nlattr *nla_nest_start(struct sk_buff *skb, int type)
{
    struct nlattr *start = (struct nlattr *)skb->tail;

    return nla_put(skb, type, 0, NULL) == 0 ? start : NULL;
}

int nla_nest_end(struct sk_buff *skb, struct nlattr *start)
{
    start->nla_len = (u16)(skb->tail - (unsigned char *)start);
    return (int)skb->len;
}

void nla_nest_cancel(struct sk_buff *skb, struct nlattr *start)
{
    skb->len -= (unsigned)(skb->tail - (unsigned char *)start);
    skb->tail = (unsigned char *)start;
}

int shim_parse(struct nlattr *table[], int most, void *bytes, int length)
{
    char *at = bytes;

    memset(table, 0, sizeof *table * (size_t)(most + 1));
    while (length >= NLA_HDRLEN) {
        struct nlattr *attribute = (struct nlattr *)at;
        int whole = (int)ALIGN(attribute->nla_len, NLA_ALIGNTO);

        if (attribute->nla_len < NLA_HDRLEN || whole > length)
            return -EINVAL;
        if (attribute->nla_type <= most)
            table[attribute->nla_type] = attribute;
        at += whole;
        length -= whole;
    }
    return 0;
}

/* A number that is shorter than its policy says is refused, as the kernel does. */
int nla_parse_nested(struct nlattr *table[], int most, const struct nlattr *attribute, const struct nla_policy *policy,
                     struct netlink_ext_ack *extack)
{
    int error = shim_parse(table, most, nla_data(attribute), nla_len(attribute));

    for (int i = 0; error == 0 && i <= most; i++)
        if (table[i] != NULL && policy[i].type == NLA_U32 && nla_len(table[i]) < 4)
            error = -ERANGE;
    if (error != 0)
        NL_SET_ERR_MSG(extack, "Attribute failed policy validation");
    return error;
}
