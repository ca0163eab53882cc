/* SPDX-License-Identifier: GPL-2.0-only */
/* Network devices: they are made, get a name, come up and go down. */
#include "shim.h"

#include <stdio.h>

#include "../turns.h"

static int devices;

struct net_device *alloc_netdev_mqs(int size, const char *name, unsigned char type, void (*setup)(struct net_device *),
                                    unsigned int txqs, unsigned int rxqs)
{
    size_t whole = ALIGN(sizeof(struct net_device) + (size_t)size, (size_t)NETDEV_ALIGN);
    struct net_device *dev = aligned_alloc(NETDEV_ALIGN, whole);

    (void)type;
    if (dev == NULL || txqs == 0 || rxqs == 0)
        return NULL;
    memset(dev, 0, whole);
    snprintf(dev->name, IFNAMSIZ, "%s", name);
    dev->size = whole;
    dev->stopped = true;
    dev->has_carrier = true;
    setup(dev);
    return dev;
}

void free_netdev(struct net_device *dev)
{
    if (dev->registered)
        shim_log("bug", dev->name, "BUG: a registered device is freed\n");
    free(dev);
}

/* The name is a pattern such as can%d, which gets the next number. */
int register_netdev(struct net_device *dev)
{
    char *place = strstr(dev->name, "%d");

    if (dev->netdev_ops == NULL)
        return -EINVAL;
    if (place != NULL)
        snprintf(place, (size_t)(dev->name + IFNAMSIZ - place), "%d", devices);
    dev->ifindex = ++devices;
    dev->registered = true;
    return 0;
}

void unregister_netdev(struct net_device *dev)
{
    dev_close(dev);
    dev->registered = false;
    devices--;
}

void netdev_set_ml_priv(struct net_device *dev, void *priv, enum netdev_ml_priv_type type)
{
    dev->ml_priv = priv;
    dev->ml_priv_type = type;
}

void *netdev_get_ml_priv(struct net_device *dev, enum netdev_ml_priv_type type)
{
    return dev->ml_priv_type == type ? dev->ml_priv : NULL;
}

bool netif_running(const struct net_device *dev)
{
    return (dev->flags & IFF_UP) != 0;
}

int dev_open(struct net_device *dev)
{
    int error;

    if (netif_running(dev))
        return 0;
    error = dev->netdev_ops->ndo_open != NULL ? dev->netdev_ops->ndo_open(dev) : 0;
    if (error == 0)
        dev->flags |= IFF_UP;
    return error;
}

/* The queue is emptied first, and then the driver stops; so the stack does it too. */
int dev_close(struct net_device *dev)
{
    int error;

    if (!netif_running(dev))
        return 0;
    shim_drop_waiting(dev);
    turns_until_false(&dev->is_sending);
    error = dev->netdev_ops->ndo_stop != NULL ? dev->netdev_ops->ndo_stop(dev) : 0;
    dev->flags &= ~(unsigned)IFF_UP;
    shim_drop_waiting(dev);
    return error;
}

/* Time stamps are made by software alone. */
int ethtool_op_get_ts_info(struct net_device *dev, struct ethtool_ts_info *info)
{
    (void)dev;
    info->so_timestamping = SOF_TIMESTAMPING_RX_SOFTWARE | SOF_TIMESTAMPING_SOFTWARE;
    info->phc_index = -1;
    return 0;
}
