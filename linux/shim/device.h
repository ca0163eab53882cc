/* SPDX-License-Identifier: GPL-2.0-only */
/* Network devices. Stands for linux/netdevice.h, if_arp.h, if_ether.h and rtnetlink.h. */
#ifndef SHIM_DEVICE_H
#define SHIM_DEVICE_H

#include "buffer.h"
#include "log.h"
#include "netlink.h"
#include "platform.h"
#include "types.h"

#define ARPHRD_CAN 280
#define ETH_P_CAN 0x000C
#define ETH_P_CANFD 0x000D
#define ETH_P_CANXL 0x000E
#define NETIF_F_HW_CSUM 1
#define NETDEV_ALIGN 32
#define NET_NAME_UNKNOWN 0
#define NET_RX_SUCCESS 0
#define NET_RX_DROP 1
#define IFNAMSIZ 16
enum { IFF_UP = 0x1, IFF_RUNNING = 0x40, IFF_NOARP = 0x80, IFF_ECHO = 0x40000 };
typedef enum { NETDEV_TX_OK = 0, NETDEV_TX_BUSY = 0x10 } netdev_tx_t;
enum netdev_ml_priv_type { ML_PRIV_NONE, ML_PRIV_CAN };

struct net_device_stats {
    unsigned long rx_packets, tx_packets, rx_bytes, tx_bytes, rx_errors, tx_errors, rx_dropped, tx_dropped;
    unsigned long multicast, collisions, rx_length_errors, rx_over_errors, rx_crc_errors, rx_frame_errors;
    unsigned long rx_fifo_errors, rx_missed_errors, tx_aborted_errors, tx_carrier_errors, tx_fifo_errors;
};

struct net_device_ops {
    int (*ndo_open)(struct net_device *dev);
    int (*ndo_stop)(struct net_device *dev);
    netdev_tx_t (*ndo_start_xmit)(struct sk_buff *skb, struct net_device *dev);
    int (*ndo_change_mtu)(struct net_device *dev, int mtu);
    int (*ndo_eth_ioctl)(struct net_device *dev, struct ifreq *ifr, int cmd);
};

struct net_device {
    char name[IFNAMSIZ];
    int ifindex, irq;
    size_t size;            /* of all of it, with its priv */
    unsigned int mtu, min_mtu, max_mtu, flags, tx_queue_len;
    unsigned short type, hard_header_len;
    unsigned char addr_len;
    netdev_features_t features;
    struct net_device_stats stats;
    const struct net_device_ops *netdev_ops;
    const struct ethtool_ops *ethtool_ops;
    const struct rtnl_link_ops *rtnl_link_ops;
    struct device dev;
    unsigned short dev_id, dev_port;
    unsigned long base_addr, mem_start, mem_end, trans_start;
    void *ml_priv;
    enum netdev_ml_priv_type ml_priv_type;
    bool registered, stopped, has_carrier, is_sending;
    struct sk_buff *first;
    unsigned int waiting;
    _Alignas(NETDEV_ALIGN) unsigned char priv[];
};

#define to_net_dev(device) container_of(device, struct net_device, dev)
#define SET_NETDEV_DEV(net, device) ((net)->dev.parent = (device))

static inline void *netdev_priv(const struct net_device *dev)
{
    return (void *)dev->priv;
}

struct net_device *alloc_netdev_mqs(int size, const char *name, unsigned char type, void (*setup)(struct net_device *),
                                    unsigned int txqs, unsigned int rxqs);
void free_netdev(struct net_device *dev);
int register_netdev(struct net_device *dev);
void unregister_netdev(struct net_device *dev);
void netdev_set_ml_priv(struct net_device *dev, void *priv, enum netdev_ml_priv_type type);
void *netdev_get_ml_priv(struct net_device *dev, enum netdev_ml_priv_type type);
/* `ip link set can0 up` and `down`, as the stack does them. */
int dev_open(struct net_device *dev);
int dev_close(struct net_device *dev);

/* The queue between the stack and a driver. */
void netif_start_queue(struct net_device *dev);
void netif_stop_queue(struct net_device *dev);
void netif_wake_queue(struct net_device *dev);
bool netif_queue_stopped(const struct net_device *dev);
void netif_carrier_on(struct net_device *dev);
void netif_carrier_off(struct net_device *dev);
bool netif_carrier_ok(const struct net_device *dev);
int netif_rx(struct sk_buff *skb);
int dev_queue_xmit(struct sk_buff *skb);
/* Hands over what waits, as far as the driver takes it. Whether it took any. */
bool shim_send_waiting(struct net_device *dev);
/* Whether there is something that the driver takes. */
bool shim_may_send(const struct net_device *dev);
void shim_drop_waiting(struct net_device *dev);
bool netif_running(const struct net_device *dev);
#define netif_device_present(dev) ((void)(dev), true)
#define netif_device_attach(dev) ((void)(dev))
#define netif_device_detach(dev) ((void)(dev))
/* One processor: no other one sends meanwhile. */
#define netif_tx_lock(dev) ((void)(dev))
#define netif_tx_unlock(dev) ((void)(dev))
#define netif_trans_update(net) ((net)->trans_start = jiffies)

#endif
