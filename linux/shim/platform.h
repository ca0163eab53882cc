/* SPDX-License-Identifier: GPL-2.0-only */
/* What else a CAN driver's files name: the device below, a termination by GPIO, time stamps by hardware. Stands for
 * linux/device.h, gpio/consumer.h, of.h, ethtool.h and net_tstamp.h. A card here has neither GPIO nor time stamps. */
#ifndef SHIM_PLATFORM_H
#define SHIM_PLATFORM_H

#include "types.h"

struct device_node;
struct net_device;

struct device {
    struct device *parent;
    struct device_node *of_node;
    void *driver_data;
    void *platform_data;
};

#define dev_get_platdata(device) ((device)->platform_data)
#define dev_set_drvdata(device, data) ((device)->driver_data = (data))
#define dev_get_drvdata(device) ((device)->driver_data)

struct gpio_desc;
enum gpiod_flags { GPIOD_ASIS, GPIOD_IN, GPIOD_OUT_LOW, GPIOD_OUT_HIGH };

static inline struct gpio_desc *devm_gpiod_get_optional(struct device *dev, const char *name, enum gpiod_flags flags)
{
    (void)dev, (void)name, (void)flags;
    return NULL;
}

static inline void gpiod_set_value_cansleep(struct gpio_desc *gpio, int value)
{
    (void)gpio, (void)value;
}

static inline int device_property_read_u32(struct device *dev, const char *name, u32 *value)
{
    (void)dev, (void)name, (void)value;
    return -EINVAL;
}

struct ethtool_ts_info {
    u32 so_timestamping, tx_types, rx_filters;
    s32 phc_index;
};
#define kernel_ethtool_ts_info ethtool_ts_info

struct ethtool_ops {
    int (*get_ts_info)(struct net_device *dev, struct ethtool_ts_info *info);
};

int ethtool_op_get_ts_info(struct net_device *dev, struct ethtool_ts_info *info);

enum {
    SOF_TIMESTAMPING_TX_HARDWARE = 1, SOF_TIMESTAMPING_TX_SOFTWARE = 2, SOF_TIMESTAMPING_RX_HARDWARE = 4,
    SOF_TIMESTAMPING_RX_SOFTWARE = 8, SOF_TIMESTAMPING_SOFTWARE = 16, SOF_TIMESTAMPING_RAW_HARDWARE = 64
};
enum { HWTSTAMP_TX_OFF, HWTSTAMP_TX_ON };
enum { HWTSTAMP_FILTER_NONE, HWTSTAMP_FILTER_ALL };

struct hwtstamp_config {
    int flags, tx_type, rx_filter;
};
#define kernel_hwtstamp_config hwtstamp_config

struct ifreq {
    void *ifr_data;
};
enum { SIOCSHWTSTAMP = 0x89b0, SIOCGHWTSTAMP = 0x89b1 };
#define copy_from_user(to, from, size) (memcpy(to, from, size), 0)
#define copy_to_user(to, from, size) (memcpy(to, from, size), 0)

#endif
