/* SPDX-License-Identifier: GPL-2.0-only */
/* The kernel's log. Stands for linux/printk.h and for what linux/netdevice.h and linux/device.h say there. */
#ifndef SHIM_LOG_H
#define SHIM_LOG_H

#include "types.h"

struct net_device;
struct device;

/* Adds a line to the log, with the bit at its front, and the device's name where there is one. Debugging lines are left
 * out. */
void shim_log(const char *level, const char *name, const char *format, ...) __attribute__((format(printf, 3, 4)));
/* The log since it was emptied, and how often it told of a bug of the driver. */
const char *shim_log_text(void);
void shim_log_empty(void);
unsigned shim_log_bugs(void);

#define KERN_ERR ""
#define KERN_WARNING ""
#define KERN_INFO ""
#define printk(...) shim_log("info", NULL, __VA_ARGS__)
#define pr_err(...) shim_log("err", NULL, __VA_ARGS__)
#define pr_warn(...) shim_log("warn", NULL, __VA_ARGS__)
#define pr_info(...) shim_log("info", NULL, __VA_ARGS__)
#define pr_debug(...) shim_log("debug", NULL, __VA_ARGS__)
#define netdev_err(dev, ...) shim_log("err", (dev)->name, __VA_ARGS__)
#define netdev_warn(dev, ...) shim_log("warn", (dev)->name, __VA_ARGS__)
#define netdev_notice(dev, ...) shim_log("info", (dev)->name, __VA_ARGS__)
#define netdev_info(dev, ...) shim_log("info", (dev)->name, __VA_ARGS__)
#define netdev_dbg(dev, ...) shim_log("debug", (dev)->name, __VA_ARGS__)
#define netdev_info_once(dev, ...) \
    do { \
        static bool shim_told; \
        if (!shim_told) \
            netdev_info(dev, __VA_ARGS__); \
        shim_told = true; \
    } while (0)
#define dev_err(dev, ...) ((void)(dev), shim_log("err", NULL, __VA_ARGS__))
#define dev_warn(dev, ...) ((void)(dev), shim_log("warn", NULL, __VA_ARGS__))
#define dev_info(dev, ...) ((void)(dev), shim_log("info", NULL, __VA_ARGS__))
#define dev_dbg(dev, ...) ((void)(dev), shim_log("debug", NULL, __VA_ARGS__))
#define dev_err_probe(dev, error, ...) (shim_log("err", NULL, __VA_ARGS__), (int)(error))
#define WARN_ON(condition) \
    ({ \
        bool shim_warns = !!(condition); \
        if (shim_warns) \
            shim_log("bug", NULL, "WARNING: %s\n", #condition); \
        shim_warns; \
    })
#define WARN_ON_ONCE(condition) WARN_ON(condition)

#endif
