/* SPDX-License-Identifier: GPL-2.0-only */
/* What a CAN driver of Linux includes of the kernel, but for CAN's own headers, which are those of the tree. Each
 * header that ../headers names is this one. */
#ifndef SHIM_H
#define SHIM_H

#include "types.h"

#include "buffer.h"
#include "device.h"
#include "interrupt.h"
#include "lock.h"
#include "log.h"
#include "netlink.h"
#include "platform.h"
#include "time.h"

#endif
