/* SPDX-License-Identifier: GPL-2.0-only */
/* The kernel's words of C: types, small macros, errors in pointers, modules. Stands for linux/kernel.h, types.h,
 * bits.h, math.h, err.h, module.h and units.h. */
#ifndef SHIM_TYPES_H
#define SHIM_TYPES_H

#include <arpa/inet.h>
#include <asm/types.h>
#include <assert.h>
#include <errno.h>
#include <limits.h>
#include <stdbool.h>
#include <stddef.h>
#include <stdint.h>
#include <stdlib.h>
#include <string.h>
#include <sys/types.h>

typedef __u8 u8;
typedef __u16 u16;
typedef __u32 u32;
typedef __u64 u64;
typedef __s8 s8;
typedef __s16 s16;
typedef __s32 s32;
typedef __s64 s64;
typedef __u16 __be16;
typedef __u16 __le16;
typedef __u32 __be32;
typedef __u32 __le32;
typedef unsigned short __kernel_sa_family_t;
typedef unsigned int gfp_t;
typedef u64 netdev_features_t;

#define U8_MAX ((u8)~0U)
#define U16_MAX ((u16)~0U)
#define U32_MAX ((u32)~0U)
#define BIT(number) (1UL << (number))
#define BITS_PER_BYTE 8
#define GENMASK(high, low) ((~0UL >> (63 - (high))) & (~0UL << (low)))
#define ALIGN(size, to) (((size) + (__typeof__(size))(to) - 1) & ~((__typeof__(size))(to) - 1))
#define ARRAY_SIZE(array) (sizeof(array) / sizeof((array)[0]))
#define DIV_ROUND_UP(number, by) (((number) + (by) - 1) / (by))
#define DIV_ROUND_UP_POW2(number, by) ((number) / (by) + ((number) % (by) != 0))
#define DIV_U64_ROUND_CLOSEST(number, by) (((u64)(number) + (by) / 2) / (by))
#define container_of(place, type, member) ((type *)((char *)(place) - offsetof(type, member)))
#define min(a, b) ({ __typeof__(a) min_a = (a); __typeof__(b) min_b = (b); min_a < min_b ? min_a : min_b; })
#define max(a, b) ({ __typeof__(a) max_a = (a); __typeof__(b) max_b = (b); max_a > max_b ? max_a : max_b; })
#define min_t(type, a, b) min((type)(a), (type)(b))
#define max_t(type, a, b) max((type)(a), (type)(b))
#define clamp(number, low, high) min((__typeof__(number))max(number, low), high)
#define do_div(number, by) ({ u32 do_div_rest = (number) % (by); (number) /= (by); do_div_rest; })
#define likely(condition) __builtin_expect(!!(condition), 1)
#define unlikely(condition) __builtin_expect(!!(condition), 0)
#define BUILD_BUG_ON(condition) _Static_assert(!(condition), #condition)
#define fallthrough __attribute__((fallthrough))
#define READ_ONCE(place) (*(const volatile __typeof__(place) *)&(place))
#define WRITE_ONCE(place, value) (*(volatile __typeof__(place) *)&(place) = (value))

static inline u64 mul_u32_u32(u32 a, u32 b)
{
    return (u64)a * b;
}

/* linux/units.h */
#define KILO 1000UL
#define MEGA 1000000UL
#define GIGA 1000000000UL
#define NSEC_PER_SEC 1000000000L
#define NSEC_PER_USEC 1000L
#define USEC_PER_SEC 1000000L

/* What says something to the kernel's build alone. */
#ifndef __packed
#define __packed __attribute__((packed))
#endif
#define __must_check __attribute__((warn_unused_result))
#define __maybe_unused __attribute__((unused))
#define __iomem
#define __user
#define __rcu
#define __init __attribute__((unused))
#define __exit __attribute__((unused))
#define __read_mostly

/* An error in the place of a pointer. */
#define ERR_PTR(error) ((void *)(intptr_t)(error))
#define PTR_ERR(pointer) ((long)(intptr_t)(pointer))
#define IS_ERR(pointer) ((uintptr_t)(pointer) >= (uintptr_t)-4095)
#define IS_ERR_OR_NULL(pointer) ((pointer) == NULL || IS_ERR(pointer))

/* Modules: what begins and ends one is kept, and called as a bus begins and ends. */
void shim_module_begins(int (*begin)(void));
void shim_module_ends(void (*end)(void));
int shim_load_modules(void);
void shim_unload_modules(void);
#define module_init(function) \
    __attribute__((constructor)) static void shim_init_##function(void) { shim_module_begins(function); }
#define module_exit(function) \
    __attribute__((constructor)) static void shim_exit_##function(void) { shim_module_ends(function); }
#define SHIM_NOTED _Static_assert(1, "")
#define MODULE_AUTHOR(text) SHIM_NOTED
#define MODULE_LICENSE(text) SHIM_NOTED
#define MODULE_DESCRIPTION(text) SHIM_NOTED
#define MODULE_ALIAS(text) SHIM_NOTED
#define MODULE_ALIAS_RTNL_LINK(text) SHIM_NOTED
#define EXPORT_SYMBOL(name) SHIM_NOTED
#define EXPORT_SYMBOL_GPL(name) SHIM_NOTED
#define THIS_MODULE NULL

#endif
