/* SPDX-License-Identifier: GPL-2.0-only */
/* Bytes over a socket, whole. */
#ifndef KERNEL_WIRE_H
#define KERNEL_WIRE_H

#include <stdbool.h>
#include <stddef.h>

/* False if the other end is gone. */
bool wire_get(int fd, void *to, size_t length);
/* Nothing is sent to an end that is gone. */
void wire_put(int fd, const void *from, size_t length);

#endif
