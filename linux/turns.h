/* SPDX-License-Identifier: GPL-2.0-only */
/* Who acts next: the order in which handlers, what was put off, queues and bits come, and who waits for whom. */
#ifndef LINUX_TURNS_H
#define LINUX_TURNS_H

#include <stdbool.h>
#include <stdint.h>

struct net_device;

/* A bus begins: nothing was done. And it ends: each strand that has begun ends first, as far as it does so at all. */
void turns_begin(void);
void turns_end(void);
/* Whether anybody else acts while a node waits in an access. */
bool turns_others_act(void);
/* Does all that is to be done before the next bit; and lets bits run up to this one, with all that is to be done
 * meanwhile. Whether they ran. */
void turns_settle(void);
bool turns_go_until(uint64_t until);

/* The strand that runs waits so many bits, in an access of a node, while others act. */
void turns_wait(int node, uint32_t bits);
/* The same in a delay of the driver that it is in. */
void turns_delay(uint32_t bits);
/* The strand that runs waits until this is false. Whether it is: not where nobody else acts, or not for long. */
bool turns_until_false(const bool *gate);
/* The test goes into the driver of a node, once it may; and comes out of it. */
void turns_enter(unsigned node);
void turns_leave(void);
/* Interrupts are on again: what is pending comes between. */
void turns_let_interrupt(void);
/* A frame waits for a device. */
void turns_send(struct net_device *dev);
/* The queue of a device may go on: on another processor it does so at once. */
void turns_wake(struct net_device *dev);

#endif
