/* SPDX-License-Identifier: GPL-2.0-only */
/* The session that the bus is: the calls of c/sja.h. Once one isn't done the session goes no further: that is its
 * fault, with a line in the log. After it no call is made, a register is ff, and each other value is 0. */
#ifndef LINUX_SESSION_H
#define LINUX_SESSION_H

#include <stdbool.h>
#include <stdint.h>

/* Begins a session, of at most so many bits. 0, or one of the kernel's errors. */
int session_begin(unsigned nodes, uint32_t bits);
void session_end(void);
bool session_is_begun(void);
bool session_has_fault(void);

uint8_t session_read(unsigned node, unsigned address);
void session_write(unsigned node, unsigned address, uint8_t value);
/* Runs so many bits, or those up to a rise of a watched node's line. How many. */
uint32_t session_bits(uint32_t count, uint32_t watch);
/* Whether a node's line is active, and which lines are: bit K for node K. */
bool session_line(unsigned node);
uint32_t session_lines(void);

#endif
