/* SPDX-License-Identifier: GPL-2.0-only */
/* The bus: a session of c/sja.h, and its time, in bits and in nanoseconds of the kernels. A bit takes what BTR0 and
 * BTR1 of the node say that left reset mode last, with an oscillator of 16 MHz. */
#ifndef KERNEL_BUS_H
#define KERNEL_BUS_H

#include <stdbool.h>
#include <stdint.h>

enum { BUS_NODES = 8, BUS_REGISTERS = 32 };

/* What was done so far. */
struct bus_counts { uint64_t accesses, strikes, missed, interrupts, grants; };
extern struct bus_counts bus_counts;

/* Begins the bus. With a path for a plan it ends after 2,000,000 bits, and the plan is written there at its end. */
void bus_begin(unsigned nodes, const char *plan);
/* Writes the plan, and says if all starts of a node were used. */
void bus_end(void);
unsigned bus_nodes(void);
/* Whether the bus has an end: then each look at a register is an access of its plan. */
bool bus_has_end(void);

/* Registers, as a driver reads and writes them. */
uint8_t bus_read(unsigned node, unsigned address);
void bus_write(unsigned node, unsigned address, uint8_t value);
/* Which interrupt lines are active: bit K is the line of node K. */
uint64_t bus_lines(void);
/* Where the next bit of a node is, as in enum sja_places. */
uint32_t bus_place(unsigned node);
/* Whether no line can rise before a register is written: all nodes on the bus rest, and no bit ahead is struck. */
bool bus_is_quiet(void);

/* Strikes a bit that hasn't run. False if the bit has run. */
bool bus_strike(unsigned node, uint64_t bit);

uint64_t bus_now(void);             /* the time, in nanoseconds */
uint64_t bus_ran(void);             /* how many bits were run */
uint64_t bus_bit_time(void);        /* how long a bit takes, in nanoseconds */
uint64_t bus_time_of(uint64_t bits);/* when `bits` bits have run */
/* Runs bits up to a time, or up to the end of the first bit after which a line rises. Whether a line rose. */
bool bus_run_until(uint64_t time);

#endif
