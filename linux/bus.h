/* SPDX-License-Identifier: GPL-2.0-only */
/* A bus of one to eight cards with a CAN driver of Linux, as a test sees it: links in the words of `ip`, frames in
 * those of candump, time in bits. There is one bus at a time in a process. A call that gives an int gives 0, or one of
 * the kernel's errors, which are below 0. */
#ifndef LINUX_BUS_H
#define LINUX_BUS_H

#include <stddef.h>
#include <stdint.h>

enum { BUS_NODES = 8, FRAME_TEXT = 40 };

/* Begins a bus of so many cards, which are probed, and of so many bits at most; with 0 it goes on without an end, and
 * has neither plan nor report. */
int bus_begin(unsigned nodes, uint32_t bits);
/* Takes the cards away and ends the bus. How many socket buffers were lost. */
unsigned bus_end(void);

/* `ip link set canN type can WORDS`, as "bitrate 500000 restart-ms 100 berr-reporting on". */
int bus_link(unsigned node, const char *words);
/* Why the last bus_link was refused, where the kernel said so in words. */
const char *bus_refusal(void);
/* `ip link set canN up` and `down`. */
int bus_up(unsigned node);
int bus_down(unsigned node);

/* Hands a frame to the stack, in the notation of cansend: 123#1122, 12345678#R4, 123#1122334455667788_9. */
int bus_send(unsigned node, const char *frame);

/* Lets so many bits run, with all that drivers and kernel do meanwhile. How many were run: fewer where the session
 * ends. */
uint32_t bus_run(uint32_t bits);
/* Lets bits run without a handler being called, as a delay in a driver does. */
void bus_delay(uint32_t bits);
/* Runs up to the first bit of the next frame, at most so many bits. Its number, or -1 where none began. */
int64_t bus_to_frame(uint32_t most);
uint64_t bus_now(void);
uint32_t bus_bit_rate(void);

/* Has a node see the other level in a bit that hasn't run; and how often one did in this run. */
int bus_strike(unsigned node, uint64_t bit);
unsigned bus_strikes(void);
/* The same at a place of the first, second, third .. frame that begins for the node from now on: SJA_DATA + 23 of sja.h
 * for data 2.3. bus_missed says how many of these strikes found no such place in their frame. */
int bus_strike_at(unsigned node, unsigned frame, uint32_t place);
unsigned bus_missed(void);
/* No strike waits for its place any more. */
void bus_forget_strikes(void);
/* The same, and bit K after it where bit K of `more` is 1. */
int bus_strike_on(unsigned node, unsigned frame, uint32_t place, uint32_t more);
/* At which of these places the next bit of a node is; 0 where it is at none. */
uint32_t bus_at(unsigned node);

/* A register, as a test looks at it beside the driver. A read may clear what it shows. */
uint8_t bus_peek(unsigned node, unsigned address);
/* Holds a node's interrupt line back from its handlers, or lets it go: a handler that comes late. */
void bus_hold(unsigned node, int is_held);
/* Each bus that begins from now on finds a filter that somebody left: these four times as ACR and as AMR. With a mask
 * of ff, as at first, none is left. */
void bus_left_filter(uint8_t code, uint8_t mask);

/* Time between accesses, which is kept from bus to bus. Before access i of a node, from 0, run floor((i+1)A/B) less
 * floor(iA/B) bits, of A parts in B of a bit; a handler is called so many bits after its line rose; before one access
 * of the run, from 0, run so many bits. */
void bus_access_bits(uint32_t parts, uint32_t whole);
void bus_latency(uint32_t bits);
void bus_late(uint64_t access, uint32_t bits);
/* No more of these three. */
void bus_on_time(void);
/* Who else acts while a node waits in an access: nobody, so that all come late; the other nodes; also its own handler,
 * which comes between; also its own queue, as on another processor; all that it has, as on several. */
enum bus_others { OTHERS_NONE, OTHERS_NODES, OTHERS_HANDLER, OTHERS_QUEUE, OTHERS_ALL };
void bus_others(enum bus_others others);
/* Whether a handler is called for each rise of its line alone, as of an input that takes edges. */
void bus_edges(int on);
/* How many accesses of drivers there were in this run. */
uint64_t bus_accesses(void);
/* Whether the access that is made is one of a node's handler; whether a node's line is at rest, and its driver. */
int bus_handles(unsigned node);
int bus_rests(unsigned node);

/* The registers, as a board file reads and writes them for its driver. */
uint8_t bus_read(unsigned node, unsigned address);
void bus_write(unsigned node, unsigned address, uint8_t value);
/* Whoever wants to see each access of a driver. */
typedef void (*bus_witness)(unsigned node, int is_write, unsigned address, uint8_t value);
void bus_watch(bus_witness witness);

/* What the stack got of a device, in turn; and what it handed over to be sent. */
enum frame_kind { FRAME_RECEIVED, FRAME_SENT, FRAME_ERROR };
struct bus_frame {
    uint64_t bit;      /* how many bits had run as the driver handed it over */
    uint32_t id;       /* with the flags of linux/can.h */
    uint8_t kind;
    uint8_t length;
    uint8_t dlc;       /* 9 to 15 where it was more than 8, else 0 */
    uint8_t data[8];
};
size_t bus_frames(unsigned node);
const struct bus_frame *bus_frame(unsigned node, size_t number);
size_t bus_asked(unsigned node);
const struct bus_frame *bus_asked_frame(unsigned node, size_t number);
void bus_frame_text(const struct bus_frame *frame, char text[FRAME_TEXT]);
/* Reads the notation. 0, or -EINVAL. */
int bus_frame_read(const char *text, struct bus_frame *frame);

/* What `ip -details -statistics link show` says: by the kernel's own messages. */
struct bus_details {
    uint32_t state, ctrlmode, restart_ms, bitrate, sample_point, brp, sjw, tseg1, tseg2, txerr, rxerr;
    uint32_t bus_error, error_warning, error_passive, bus_off, arbitration_lost, restarts;
    uint64_t rx_packets, tx_packets, rx_bytes, tx_bytes, rx_errors, tx_errors, rx_dropped, tx_dropped, rx_over_errors;
    int is_up, has_carrier, waiting;
};
int bus_details(unsigned node, struct bus_details *details);
const char *bus_state_name(uint32_t state);

/* The kernel's log, and how many of its lines tell of a bug of a driver. */
const char *bus_dmesg(void);
unsigned bus_bugs(void);

/* The status of c/sja.h at which the session went no further, or 0. A card then answers ff, as one that was pulled. */
uint32_t bus_fault(void);
/* The plan of what was done so far, and the report, which ends the session. The length, or -1. Whether it has ended. */
int64_t bus_plan(char *text, size_t size);
int64_t bus_report(char *text, size_t size);
int bus_has_ended(void);

#endif
