/* SPDX-License-Identifier: GPL-2.0-only */
#include "vhost.h"

#include <errno.h>
#include <poll.h>
#include <string.h>
#include <sys/mman.h>
#include <sys/socket.h>
#include <unistd.h>

#include "bus.h"
#include "clock.h"
#include "control.h"
#include "kernels.h"
#include "serve.h"
#include "wire.h"

/* Requests, flags, features and the lengths of messages, as vhost-user.rst of QEMU has them. */
enum { GET_FEATURES = 1, SET_MEM_TABLE = 5, SET_VRING_NUM = 8, SET_VRING_ADDR = 9, SET_VRING_BASE = 10,
       GET_VRING_BASE = 11, GET_PROTOCOL_FEATURES = 15, SET_BACKEND_REQ_FD = 21, VRING_KICK = 35,
       BACKEND_VRING_CALL = 4, VERSION = 1, IS_REPLY = 4, WANTS_REPLY = 8,
       VERSION_1 = 32, PROTOCOL_FEATURES = 30, REPLY_ACK = 3, BACKEND_REQ = 5, INBAND_NOTIFICATIONS = 14,
       HEADER = 12, NUMBER = 8, DESCRIPTOR = 16, RING_HEAD = 4 };

struct message {
    uint32_t request, flags, size;
    union {
        uint64_t number;
        struct { uint32_t index, number; } state;
        struct { uint32_t index, flags; uint64_t descriptors, used, available, log; } rings;
        struct { uint32_t count, padding; struct { uint64_t from, size, user, offset; } regions[MEMORIES]; } memory;
        uint8_t bytes[512];
    };
} __attribute__((packed));

static struct card cards[BUS_NODES];
static unsigned count;

unsigned vhost_cards(void)
{
    return count;
}

struct card *vhost_card(unsigned number)
{
    return &cards[number];
}

void vhost_accept(struct kernel *kernel)
{
    unsigned left = kernel->nodes - kernel->given;
    int fd = accept4(kernel->listener, NULL, NULL, SOCK_CLOEXEC);

    if (left == 0 || fd < 0) {
        close(fd);
        return;
    }
    cards[count] = (struct card){ .kernel = kernel, .fd = fd, .call_fd = -1, .first = kernel->first + kernel->given,
                                  .channels = left < card_channels() ? left : card_channels() };
    kernel->given += cards[count].channels;
    card_reset(&cards[count]);
    count++;
}

/* Reads a header, with the descriptors that come with it. False if the kernel is gone. */
static bool get_header(int fd, struct message *message, int fds[MEMORIES])
{
    char room[CMSG_SPACE(MEMORIES * sizeof(int))];
    struct iovec part = { message, HEADER };
    struct msghdr whole = { .msg_iov = &part, .msg_iovlen = 1, .msg_control = room, .msg_controllen = sizeof room };
    ssize_t got = recvmsg(fd, &whole, MSG_CMSG_CLOEXEC);

    if (got <= 0)
        return false;
    for (struct cmsghdr *one = CMSG_FIRSTHDR(&whole); one != NULL; one = CMSG_NXTHDR(&whole, one))
        if (one->cmsg_level == SOL_SOCKET && one->cmsg_type == SCM_RIGHTS)
            memcpy(fds, CMSG_DATA(one), one->cmsg_len - CMSG_LEN(0));
    return got == HEADER || wire_get(fd, (char *)message + got, HEADER - (size_t)got);
}

static void answer(struct card *card, struct message *message, uint64_t number)
{
    message->flags = VERSION | IS_REPLY;
    message->size = NUMBER;
    message->number = number;
    wire_put(card->fd, message, HEADER + NUMBER);
}

static void map_memory(struct card *card, const struct message *message, const int fds[MEMORIES])
{
    card->memories = message->memory.count < MEMORIES ? message->memory.count : MEMORIES;
    for (unsigned i = 0; i < card->memories; i++) {
        uint64_t size = message->memory.regions[i].size, offset = message->memory.regions[i].offset;
        char *whole = mmap(NULL, size + offset, PROT_READ | PROT_WRITE, MAP_SHARED, fds[i], 0);

        if (whole == MAP_FAILED)
            control_fail("the memory of a kernel can't be mapped");
        close(fds[i]);
        card->memory[i].from = message->memory.regions[i].from;
        card->memory[i].size = size;
        card->memory[i].at = (uint8_t *)whole + offset;
    }
}

/* Ring 0 is of commands, ring 1 of interrupts. */
static struct ring *ring_of(struct card *card, uint32_t index)
{
    return index == 0 ? &card->commands : &card->interrupts;
}

static void place_ring(struct card *card, const struct message *message)
{
    struct ring *ring = ring_of(card, message->rings.index);

    ring->descriptors = ring_at(card, message->rings.descriptors, (uint64_t)DESCRIPTOR * ring->size);
    ring->available = ring_at(card, message->rings.available, RING_HEAD + 2 * (uint64_t)ring->size);
    ring->used = ring_at(card, message->rings.used, RING_HEAD + 8 * (uint64_t)ring->size);
}

static void kick(struct card *card, const struct message *message)
{
    if (message->state.index != 0)
        return;
    serve(card);
    clock_narrow(card->kernel);
}

/* Does a request that wants no other answer than that it was done. */
static void do_request(struct card *card, const struct message *message, const int fds[MEMORIES])
{
    switch (message->request) {
    case SET_MEM_TABLE:
        map_memory(card, message, fds);
        break;
    case SET_VRING_NUM:
        ring_of(card, message->state.index)->size = message->state.number;
        break;
    case SET_VRING_BASE:
        ring_of(card, message->state.index)->seen = (uint16_t)message->state.number;
        break;
    case SET_VRING_ADDR:
        place_ring(card, message);
        break;
    case SET_BACKEND_REQ_FD:
        card->call_fd = fds[0];
        break;
    case VRING_KICK:
        kick(card, message);
        break;
    default:
        break;
    }
}

/* The answer of a request for a number. False if it isn't one. */
static bool number_of(struct card *card, const struct message *message, uint64_t *number)
{
    switch (message->request) {
    case GET_FEATURES:
        *number = 1ull << VERSION_1 | 1ull << PROTOCOL_FEATURES;
        return true;
    case GET_PROTOCOL_FEATURES:
        *number = 1ull << REPLY_ACK | 1ull << BACKEND_REQ | 1ull << INBAND_NOTIFICATIONS;
        return true;
    case GET_VRING_BASE:
        *number = (uint64_t)ring_of(card, message->state.index)->seen << 32 | message->state.index;
        return true;
    default:
        return false;
    }
}

bool vhost_request(struct card *card)
{
    struct message message;
    int fds[MEMORIES] = { -1, -1, -1, -1, -1, -1, -1, -1 };
    uint64_t number = 0;
    bool wants;

    if (!get_header(card->fd, &message, fds) || message.size > sizeof message.bytes
        || !wire_get(card->fd, message.bytes, message.size))
        return false;
    wants = message.flags & WANTS_REPLY;
    if (number_of(card, &message, &number)) {
        answer(card, &message, number);
        return true;
    }
    do_request(card, &message, fds);
    if (wants)
        answer(card, &message, 0);
    return true;
}

void vhost_call(struct card *card, unsigned ring)
{
    struct message message = { .request = BACKEND_VRING_CALL, .flags = VERSION | WANTS_REPLY, .size = NUMBER,
                               .state = { ring, 0 } };
    struct kernel *kernel = card->kernel;

    wire_put(card->call_fd, &message, HEADER + NUMBER);
    while (!kernel->ended) {
        struct pollfd fds[2] = { { kernel->clock, POLLIN, 0 }, { card->call_fd, POLLIN, 0 } };

        if (poll(fds, 2, -1) < 0 && errno != EINTR)
            control_fail("poll");
        if (fds[0].revents)
            clock_message(kernel);
        if (fds[1].revents) {
            wire_get(card->call_fd, &message, HEADER + NUMBER);
            return;
        }
    }
}
