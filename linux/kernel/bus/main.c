/* SPDX-License-Identifier: GPL-2.0-only */
/* The process of the bus: a session of c/sja.h, to which User-mode Linux kernels reach over vhost-user, as PCI cards.
 * Their own drivers drive it, and their time is that of the bus. linux/kernel/kernels.py starts it. */
#include <errno.h>
#include <poll.h>
#include <signal.h>
#include <stdio.h>
#include <stdlib.h>
#include <string.h>
#include <sys/socket.h>
#include <unistd.h>

#include "bus.h"
#include "card.h"
#include "clock.h"
#include "control.h"
#include "kernels.h"
#include "log.h"
#include "places.h"
#include "vhost.h"

static const char help[] =
    "usage: bus [-c CARD] [-l LOG] [-p PLAN] -n PLACES -f FD FOLDER:NODES ..\n"
    "       bus -C\n"
    "A bus for User-mode Linux kernels. linux/kernel/run starts it, and says what it needs.\n"
    "  FOLDER:NODES  a kernel, whose sockets `card` and `clock` are made in FOLDER, and how many nodes it has\n"
    "  -c CARD       the card of its nodes: a name that -C lists\n"
    "  -f FD         a socket of who started it; control.h has what is said there\n"
    "  -l LOG        writes each access, strike and interrupt into a file, with its time and bit\n"
    "  -n PLACES     a file of lines with a number and the name of a place in a frame\n"
    "  -p PLAN       the bus ends after 2000000 bits, and its plan is written into a file\n"
    "  -C            lists the cards: driver, controllers, the kernel's option, and whether it is plain memory\n";

static const char *plan;

/* Reads the options that stand before the kernels. */
static void read_options(int count, char **words)
{
    for (int option; (option = getopt(count, words, "c:l:p:n:f:Ch")) >= 0;) {
        if (option == 'c' && !card_choose(optarg))
            control_fail("there is no card %s", optarg);
        else if (option == 'l')
            log_begin(optarg);
        else if (option == 'p')
            plan = optarg;
        else if (option == 'n')
            places_begin(optarg);
        else if (option == 'f')
            control_begin(atoi(optarg));
        else if (option == 'C' || option == 'h') {
            option == 'C' ? card_list() : (void)fputs(help, stdout);
            exit(0);
        } else if (option == '?')
            exit(2);
    }
    if (optind == count || control_fd() < 0) {
        fputs(help, stderr);
        exit(2);
    }
}

enum { OF_KERNEL = 3, POLLED = OF_KERNEL * BUS_NODES + BUS_NODES + 1 };

/* What is polled: of each kernel the sockets at which it comes, and its clock; each card; and who started this. */
static unsigned gather(struct pollfd fds[POLLED])
{
    unsigned count = 0;

    for (unsigned i = 0; i < kernels_count(); i++) {
        struct kernel *kernel = kernels_at(i);

        fds[count++] = (struct pollfd){ kernel->listener, POLLIN, 0 };
        fds[count++] = (struct pollfd){ kernels_may_begin(i) ? kernel->clock_listener : -1, POLLIN, 0 };
        fds[count++] = (struct pollfd){ kernel->ended ? -1 : kernel->clock, POLLIN, 0 };
    }
    for (unsigned i = 0; i < vhost_cards(); i++)
        fds[count++] = (struct pollfd){ vhost_card(i)->fd, POLLIN, 0 };
    fds[count++] = (struct pollfd){ control_fd(), POLLIN, 0 };
    return count;
}

static void do_kernel(struct kernel *kernel, const struct pollfd *fds)
{
    if (fds[0].revents)
        vhost_accept(kernel);
    if (fds[1].revents)
        kernel->clock = accept4(kernel->clock_listener, NULL, NULL, SOCK_CLOEXEC);
    if (fds[2].revents)
        clock_message(kernel);
}

static void turn(void)
{
    struct pollfd fds[POLLED];
    unsigned cards = vhost_cards(), count = gather(fds);

    if (poll(fds, count, -1) < 0 && errno != EINTR)
        control_fail("poll: %s", strerror(errno));
    for (unsigned i = 0; i < cards; i++)
        if (fds[OF_KERNEL * kernels_count() + i].revents && !vhost_request(vhost_card(i))) {
            close(vhost_card(i)->fd);
            vhost_card(i)->fd = -1;
        }
    for (unsigned i = 0; i < kernels_count(); i++)
        do_kernel(kernels_at(i), &fds[OF_KERNEL * i]);
    if (fds[count - 1].revents)
        control_hear();
    clock_grant();
}

int main(int count, char **words)
{
    signal(SIGPIPE, SIG_IGN);
    read_options(count, words);
    for (int i = optind; i < count; i++)
        kernels_add(words[i]);
    bus_begin(kernels_at(kernels_count() - 1)->first + kernels_at(kernels_count() - 1)->nodes, plan);
    control_say("ready");
    while (!kernels_are_gone())
        turn();
    bus_end();
    control_say("end %llu bits, %llu accesses, %llu interrupts, %llu strikes, %llu missed, %llu grants",
                (unsigned long long)bus_ran(), (unsigned long long)bus_counts.accesses,
                (unsigned long long)bus_counts.interrupts, (unsigned long long)bus_counts.strikes,
                (unsigned long long)bus_counts.missed, (unsigned long long)bus_counts.grants);
    return 0;
}
