/* SPDX-License-Identifier: GPL-2.0-only */
#include "kernels.h"

#include <signal.h>
#include <stddef.h>
#include <stdio.h>
#include <stdlib.h>
#include <string.h>
#include <sys/socket.h>
#include <sys/un.h>

#include "bus.h"
#include "control.h"

static struct kernel kernels[BUS_NODES];
static unsigned count, nodes;

static int listen_at(const char *folder, const char *name)
{
    struct sockaddr_un address = { .sun_family = AF_UNIX };
    int fd = socket(AF_UNIX, SOCK_STREAM | SOCK_CLOEXEC, 0);

    if (snprintf(address.sun_path, sizeof address.sun_path, "%s/%s", folder, name) >= (int)sizeof address.sun_path)
        control_fail("%s is too long for the name of a socket", folder);
    if (fd < 0 || bind(fd, (struct sockaddr *)&address, sizeof address) != 0 || listen(fd, 2) != 0)
        control_fail("%s can't be made", address.sun_path);
    return fd;
}

void kernels_add(char *word)
{
    struct kernel *kernel = &kernels[count];
    char *colon = strrchr(word, ':');

    if (count == BUS_NODES || colon == NULL)
        control_fail("%s: a kernel is FOLDER:NODES, and there are at most 8", word);
    *colon = 0;
    *kernel = (struct kernel){ .folder = word, .clock = -1, .first = nodes, .nodes = (unsigned)atoi(colon + 1),
                               .listener = listen_at(word, "card"), .clock_listener = listen_at(word, "clock") };
    nodes += kernel->nodes;
    if (kernel->nodes < 1 || nodes > BUS_NODES)
        control_fail("a bus has 1 to 8 nodes");
    count++;
}

unsigned kernels_count(void)
{
    return count;
}

struct kernel *kernels_at(unsigned number)
{
    return &kernels[number];
}

unsigned kernels_number(const struct kernel *kernel)
{
    return (unsigned)(kernel - kernels);
}

bool kernels_may_begin(unsigned number)
{
    for (unsigned i = 0; i < number; i++)
        if (!kernels[i].waits)
            return false;
    return kernels[number].clock < 0;
}

void kernels_kill(void)
{
    for (unsigned i = 0; i < count; i++)
        if (kernels[i].group > 1)
            kill(-kernels[i].group, SIGKILL);
}

bool kernels_are_gone(void)
{
    for (unsigned i = 0; i < count; i++)
        if (!kernels[i].ended)
            return false;
    return true;
}

bool kernels_rest(void)
{
    for (unsigned i = 0; i < count; i++)
        if (!kernels[i].ended && (!kernels[i].rests || kernels[i].script[0] != 0))
            return false;
    return true;
}
