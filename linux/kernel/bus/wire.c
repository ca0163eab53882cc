/* SPDX-License-Identifier: GPL-2.0-only */
#include "wire.h"

#include <errno.h>
#include <sys/socket.h>
#include <unistd.h>

#include "control.h"

bool wire_get(int fd, void *to, size_t length)
{
    for (size_t got = 0; got < length;) {
        ssize_t now = read(fd, (char *)to + got, length - got);

        if (now == 0 || (now < 0 && errno != EINTR))
            return false;
        got += now > 0 ? (size_t)now : 0;
    }
    return true;
}

void wire_put(int fd, const void *from, size_t length)
{
    for (size_t put = 0; put < length;) {
        ssize_t now = write(fd, (const char *)from + put, length - put);

        if (now < 0 && (errno == EPIPE || errno == ECONNRESET))
            return;
        if (now < 0 && errno != EINTR)
            control_fail("a kernel can't be written to");
        put += now > 0 ? (size_t)now : 0;
    }
}
