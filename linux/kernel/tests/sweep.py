# SPDX-License-Identifier: GPL-2.0-only
"""Each bit of a frame struck, at its sender and at each receiver: what each stack got. With two uses:

    python3 sweep.py kernel FRAME         in a kernel with three nodes: through its sockets
    python3 sweep.py shim FRAME TREE      on the host: through linux/board.py

Both print the same lines, if the shim does what the kernel does."""

import fcntl
import os
import socket
import struct
import subprocess
import sys
import time

NODES = 3
WINDOW = "/sys/bus/pci/devices/0000:00:00.0/config", 64
PLACES = ["SOF", *[f"ID.{i}" for i in range(28, 17, -1)], "SRR", "IDE", *[f"ID.{i}" for i in range(17, -1, -1)], "RTR",
          "r1", "r0", *[f"DLC.{i}" for i in range(3, -1, -1)],
          *[f"data {byte}.{bit}" for byte in range(1, 9) for bit in range(7, -1, -1)],
          *[f"CRC.{i}" for i in range(14, -1, -1)], *[f"stuff.{i}" for i in range(1, 13)],
          "CRC delimiter", "ACK", "ACK delimiter", *[f"EOF.{i}" for i in range(1, 8)],
          *[f"intermission.{i}" for i in range(1, 4)]]
FRAME = struct.Struct("=IB3x8s")        # struct can_frame of linux/can.h
EXTENDED, FLAGS, REMOTE = 0x80000000, 0xa0000000, 0x40000000
SETTLES, RUNS = 0.0005, 0.0020          # seconds: until all take part in the bus; until all is over
GET_FLAGS, SET_FLAGS, UP = 0x8913, 0x8914, 1
ERROR_FILTER, ALL_ERRORS = 2, 0x1fffffff


def text(frame):
    """A frame as candump -L writes it."""
    number, length, data = FRAME.unpack(frame)
    name = f"{number & ~EXTENDED & 0x3fffffff:08X}" if number & FLAGS else f"{number:03X}"
    return name + "#" + data[:length].hex().upper()


def packed(frame):
    name, data = frame.split("#")
    return FRAME.pack(int(name, 16) | (EXTENDED if len(name) > 3 else 0), len(data) // 2, bytes.fromhex(data))


class Kernel:
    """The links of this kernel, without a fork for each strike: by ioctl, by raw sockets and by the bus's window."""

    def __init__(self):
        self.card = os.open(WINDOW[0], os.O_RDWR)
        self.hears = [self._raw(node) for node in range(NODES)]
        self.talks = socket.socket(socket.PF_CAN, socket.SOCK_RAW, socket.CAN_RAW)
        self.talks.bind(("can0",))

    @staticmethod
    def _raw(node):
        subprocess.run(["ip", "link", "set", f"can{node}", "type", "can", "bitrate", "500000", "restart-ms", "100",
                        "berr-reporting", "on"], check=True)
        hears = socket.socket(socket.PF_CAN, socket.SOCK_RAW, socket.CAN_RAW)
        hears.setsockopt(socket.SOL_CAN_RAW, ERROR_FILTER, ALL_ERRORS)
        hears.bind((f"can{node}",))
        hears.setblocking(False)
        return hears

    def _flag(self, up):
        for node in range(NODES):
            name = f"can{node}".encode()
            flags = struct.unpack("16xH14x", fcntl.ioctl(self.talks, GET_FLAGS, struct.pack("32s", name)))[0]
            fcntl.ioctl(self.talks, SET_FLAGS, struct.pack("16sH14x", name, flags & ~UP | up))

    def _say(self, words):
        os.pwrite(self.card, words.encode() + b"\n", WINDOW[1])
        assert os.pread(self.card, 2, WINDOW[1]) == b"ok", words

    @staticmethod
    def _got(hears):
        """What a stack has, until nothing is left."""
        while True:
            try:
                frame, _, flags, _ = hears.recvmsg(FRAME.size)
            except BlockingIOError:
                return
            yield ("sent " if flags & socket.MSG_DONTROUTE else "") + text(frame)

    def case(self, node, place, frame):
        self._flag(UP)
        for one in (self.talks, *self.hears):
            one.getsockopt(socket.SOL_SOCKET, socket.SO_ERROR)  # that the link was down
        time.sleep(SETTLES)
        self._say(f"strike {node} frame 1 {place}")
        self.talks.send(packed(frame))
        time.sleep(RUNS)
        self._say("forget")
        got = [list(self._got(hears)) for hears in self.hears]
        self._flag(0)
        return got


class Shim:
    """The same of linux/board.py, which drives the driver of a tree."""

    def __init__(self, tree):
        sys.path.append(os.path.join(os.path.dirname(os.path.realpath(__file__)), "../.."))
        self.tree = tree

    def case(self, node, place, frame):
        from board import Board, BoardError
        with Board(nodes=NODES, driver=self.tree) as bus:
            for each in range(NODES):
                bus.link(each, bitrate=500000, restart_ms=100, berr_reporting=True)
            bus.up(*range(NODES))
            bus.run(200)
            bus.strike(node, place)
            bus.send(0, frame)
            try:
                bus.run(1000)
            except BoardError:
                pass    # no frame has this place
            return [[("sent " if kind == "sent" else "") + told for _, kind, told in bus.frames(each)]
                    for each in range(NODES)]


def main():
    frame = sys.argv[2]
    where = Kernel() if sys.argv[1] == "kernel" else Shim(sys.argv[3])
    for node in range(NODES):
        for place in PLACES:
            print(node, place, where.case(node, place, frame), flush=True)


main()
