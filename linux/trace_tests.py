# SPDX-License-Identifier: GPL-2.0-only
"""Whether Linux's driver says what happened on the bus: each bit of a frame is struck at the sender and at a receiver,
and the error frames of all drivers are compared with `sja trace` of the plan that the bus wrote: of each bus error and
lost arbitration the bit, kind, place and counters. SJA names the program. Prints what differs; the status is 1 then.

    python3 linux/trace_tests.py KERNEL_TREE [FRAME ..]"""

import os
import re
import subprocess
import sys

from board import Board

NODES, BITS, PLACES = 3, 4000, 200
LINE = re.compile(r"^bit (\d+) node (\d): (.*)$", re.M)
BUSERROR, LOSTARB, KINDS, TRANSMITS = 0x80, 0x2, (0x01, 0x02, 0x04, 0x00), 0x80


def traced(plan):
    """What the bus brought each node that its driver is told of: (node, bit, what the error frame has of it)."""
    words = [os.environ.get("SJA", "sja"), "trace"]
    run = subprocess.run(words, input=plan, text=True, stdout=subprocess.PIPE, check=True)
    counters, told = {}, set()
    for bit, node, text in LINE.findall(run.stdout):
        now = re.search(r"tec (\d+) rec (\d+)", text)
        if now:
            counters[node] = tuple(map(int, now.groups()))
        capture, lost = re.search(r"ECC (\w\w)", text), re.search(r"ALC (\w\w)", text)
        if capture:
            code = int(capture[1], 16)
            kind = KINDS[code >> 6] | (0 if code & 0x20 else TRANSMITS)
            told.add((int(node), int(bit), "error", kind, code & 0x1F, *counters.get(node, (0, 0))))
        if lost:
            told.add((int(node), int(bit), "lost", int(lost[1], 16) & 0x1F))
    return told


def of_driver(bus):
    """The same by the error frames. A driver is told once a bit has run, so of the bit before."""
    told = set()
    for node in range(NODES):
        for bit, _, frame in bus.frames(node, "error"):
            kind, data = int(frame[:8], 16), bytes.fromhex(frame[9:])
            if kind & BUSERROR:
                told.add((node, bit - 1, "error", data[2], data[3], data[6], data[7]))
            if kind & LOSTARB:
                told.add((node, bit - 1, "lost", data[0]))
    return told


def compared(tree, frame, node, bit):
    """The errors that only one of both tells of, of a run in which this bit of the frame is struck; and how many both
    do. Nothing where the frame has no such bit."""
    with Board(nodes=NODES, driver=tree, bits=BITS) as bus:
        for each in range(NODES):
            bus.link(each, bitrate=500000, berr_reporting=True)
        bus.up(*range(NODES))
        bus.send(0, frame)
        if node == 2:
            bus.send(1, frame.replace("#", "#00"))
        start = bus.now()
        bus.strike(node, start + bit)
        bus.run(600)
        driver, trace = of_driver(bus), traced(bus.plan())
    return driver ^ trace, len(driver & trace)


def main(words):
    tree, frames = words[0], words[1:] or ["123#1122"]
    bad = good = 0
    for frame in frames:
        for node in range(NODES):
            for bit in range(1, 66):
                differs, same = compared(tree, frame, node, bit)
                good += same
                for one in sorted(differs):
                    bad += 1
                    print(f"{frame}, can{node} struck in bit {bit}: only one of driver and trace tells {one}")
    print(f"{good} errors are told alike by driver and trace, {bad} otherwise")
    return bad > 0 or good == 0


if __name__ == "__main__":
    sys.exit(main(sys.argv[1:]))
