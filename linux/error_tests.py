# SPDX-License-Identifier: GPL-2.0-only
"""Whether others send the error frames that Linux's driver sends: python-can's interface (python/sja_node.py), and
`sja candump --errors` of the plan that the bus wrote. Each bit of three frames is struck at the sender, at a receiver
and at a second sender: once alone, and once with every 23rd bit after it, which brings the sender to bus-off, from
which restart-ms takes it back. All devices have berr-reporting. Then each bit of a frame that a full FIFO has no room
for: its receiver's handler comes late, in the bit of the overrun, and tells of that alone. Prints how many frames are
alike, of the others how many of each class only one has, and where the first is; the status is 1 where there are
others.

    python3 linux/error_tests.py KERNEL_TREE            python-can
    python3 linux/error_tests.py KERNEL_TREE candump    the program that SJA names"""

import collections
import os
import re
import subprocess
import sys

from board import Board  # which has python/sja.py on the path
from sja import Session
from sja_node import BUSOFF, OVERFLOW, RESTARTED, Frame, Node

NODES, LATE, BITS, READY, PLACES, FLAG, SR, DOS, RESTART = 3, 2, 8000, 30, 70, 0x20000000, 2, 0x02, 500
FRAMES = {"123#1122": Frame(0x123, False, False, 2, b"\x11\x22"), "7FF#R": Frame(0x7FF, False, True, 0, b""),
          "12345678#1122": Frame(0x12345678, True, False, 2, b"\x11\x22")}
OTHER, OTHER_FRAME = "123#001122", Frame(0x123, False, False, 3, b"\x00\x11\x22")
LONG, LONG_FRAME = "1ABCDEF0#0011223344556677", Frame(0x1ABCDEF0, True, False, 8, bytes.fromhex("0011223344556677"))
FILLED, FILL, LONG_PLACES = 4, 700, 155
LINE = re.compile(r"^\((\d+)\.(\d{6})\) can(\d) (2\w{7})#(\w{16})$", re.M)
Run = collections.namedtuple("Run", "frame node strikes bits late")


def bit_of(now, kind):
    """The bit that is told: the one before, but of a restart the one that comes."""
    return now if kind & RESTARTED else now - 1


def is_compared(run, node, data):
    """Whether both should have it: of a late handler those of overruns."""
    return not run.late or node != LATE or bytes.fromhex(data)[1] & OVERFLOW


def of_driver(tree, run):
    """The error frames of the drivers, as (bit, node, class, data); the bit in which a frame may begin; and the plan."""
    with Board(nodes=NODES, driver=tree, bits=BITS) as bus:
        for each in range(NODES):
            bus.link(each, bitrate=500000, berr_reporting=not (run.late and each == LATE), restart_ms=1)
        bus.up(*range(NODES))
        if run.late:
            bus.hold(LATE)
            for _ in range(FILLED):
                bus.send(0, LONG)
            bus.run(FILL)
        start = bus.now()
        bus.send(0, LONG if run.late else run.frame)
        if run.node == 2 and not run.late:
            bus.send(1, OTHER)
        for bit in run.strikes:
            bus.strike(run.node, start + bit)
        while run.late and bus.now() < start + run.bits and not bus.peek(LATE, SR) & DOS:
            bus.run(1)
        if run.late:
            bus.hold(LATE, False)
        bus.run(start + run.bits - bus.now())
        told = [(bit_of(bit, int(text[:8], 16)), each, *text.split("#"))
                for each in range(NODES) for bit, _, text in bus.frames(each, "error")]
        return collections.Counter(told), start, bus.plan()


class Told:
    """What a driver of python-can's interface tells: of error frames alone it's kept what and when, and when it is to
    be restarted."""

    def __init__(self, session, node, frames, due):
        self.session, self.node, self.frames, self.due = session, node, frames, due

    def error(self, kind, data):
        now = self.session.now()
        self.frames[bit_of(now, kind), self.node, f"{kind | FLAG:08X}", data.hex().upper()] += 1
        if kind & BUSOFF:
            self.due[self.node] = now + RESTART

    def received(self, frame):
        pass

    sent = failed = received


def served(session, nodes, due, held, end):
    """Runs up to this bit, or where a handler is held back up to an overrun, with all that drivers do meanwhile."""
    while session.now() < end and not (held is not None and session.read(held, SR) & DOS):
        most = min([end, *due.values()]) - session.now()
        session.run(most if held is None else min(most, 1), (1 << NODES) - 1)
        for each in [each for each, bit in due.items() if bit == session.now()]:
            del due[each]
            nodes[each].restart()
        for each in nodes:
            if each.number != held:
                each.handle()


def of_node(run, start):
    """The same of python-can's drivers, in a run whose frame may begin in this bit."""
    frames, due, held = collections.Counter(), {}, LATE if run.late else None
    with Session(3, BITS, NODES) as session:
        nodes = [Node(session, each, Told(session, each, frames, due), berr_reporting=each != held)
                 for each in range(NODES)]
        filled = FILL if run.late else 0
        session.run(start - READY - filled)
        for each in nodes:
            each.start()
        session.run(READY)
        for _ in range(FILLED if run.late else 0):
            nodes[0].send(LONG_FRAME)
        served(session, nodes, due, held, start)
        nodes[0].send(LONG_FRAME if run.late else FRAMES[run.frame])
        if run.node == 2 and not run.late:
            nodes[1].send(OTHER_FRAME)
        for bit in run.strikes:
            session.strike(run.node, start + bit)
        served(session, nodes, due, held, start + run.bits)
        nodes[LATE].handle()
        served(session, nodes, due, None, start + run.bits)
    return frames


def of_candump(plan):
    """The same of the text."""
    words = [os.environ.get("SJA", "sja"), "candump", "--errors"]
    ran = subprocess.run(words, input=plan, text=True, stdout=subprocess.PIPE, check=True)
    return collections.Counter((int(seconds) * 1000000 + int(micros), int(node), kind, data)
                               for seconds, micros, node, kind, data in LINE.findall(ran.stdout))


def runs():
    """All runs, each with the node that is struck, the bits of a frame, and for how many bits it goes on."""
    for node in range(NODES):
        for frame in FRAMES:
            for place in range(1, PLACES):
                yield Run(frame, node, [place], 600, False)
                yield Run(frame, node, range(place, place + 2500, 23), 4000, False)
        for place in range(1, LONG_PLACES):
            yield Run(LONG, node, [place], 800, True)


def main(words):
    candump = words[1:] == ["candump"]
    name = "candump" if candump else "python-can"
    alike, others, first = collections.Counter(), collections.Counter(), {}
    for run in runs():
        driver, start, plan = of_driver(words[0], run)
        other = of_candump(plan) if candump else of_node(run, start)
        driver, other = (collections.Counter({told: count for told, count in all.items()
                                              if is_compared(run, told[1], told[3])}) for all in (driver, other))
        for (_, _, kind, data), count in (driver & other).items():
            alike["restarts" if int(kind, 16) & RESTARTED else
                  "overruns" if bytes.fromhex(data)[1] & OVERFLOW else "others"] += count
        for who, some in (("the driver", driver - other), (name, other - driver)):
            for (bit, at, kind, data), count in some.items():
                others[who, kind] += count
                first.setdefault((who, kind), f"{run.frame}, can{run.node} struck {len(run.strikes)} times from bit "
                                              f"{run.strikes[0]}: can{at} bit {bit} {kind}#{data}")
    for who, kind in sorted(others):
        print(f"{who} alone has {others[who, kind]} of class {kind}: {first[who, kind]}")
    print(f"{alike.total()} error frames, {alike['restarts']} of them of restarts and {alike['overruns']} of overruns, "
          f"are sent alike by the driver and {name}, {others.total()} otherwise")
    return bool(others) or 0 in (alike["restarts"], alike["overruns"], alike["others"])


if __name__ == "__main__":
    sys.exit(main(sys.argv[1:]))
