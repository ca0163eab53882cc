# SPDX-License-Identifier: GPL-2.0-only
"""Tests of linux/board.py, a line each; the status is 1 where one doesn't hold.

    python3 linux/board_tests.py KERNEL_TREE"""

import sys

from board import Board, BoardError

TREE, FRAMES = sys.argv[1], ["123#1122", "124#3344", "125#5566"]


def up(bus, **asked):
    """Three devices that are up."""
    for node in range(3):
        bus.link(node, bitrate=500000, **asked)
    bus.up(0, 1, 2)


def refusal_of(call):
    """The errno of what a call raises, or 0."""
    try:
        call()
    except BoardError as error:
        return error.errno
    return 0


def a_place_is_that_of_the_frame_that_is_named():
    for number, named in enumerate(["", "frame 2 ", "frame 3 "]):
        with Board(nodes=3, driver=TREE) as bus:
            up(bus, one_shot=True, berr_reporting=True)
            bus.strike(0, f"{named}data 2.3")
            for frame in FRAMES:
                bus.send(0, frame)
            bus.run(2000)
            left = [frame for frame in FRAMES if frame != FRAMES[number]]
            if not bus.received(1) == bus.received(2) == bus.sent(0) == left or len(bus.errors(1)) != 1:
                return False
    return True


def a_place_waits_for_its_frame():
    with Board(nodes=3, driver=TREE) as bus:
        up(bus, one_shot=True)
        bus.strike(0, "CRC.14")
        ran = bus.run(500)
        bus.send(0, FRAMES[0])
        return ran == 500 and bus.run(500) == 500 and bus.received(1) == []


def a_sof_is_struck_by_its_bit_and_by_its_place():
    for by_place in (False, True):
        with Board(nodes=3, driver=TREE) as bus:
            up(bus, berr_reporting=True)
            bus.send(0, FRAMES[0])
            bus.strike(0, "SOF" if by_place else bus.now())
            bus.run(500)
            if bus.received(1) != FRAMES[:1] or len(bus.errors(0)) != 1 or bus.details(0)["bus_error"] != 1:
                return False
    return True


def a_place_that_its_frame_lacks_is_told():
    with Board(nodes=3, driver=TREE) as bus:
        up(bus)
        bus.strike(1, "data 3.7")
        bus.send(0, FRAMES[0])
        first = bus.run(200)
        bus.send(0, FRAMES[1])
        return first == 200 and refusal_of(lambda: bus.run(200)) == 22 and bus.received(1) == FRAMES[:2]


def a_bus_goes_on_or_has_a_plan():
    with Board(nodes=2, driver=TREE) as bus:
        endless = bus.run(2500000) == 2500000 and refusal_of(bus.plan) == 5
    with Board(nodes=2, driver=TREE, bits=1000) as bus:
        return endless and bus.plan().startswith("version = 3") and refusal_of(lambda: bus.run(1001)) == 0


def what_cannot_be_is_refused():
    with Board(nodes=3, driver=TREE) as bus:
        no_rate = refusal_of(lambda: bus.up(0))
        up(bus)
        refused = [lambda: Board(nodes=1, driver=TREE), lambda: bus.link(0, bitrate=500000),
                   lambda: bus.strike(0, "data 9.7"), lambda: bus.strike(0, "frame 0 SOF"),
                   lambda: bus.strike(0, 0), lambda: bus.send(0, "1234#")]
        return no_rate == 22 and [refusal_of(call) for call in refused] == [16, 16, 22, 22, 22, 22]


def what_goes_down_comes_up():
    with Board(nodes=3, driver=TREE) as bus:
        up(bus)
        bus.down(1)
        stopped = bus.state(1)
        bus.send(0, FRAMES[0])
        bus.run(300)
        bus.up(1)
        bus.send(0, FRAMES[1])
        bus.run(300)
        return (stopped == "STOPPED" and bus.state(1) == "ERROR-ACTIVE" and bus.received(1) == FRAMES[1:2]
                and bus.received(2) == FRAMES[:2] and bus.bugs() == 0 and "can1: setting BTR0" in bus.dmesg())


def an_access_takes_its_time():
    with Board(nodes=1, driver=TREE, access_bits="3/2") as bus:
        return bus.accesses > 0 and bus.now() == bus.accesses * 3 // 2


def one_access_is_late():
    took = []
    for late in (0, 40):
        with Board(nodes=1, driver=TREE) as bus:
            bus.link(0, bitrate=500000)
            bus.late(bus.accesses + 5, late)
            bus.up(0)
            took.append(bus.now())
    return took[1] == took[0] + 40


def frames_come_through_whoever_acts():
    for others in range(4):
        with Board(nodes=3, driver=TREE, access_bits="3/2", latency=5, others=others, edges=others == 2) as bus:
            up(bus)
            for node, frame in enumerate(FRAMES):
                bus.send(node, frame)
            bus.run(1000)
            if [bus.received(0), bus.received(1), bus.received(2)] != [FRAMES[1:], FRAMES[::2], FRAMES[:2]]:
                return False
    return True


bad = 0
for test in (a_place_is_that_of_the_frame_that_is_named, a_place_waits_for_its_frame,
             a_sof_is_struck_by_its_bit_and_by_its_place, a_place_that_its_frame_lacks_is_told,
             a_bus_goes_on_or_has_a_plan, what_cannot_be_is_refused, what_goes_down_comes_up,
             an_access_takes_its_time, one_access_is_late, frames_come_through_whoever_acts):
    held = test()
    bad += not held
    print(test.__name__.replace("_", " "), "" if held else ": WRONG", sep="")
sys.exit(bad > 0)
