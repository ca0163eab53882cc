# SPDX-License-Identifier: GPL-2.0-only
"""The first struck frame: can0 sends, can1 sees one bit wrong, and what Linux's driver makes of it is printed.

    python3 linux/example.py KERNEL_TREE"""

import sys

from board import Board

FRAME = "123#1122"

with Board(nodes=3, driver=sys.argv[1]) as bus:
    for node in range(3):
        bus.link(node, bitrate=500000, restart_ms=100, berr_reporting=True)
    bus.up(0, 1, 2)
    bus.strike(1, "stuff.2")
    bus.send(0, FRAME)
    bus.run(1000)
    for node in range(3):
        print(f"can{node} received {bus.received(node)} sent {bus.sent(node)} errors {bus.errors(node)}")
    print("can0 is", bus.state(0), "with", bus.details(0)["bus_error"], "bus error")
    assert bus.received(1) == bus.received(2) == [FRAME], "the frame isn't with each receiver once"
