# SPDX-License-Identifier: GPL-2.0-only
"""What the applications of a kernel get, as a test sees it. Copy it:

    KERNEL=out/linux python3 -m pytest linux/kernel/example_test.py"""

import os
import re

import pytest
from kernels import Kernels


@pytest.fixture
def kernels():
    with Kernels(os.environ["KERNEL"], nodes=2) as running:
        running.run("up 0 1; candump -L any,0:0,#FFFFFFFF > /run/log 2> /dev/null &")
        yield running


def heard(kernels, script):
    """What candump printed since the script began, without its times."""
    text, = kernels.run(f"before=$(wc -l < /run/log)\n{script}\nsleep 0.1\ntail -n +$((before + 1)) /run/log")
    return re.sub(r"^\(.*?\) ", "", text, flags=re.M).splitlines()


def test_a_frame(kernels):
    assert heard(kernels, "cansend can0 123#1122") == ["can1 123#1122", "can0 123#1122"]


def test_a_struck_bit(kernels):
    kernels.strike("1 frame 1 stuff.2")
    assert heard(kernels, "cansend can0 123#1122") == [
        "can1 20000288#0000040800000001",
        "can0 20000288#0000810800000800",
        "can1 123#1122",
        "can0 123#1122",
    ]


def test_bus_off(kernels):
    kernels.strike("0 data 1.4 x32")
    got = heard(kernels, "cansend can0 123#1122; sleep 0.3; cansend can0 123#3344")
    assert "can0 20000040#0000000000000000" in got
    assert got[-2:] == ["can1 123#3344", "can0 123#3344"]
