# SPDX-License-Identifier: GPL-2.0-only
"""Delays are as long as they are said to be: by the log of each access and interrupt."""

import os
import pathlib
import re
import tempfile

from drivers import drives
from kernels import Kernels

SENDING = 7     # accesses by which a frame of two bytes is sent: five bytes, CMR, and SR
LATENCY, LATE, NUMBER = 300, 300, 5


def parts_of(log):
    """The log from each word on: the bits of accesses, and that of the first interrupt."""
    for part in re.split(r"^.* says .*\n", log, flags=re.M)[1:]:
        accesses = [int(bit) for bit in re.findall(r" bit (\d+) node \d (?:reads|writes)", part)]
        told = re.search(r" bit (\d+) interrupt", part)
        if accesses and told:
            yield accesses, int(told[1])


def gaps(accesses):
    return [after - before for before, after in zip(accesses[:SENDING - 1], accesses[1:SENDING])]


def delayed_in(log):
    """What is wrong in a log of delayed.sh."""
    plain, late_handler, slow, late_access = parts_of(log)
    wrong = []
    if late_handler[1] - late_handler[0][0] != plain[1] - plain[0][0] + LATENCY:
        wrong.append("latency: the handler isn't called 300 bits later")
    if gaps(plain[0]) != [0] * (SENDING - 1):
        wrong.append("an access takes time, and nobody said so")
    if sorted(set(gaps(slow[0]))) != [1, 2] or abs(sum(gaps(slow[0])) - 1.5 * (SENDING - 1)) > 1:
        wrong.append("access_bits: accesses don't take one and a half bits")
    if gaps(late_access[0]) != [0] * (NUMBER - 2) + [LATE] + [0] * (SENDING - NUMBER):
        wrong.append("late: the fifth access alone isn't 300 bits late")
    return wrong


def delayed(outs, _):
    """latency, access_bits and late delay by as many bits as they say."""
    wrong = []
    for out in outs:
        for card in (card for card in ("sja1000_isa", "kvaser_pci") if drives(out, card)):
            with tempfile.TemporaryDirectory() as folder:
                log = os.path.join(folder, "log")
                with Kernels(os.path.join(out, "linux"), card=card, log=log) as kernels:
                    kernels.run(pathlib.Path(__file__).with_suffix(".sh"))
                found = delayed_in(pathlib.Path(log).read_text("ascii"))
            wrong += [f"{out} {card}: {line}" for line in found]
    return wrong
