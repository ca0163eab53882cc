# SPDX-License-Identifier: GPL-2.0-only
"""The words of strikes: a kernel's bus takes those texts that `sja` takes."""

import os
import subprocess

from kernels import PLACES, Kernels
from made import program

# Texts of strikes, right and wrong ones. Their bits are too far ahead to have run.
STRIKES = [f"1 frame {number} {place}" for number in ("1", "00001", "0", "x", "12345678") for place in ("SOF", "id.3")]
STRIKES += [f"1 {place} {times}" for place in ("SOF", "crc delimiter", "data 8.0", "data 8.8", "data 9.0", "stuff.29")
            for times in ("x1", "x0", "X3", "x", "3", "x00032")]
STRIKES += [f"1 frame 1 {place}" for place in (*PLACES, "ID.29", "EOF.0", "EOF.8", "stuff.0", "stuff.30", "DLC.4", "ID",
                                               "foo", "", "data 1.7 x", "Stuff.2", "ack DELIMITER")]
STRIKES += [f"{node} 900000" for node in ("0", "1", "2", "01", "0000001", "00000001", "x", "")]
STRIKES += ["1 900000 3 2", "1 900000 0 2", "1 900000 3 0", "1 900000 3", "1 900000 3 2 1", "1  900000",
            "1 FRAME 1 SOF", " 1 900000", "1 900000 ", "1", ""]


def is_strike(text):
    """Whether `sja check` takes a text for a strike, of a plan with two nodes."""
    plan = f'version = 3\nbits = 2000000\nstrikes = ["{text}"]\n' + "[[node]]\nsteps = []\n" * 2
    told = subprocess.run([program(), "check"], input=plan, stdout=subprocess.PIPE, stderr=subprocess.STDOUT, text=True,
                          check=False).stdout
    return "plan fault 13" not in told


def is_taken(kernels, text):
    """Whether a kernel's bus takes it for one."""
    try:
        kernels.strike(text)
        kernels.word("forget")
    except ValueError:
        return False
    return True


def spelled(outs, _):
    """The bus takes those texts for strikes that sja takes for them."""
    with Kernels(os.path.join(outs[0], "linux")) as kernels:
        wrong = [text for text in STRIKES if is_taken(kernels, text) != is_strike(text)]
    print(f"  {len(STRIKES)} texts, {sum(map(is_strike, STRIKES))} of them strikes")
    return [f"spelled: {text!r} is a strike for one of both" for text in wrong]
