# SPDX-License-Identifier: GPL-2.0-only
"""For which cards a kernel has a driver."""

import pathlib

CARDS = ["sja1000_isa", "kvaser_pci", "peak_pci", "ems_pci"]


def drives(out, card):
    """Whether the kernel in a folder has the driver of a card."""
    return f"CONFIG_CAN_{card.upper()}=" in pathlib.Path(out, ".config").read_text("ascii")


def card_of(*outs):
    """The first card for which each of these kernels has a driver."""
    return next(card for card in CARDS if all(drives(out, card) for out in outs))
