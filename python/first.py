"""Strikes each bit of a frame at its sender: when does the receiver not have it once?"""

from sja import Session

MOD, CMR, RMC = 0, 1, 29


def received(bit):
    """How often node 1 has it where node 0 sees this bit wrong."""
    with Session(version=3, bits=1000, nodes=2) as bus:
        for node in range(2):
            bus.write(node, MOD, 0x00)  # out of reset mode
        bus.write(0, CMR, 0x01)  # TR: send
        bus.strike(0, bit)
        bus.run(500)
        return bus.read(1, RMC)


for bit in range(11, 64):
    if received(bit) != 1:
        print("struck in bit", bit, "node 1 has the frame", received(bit), "times")
