#!/usr/bin/env python3
"""Drives a bus of two nodes by `sja live`: node 0 sends a frame, and node 1 answers its interrupt line.

    checks/live_client.py [PROGRAM]        PROGRAM stands for ./sja

The program has to be the proved one: where there is none, ./sja opens no session, and says why on standard error.
"""
import subprocess
import sys

MOD, CMR, SR, IR, IER, BUFFER = 0, 1, 2, 3, 4, 16


class Bus:
    """A session of `sja live`: each call is a line, and its answer's words."""

    def __init__(self, program, bits, nodes):
        pipe = subprocess.PIPE
        self.sja = subprocess.Popen([program, "live"], stdin=pipe, stdout=pipe, text=True, bufsize=1)
        if self.ask(f"live 3 {bits} {nodes}") != ["ok"]:
            sys.exit(f"{program} live opens no session")

    def ask(self, line):
        try:
            self.sja.stdin.write(line + "\n")
        except BrokenPipeError:
            return []
        return self.sja.stdout.readline().split()

    def read(self, node, address):
        return int(self.ask(f"read {node} {address}")[1], 16)

    def write(self, node, address, value):
        assert self.ask(f"write {node} {address} {value:02x}") == ["ok"]

    def end(self):
        return self.sja.communicate("end\n")[0]


def receive(bus, node):
    """The interrupt handler of a node: takes each message out of its buffer."""
    messages = []
    while bus.read(node, IR) & 0x01:
        first = bus.read(node, BUFFER)
        size = (5 if first & 0x80 else 3) + min(first & 0x0F, 8)
        messages.append(bytes([first] + [bus.read(node, BUFFER + place) for place in range(1, size)]))
        bus.write(node, CMR, 0x04)
    return messages


def main():
    bus = Bus(sys.argv[1] if len(sys.argv) > 1 else "./sja", 1000, 2)
    for node in (0, 1):
        bus.write(node, IER, 0x01)
        bus.write(node, MOD, 0x00)
    for place, value in enumerate(bytes.fromhex("0224601122")):
        bus.write(0, BUFFER + place, value)
    bus.write(0, CMR, 0x01)
    ran = bus.ask("run 200")
    print("bits", *ran[1:])
    lines = int(ran[3], 16) if len(ran) > 3 else 0
    for node in (0, 1):
        if lines >> node & 1:
            print(f"node {node} received", *(message.hex() for message in receive(bus, node)))
    print(bus.end(), end="")


main()
