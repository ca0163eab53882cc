"""Two nodes of a session without an end exchange messages until the program is told to stop (Ctrl-C). Each message has
its number, and has to come once and in order, also where a frame is struck and where a controller was off the bus. A
line says now and then how far the bus has come. A number behind the program's name stops it after so many bits."""

import signal
import sys

from sja import Session

MOD, CMR, SR, BUFFER, AMR = 0, 1, 2, 16, 20
TR, RRB, RBS = 0x01, 0x04, 0x01
LINE = 1000000

stopped = []


def opened(bus, node):
    """Takes a controller onto the bus: every message passes."""
    for mask in range(AMR, AMR + 4):
        bus.write(node, mask, 0xFF)
    bus.write(node, MOD, 0x00)


def reopened(bus, node):
    """Takes a controller off the bus and onto it again, where it waits for eleven recessive bits."""
    bus.write(node, MOD, 0x01)
    bus.write(node, MOD, 0x00)
    bus.run(11)


def send(bus, node, number):
    """Hands the message of this number over."""
    for place, byte in enumerate([8, 0x10, 0x00, *number.to_bytes(8, "big")]):
        bus.write(node, BUFFER + place, byte)
    bus.write(node, CMR, TR)


def received(bus, node):
    """The numbers of all messages that a node has received. Each is released."""
    numbers = []
    while bus.read(node, SR) & RBS:
        numbers.append(int.from_bytes((bus.read(node, BUFFER + 3 + place) for place in range(8)), "big"))
        bus.write(node, CMR, RRB)
    return numbers


def exchange(bus, last):
    """Sends by turns. The receiver of each tenth message was off the bus just before, and each hundredth message is
    struck, so that it is sent again."""
    number = line = 0
    while not stopped and bus.now() < last:
        if number % 10 == 0:
            reopened(bus, 1 - number % 2)
        send(bus, number % 2, number)
        if number % 100 == 0:
            bus.strike(number % 2, bus.now() + 50)
        bus.run(400)
        if (came := received(bus, 1 - number % 2)) != [number]:
            sys.exit(f"message {number} came as {came}")
        number += 1
        if bus.now() // LINE > line:
            line = bus.now() // LINE
            print(bus.now(), "bits,", number, "messages", flush=True)


def stop(*_):
    """Has the exchange end."""
    stopped.append(True)


signal.signal(signal.SIGINT, signal.SIG_IGN)  # a process of the session's own ignores what stops this one
with Session(version=3, bits=0, nodes=2) as session:
    signal.signal(signal.SIGINT, stop)
    for each in range(2):
        opened(session, each)
    exchange(session, int(sys.argv[1]) if len(sys.argv) > 1 else float("inf"))
    print("stopped at bit", session.now())
