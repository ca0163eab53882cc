"""Node 0 sends a message, node 1 is woken by its interrupt and takes it, and the report is printed."""

from sja import Session

MOD, CMR, SR, IR, IER, BUFFER, AMR = 0, 1, 2, 3, 4, 16, 20


def opened(bus, node):
    """Takes a controller onto the bus: every message passes, and a received one interrupts."""
    for mask in range(AMR, AMR + 4):
        bus.write(node, mask, 0xFF)
    bus.write(node, IER, 0x01)
    bus.write(node, MOD, 0x00)


def send(bus, node, identifier, data):
    """Hands a message of a standard identifier over."""
    for place, byte in enumerate([len(data), identifier >> 3, identifier << 5 & 0xFF, *data]):
        bus.write(node, BUFFER + place, byte)
    bus.write(node, CMR, 0x01)


def received(bus, node):
    """The message in the receive window, which is released then."""
    length = bus.read(node, BUFFER) & 0x0F
    identifier = bus.read(node, BUFFER + 1) << 3 | bus.read(node, BUFFER + 2) >> 5
    data = [bus.read(node, BUFFER + 3 + place) for place in range(length)]
    bus.write(node, CMR, 0x04)
    return f"{identifier:03X} {bytes(data).hex(' ')}"


with Session(version=3, bits=1000, nodes=2) as bus:
    for node in range(2):
        opened(bus, node)
    send(bus, 0, 0x123, b"\x11\x22")
    print("woken after", bus.run(500, watch=0b10), "bits")
    print("received", received(bus, 1), "line", bus.irq(1))
    bus.run(20)
    print(bus.report(), end="")
