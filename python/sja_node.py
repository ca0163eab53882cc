"""The driver of one controller: what it does at an interrupt, and the error frames that it makes of what the controller
tells, with the classes and bytes of linux/can/error.h, as Linux's own driver of 7.2 sends them."""

import collections

MOD, CMR, SR, IR, IER, ALC, ECC, RXERR, TXERR, BUFFER, ACR, AMR = 0, 1, 2, 3, 4, 11, 12, 14, 15, 16, 16, 20
RM, LOM, STM, AFM = 0x01, 0x02, 0x04, 0x08
TR, AT, RRB, CDO, SRR = 0x01, 0x02, 0x04, 0x08, 0x10
RBS, TCS, BS = 0x01, 0x08, 0x80
RI, TI, EI, DOI, EPI, ALI, BEI = 0x01, 0x02, 0x04, 0x08, 0x20, 0x40, 0x80

LOSTARB, CRTL, PROT, BUSOFF, BUSERROR, RESTARTED, CNT = 0x2, 0x4, 0x8, 0x40, 0x80, 0x100, 0x200
OVERFLOW, STATE_ACTIVE, PROT_TX = 0x01, 0x40, 0x80
RX_STATES, TX_STATES = (STATE_ACTIVE, 0x04, 0x10), (STATE_ACTIVE, 0x08, 0x20)
ACTIVE, WARNING, PASSIVE, OFF, STOPPED = range(5)

Frame = collections.namedtuple("Frame", "id extended remote dlc data")


def state_of(counter):
    """The state that a counter is in."""
    return PASSIVE if counter >= 128 else WARNING if counter >= 96 else ACTIVE


class Node:
    """The driver of one node of a session. What it has to tell it gives to `told`: received(frame), sent(frame),
    failed(frame) and error(class, data)."""

    def __init__(self, session, number, told, one_shot=False, listen_only=False, presume_ack=False,
                 berr_reporting=False, acceptance=None):
        self.session, self.number, self.told = session, number, told
        self.one_shot, self.berr_reporting = one_shot, berr_reporting
        self.mode = (LOM if listen_only else 0) | (STM if presume_ack else 0) | (AFM if acceptance else 0)
        self.acceptance = acceptance or (0, 0xFFFFFFFF)
        self.state, self.waiting, self.sending = STOPPED, collections.deque(), None

    def read(self, address):
        return self.session.read(self.number, address)

    def write(self, address, value):
        self.session.write(self.number, address, value)

    def start(self):
        """Takes the controller onto the bus, from reset mode, with nothing left of what it did before."""
        self.write(IER, 0)
        self.write(MOD, RM)
        code, mask = self.acceptance
        for place in range(4):
            self.write(ACR + place, code >> 8 * (3 - place) & 0xFF)
            self.write(AMR + place, mask >> 8 * (3 - place) & 0xFF)
        self.write(TXERR, 0)
        self.write(RXERR, 0)
        for register in (ECC, ALC, IR):
            self.read(register)
        self.write(MOD, self.mode)
        self.write(IER, 0xFF if self.berr_reporting else 0xFF & ~BEI)
        self.state = ACTIVE

    def stop(self):
        """Takes it off the bus."""
        self.write(IER, 0)
        self.write(MOD, RM)
        self.state, self.sending = STOPPED, None
        self.waiting.clear()

    def restart(self):
        """Back from bus-off."""
        self.told.error(RESTARTED, bytes(8))
        self.start()

    def send(self, frame):
        """Hands a frame over; it waits until those before it are sent."""
        self.waiting.append(frame)
        self._load()

    def _load(self):
        if self.sending is not None or not self.waiting or self.state in (OFF, STOPPED):
            return
        self.sending = frame = self.waiting.popleft()
        identifier = frame.id << 3 if frame.extended else frame.id << 21
        count = 4 if frame.extended else 2
        head = [frame.dlc | frame.extended << 7 | frame.remote << 6, *identifier.to_bytes(4, "big")[:count]]
        for place, byte in enumerate([*head, *(b"" if frame.remote else frame.data[:8])]):
            self.write(BUFFER + place, byte)
        self.write(CMR, TR | (AT if self.one_shot else 0))

    def _take(self):
        """The first message in the FIFO, which is released then."""
        head = self.read(BUFFER)
        extended, remote, dlc = head >> 7, head >> 6 & 1, head & 0x0F
        count = 4 if extended else 2
        read = bytes(self.read(BUFFER + 1 + place) for place in range(count))
        identifier = int.from_bytes(read, "big") >> (3 if extended else 5)
        length = 0 if remote else min(dlc, 8)
        data = bytes(self.read(BUFFER + 1 + count + place) for place in range(length))
        self.write(CMR, RRB)
        self.told.received(Frame(identifier, bool(extended), bool(remote), dlc, data))

    def handle(self):
        """Does what the controller asks by its interrupt line, until it asks for nothing more."""
        while True:
            told = self.read(IR)
            if not told:
                return
            status = self.read(SR)
            if told & TI:
                self._sent(status)
            while status & RBS:
                self._take()
                status = self.read(SR) & ~BS | status & BS
            if told & (EI | DOI | EPI | ALI | BEI):
                self._error(told, status)
            self._load()

    def _sent(self, status):
        frame, self.sending = self.sending, None
        if frame is None:
            return
        if status & TCS:
            self.told.sent(frame)
        else:
            self.told.failed(frame)

    def _error(self, told, status):
        kind, data = 0, bytearray(8)
        counters = self.read(TXERR), self.read(RXERR)
        if told & DOI:
            kind, data[1] = CRTL, OVERFLOW
            self.write(CMR, CDO)
        if not status & BS:
            kind |= CNT
            data[6:8] = counters
        if told & BEI:
            capture = self.read(ECC)
            kind |= PROT | BUSERROR
            data[2] = (0x01, 0x02, 0x04, 0)[capture >> 6] | (0 if capture & 0x20 else PROT_TX)
            data[3] = capture & 0x1F
        if told & ALI:
            kind, data[0] = kind | LOSTARB, self.read(ALC) & 0x1F
        kind |= self._change(status, counters, data)
        self.told.error(kind, bytes(data))

    def _change(self, status, counters, data):
        """The state of the controller, by its counters. What is told of a new one: the class, and a bit in data[1]."""
        transmit, receive = map(state_of, counters)
        state = OFF if status & BS else max(transmit, receive)
        if state == self.state:
            return 0
        self.state = state
        if state == OFF:
            self.waiting.clear()
            self.sending = None
            return BUSOFF
        if transmit >= receive:
            data[1] |= TX_STATES[transmit]
        if receive >= transmit:
            data[1] |= RX_STATES[receive]
        return CRTL
