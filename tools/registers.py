"""The register map of version 3, as the table in docs/model/REGISTERS.md has it: what each address reads as, by what its
driver has read and written before, and by the bits that ran since on a bus where nobody sends.

What the bus decides is unknown (None) once bits ran on which somebody may send, until a read tells it; then it stays until
more of them run. That is of SR RBS, DOS, TBS, TCS, RS, TS, ES and BS; of IR what is enabled and wasn't pending; ALC, ECC,
RXERR, TXERR, RMC, the receive buffer, and RBSA from a release on whose length isn't known. Whether bus-off came is unknown
too: then the node is one of two, and what it answers tells which. What stands in the transmit buffer can't be read."""

from copy import copy

STARTS = 64  # that a node has
INTEGRATION = 11  # recessive bits
RECOVERY = 128 * 11
MODE, COMMAND, STATUS, INTERRUPT, ENABLE, ALC, ECC, LIMIT, RXERR, TXERR = 0, 1, 2, 3, 4, 11, 12, 13, 14, 15
COUNT, START, DIVIDER = 29, 30, 31
TI, EI, DOI, EPI, ALI, BEI = 1, 2, 3, 5, 6, 7
KEPT = (6, 7, 8)  # BTR0, BTR1, OCR


def either(one, other):
    return True if one or other else None if one is None or other is None else False


def differ(one, other):
    return None if one is None or other is None else one != other


def at_least(limit, *numbers):
    """Whether one of the numbers is at least the limit."""
    found = False
    for it in numbers:
        found = either(found, None if it is None else it >= limit)
    return found


def bits_of(value):
    return [bool(value >> k & 1) for k in range(8)]


def byte(value, most=0xFF):
    """The bits of a register, of which those in `most` are unknown where the value is."""
    return [None if value is None and most >> k & 1 else bool((value or 0) >> k & 1) for k in range(8)]


class Registers:
    """What may stand in the registers of a node."""

    def __init__(self):
        self.reset, self.mode = True, 0  # RM; and LOM, STM and AFM at their places
        self.enabled, self.pending = [False] * 8, [False] * 8  # by bit, RI apart
        self.kept = dict.fromkeys(KEPT, 0) | {START: 0, DIVIDER: 0x80}
        self.filter = [0] * 4 + [0xFF] * 4
        self.alc = self.ecc = self.txerr = self.rxerr = 0
        self.limit = 96
        self.written = None  # what was written to RXERR in reset mode
        self.forced = False  # TXERR was written 255
        self.off = False  # bus-off stands
        self.shown = (False, False, False)  # ES, BS and error passive, as SR and the interrupts have them
        self.some = self.overrun = False  # RBS, DOS
        self.released = self.complete = True  # TBS, TCS
        self.receiving = self.sending = True  # RS, TS
        self.unread, self.window = 0, [0] * 13
        self.starts = self.waited = self.waits = 0
        self.listens = False  # LOM stood then
        self.renews = False  # since the last bit it was left without LOM, and no counter was written then
        self.counts = True  # the counters are the node's: none was written in reset mode

    def reads(self, address):
        """The bits that an address reads as."""
        if address == MODE:
            return byte(self.mode | self.reset)
        if address == STATUS:
            status = [self.some, self.overrun, self.released, self.complete, self.receiving, self.sending]
            return status + list(self.shown[:2])
        if address == INTERRUPT:
            return [self.some and self.enabled[0] if self.enabled[0] else False] + self.pending[1:]
        if address == ENABLE:
            return self.enabled
        if address in (ALC, ECC, LIMIT, RXERR, TXERR):
            return byte(*{
                ALC: (self.alc, 0x1F), ECC: (self.ecc,), LIMIT: (self.limit,), RXERR: (self.rxerr,), TXERR: (self.txerr,),
            }[address])
        if address in self.kept:
            return byte(self.kept[address], 0x3F)
        if 16 <= address < COUNT:
            return byte((self.filter + [0] * 5 if self.reset else self.window)[address - 16])
        return byte(self.unread, 0x1F) if address == COUNT else byte(0)

    def was_read(self, address, value):
        """What was unknown is known from the value that was read; and what the read does."""
        bits = bits_of(value)
        if address == STATUS:
            self.some, self.overrun, self.released, self.complete, self.receiving, self.sending = bits[:6]
            self.shown = (*bits[6:], self.shown[2])
            self.off = self.off if self.reset else bits[7]
        elif address == INTERRUPT:
            self.some = bits[0] if self.enabled[0] else self.some
            self.pending = [False] * 8
        elif address == ALC:
            self.alc = value
        elif address == ECC:
            self.ecc = value
        elif address == RXERR:
            self.rxerr = value
        elif address == TXERR:
            self.txerr = value
        elif address == START:
            self.kept[START] = value
        elif 16 <= address < COUNT and not self.reset:
            self.window[address - 16] = value
        elif address == COUNT:
            self.unread, self.some = value, value > 0

    def write(self, address, value):
        if address == MODE and value & 1:
            if self.reset:
                self.mode = value & 0x0E
            else:
                self.enter()
        elif address == MODE and self.reset:
            self.leave(value)
        elif address == COMMAND and not self.reset:
            self.command(value)
        elif address == ENABLE:
            self.enabled = bits_of(value)
        elif address == DIVIDER:
            kept = 0x6F if self.reset else 0x07  # bit 7 is 1, bit 4 is 0
            self.kept[DIVIDER] = self.kept[DIVIDER] & ~kept | value & kept
        elif self.reset:
            self.write_in_reset(address, value)

    def write_in_reset(self, address, value):
        if address in KEPT:
            self.kept[address] = value
        elif address == START:
            self.kept[START] = value & 0x3F
        elif address == LIMIT:
            self.limit = value
        elif address == RXERR:
            self.written, self.counts = value, False
            self.rxerr = self.rxerr if self.off else None if self.off is None else value
        elif address == TXERR:
            self.counts = False
            self.txerr, self.forced = value, value == 255
            if not self.forced:
                self.off = False
                self.rxerr = self.rxerr if self.written is None else self.written
        elif 16 <= address < 24:
            self.filter[address - 16] = value

    def enter(self):
        """Reset mode is entered, and of IR EI alone stays."""
        self.reset = True
        self.forced, self.written = False, None
        self.pending = [it if k == EI else False for k, it in enumerate(self.pending)]
        self.overrun, self.released, self.receiving, self.sending = False, True, True, True
        self.some, self.unread, self.window = False, 0, [0] * 13

    def leave(self, value):
        """Reset mode is left, or a bus-off comes that was asked for; EWLR, RXERR and TXERR show now."""
        self.mode = value & 0x0E
        if self.forced:
            self.txerr, self.rxerr, self.written, self.off, self.forced = 127, 0, 0, True, False
        elif self.starts == STARTS:
            return
        else:
            self.reset, self.starts, self.waited, self.written = False, self.starts + 1, 0, None
            self.waits = RECOVERY if self.off else INTEGRATION
            self.listens = bool(self.mode & 0x02)
            self.renews = not self.listens or self.renews and self.counts
            self.counts = True
        self.show()

    def show(self):
        """EI comes where ES or BS changes, and EPI where error passive begins or ends, but for by going bus-off."""
        es, bs, passive = self.shown
        limit = at_least(self.limit, self.txerr, self.rxerr)
        self.shown = (either(self.off, limit), self.off, at_least(128, self.txerr, self.rxerr))
        self.cause(EI, either(differ(es, self.shown[0]), differ(bs, self.shown[1])))
        came = differ(passive, self.shown[2])
        if bs is None or self.off is None:
            came = None if came else came
        if bs is not False or self.off is not True:
            self.cause(EPI, came)

    def cause(self, interrupt, came):
        if self.enabled[interrupt]:
            self.pending[interrupt] = either(self.pending[interrupt], came)

    def command(self, value):
        """TR or SRR, RRB and CDO; an abort shows nothing before the next bit."""
        if value & 0x11 and not self.mode & 0x02:
            self.released = self.complete = False
        if value & 0x08:
            self.overrun = False
        if value & 0x04 and self.some is not False:
            self.release()

    def release(self):
        """The first message is released, and RBSA moves on by its length."""
        first = self.window[0] if self.some else None
        if first is None:
            self.kept[START] = None
        elif self.kept[START] is not None:
            data = 0 if first & 0x40 else min(first & 0x0F, 8)
            self.kept[START] = (self.kept[START] + (5 if first & 0x80 else 3) + data) % 64
        self.unread = self.unread - 1 if self.unread else None
        self.some = None if self.unread is None else self.unread > 0
        self.window = [0 if self.some is False else None] * 13

    def idle(self, bits):
        """So many bits ran on a bus where nobody sends: after bus-off TXERR is counted down, but in listen only mode."""
        if self.reset:
            return self.first_bit()
        if self.off and self.renews:
            self.txerr = 127
        self.renews = False
        self.waited += bits
        if self.off and not self.listens:
            self.txerr = max(0, 127 - self.waited // INTEGRATION)
            if self.waited >= RECOVERY:
                self.off, self.txerr, self.rxerr = False, 0, 0
        if self.waited >= self.waits:
            self.receiving = self.sending = False
        self.show()

    def first_bit(self):
        """A bit ran in reset mode: the count of 128 began anew, where reset mode was left and entered before it."""
        if self.renews and self.off is not False and self.counts:
            self.txerr = 127 if self.off else None
        self.renews = False

    def busy(self):
        """Bits ran on a bus where somebody may send."""
        self.renews = False
        self.complete = self.complete if self.released else None
        self.released = self.released or None
        self.overrun = self.overrun or None
        self.put()
        self.alc = self.ecc = self.txerr = self.rxerr = self.off = self.receiving = self.sending = None
        self.shown = (None, None, None)
        for interrupt in (TI, EI, DOI, EPI, ALI, BEI):
            self.cause(interrupt, None)

    def put(self):
        """A message may have come, of which the port isn't told."""
        self.window = self.window if self.some else [None] * 13
        self.some, self.unread = self.some or None, None

    def go_off(self):
        """The node went bus-off in these bits: reset mode is entered, with EI."""
        self.enter()
        self.txerr, self.rxerr, self.off, self.shown = 127, 0, True, (True, True, False)
        self.alc = self.ecc = None
        self.cause(EI, True)


def copied(it):
    """A copy that may change by itself."""
    other = copy(it)
    for name in ("enabled", "pending", "kept", "filter", "window"):
        setattr(other, name, copy(getattr(it, name)))
    return other


def apart(found):
    """The same without those that are there twice."""
    return list({repr(vars(it)): it for it in found}.values())


def after_busy(found):
    """What may stand in a node's registers after bits on which somebody may send."""
    after = []
    for it in found:
        if it.reset:
            it.first_bit()
        else:
            gone = copied(it)
            gone.busy()
            gone.go_off()
            after.append(gone)
            it.busy()
        after.append(it)
    return apart(after)


def without_bits(found):
    """What may stand there before an access of a thread, where its port was told no bit since the access before."""
    for it in found:
        it.reset or it.put()
    return apart(found)


def at_any_time(found):
    """The same where bits were told: in reset mode counters and BS may be told late."""
    after = after_busy(found)
    for it in after:
        if it.reset and it.counts:
            it.txerr = it.rxerr = it.off = None
    return apart(after)
