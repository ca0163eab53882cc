"""Random talks with `sja live`: what a session is told next, by what it answered. The same seed gives the same talk where
the answers are the same."""

import random

MOD, CMR, IR, IER, BUFFER = 0, 1, 3, 4, 16
STEPS = ("start", "stop", "window", "release", "sent")
MOST_BITS = {1: 200_000, 2: 200_000, 3: 2_000_000}


def message(dice):
    """A message of up to eight bytes, in the digits of a plan."""
    extended, remote, size = dice.random() < 0.3, dice.random() < 0.2, dice.randrange(9)
    first = 0x80 * extended + 0x40 * remote + size
    identifier = dice.randbytes(4 if extended else 2)
    identifier = identifier[:-1] + bytes([identifier[-1] & (0xF8 if extended else 0xE0)])
    return (bytes([first]) + identifier + (b"" if remote else dice.randbytes(size))).hex()


class Talk:
    """The lines of a talk, one after another."""

    def __init__(self, seed):
        self.dice = random.Random(seed)
        self.version = self.dice.randrange(1, 4)
        self.nodes = self.dice.choice((1, 2, 2, 2, 3, 3, 4, 8))
        self.bits = self.dice.choice((300, 1000, 3000, 20_000, MOST_BITS[self.version]))
        self.left = self.dice.randrange(5, 90)
        self.due = []
        for node in range(self.nodes):
            if self.dice.random() < 0.9:
                self.due += self.opening(node)

    def first(self):
        return f"live {self.version} {self.bits} {self.nodes}"

    def opening(self, node):
        """A driver enables some interrupts and leaves reset mode, by accesses or by a step."""
        lines = [f"write {node} {IER} {self.dice.randrange(256):02x}"] if self.dice.random() < 0.7 else []
        return lines + [f"write {node} {MOD} 00" if self.dice.random() < 0.5 else f"step {node} start"]

    def sending(self, node):
        """A driver fills its buffer, by accesses or by a step, and asks for its transmission."""
        digits = message(self.dice)
        if self.dice.random() < 0.5:
            return [f"step {node} load {digits}", f"step {node} command {self.dice.choice(('01', '01', '03', '10'))}"]
        places = enumerate(bytes.fromhex(digits))
        return [f"write {node} {BUFFER + place} {byte:02x}" for place, byte in places] + [f"write {node} {CMR} 01"]

    def handling(self, lines):
        """Each driver whose interrupt line is active reads IR, and sometimes releases a message."""
        told = []
        for node in range(self.nodes):
            if lines >> node & 1:
                told.append(f"read {node} {IR}")
                if self.dice.random() < 0.8:
                    told.append(f"write {node} {CMR} 04")
        return told

    def some(self):
        """Some line or lines."""
        dice = self.dice
        node, kind = dice.randrange(self.nodes), dice.random()
        if kind < 0.22:
            return self.sending(node)
        if kind < 0.50:
            return [f"run {dice.choice((1, 2, 7, 30, 60, 130, 500, 3000))}"]
        if kind < 0.56:
            return ["rest"]
        if kind < 0.62:
            return [f"strike {node} {dice.randrange(min(self.bits, 2000))}"]
        if kind < 0.72:
            return [f"read {node} {dice.randrange(dice.choice((32, 256)))}"]
        if kind < 0.82:
            return [f"write {node} {dice.randrange(dice.choice((32, 256)))} {dice.randrange(256):02x}"]
        if kind < 0.94:
            steps = STEPS + (f"await {dice.randrange(1, 4)}", f"read {dice.randrange(32)}", "interrupt",
                             f"write {dice.randrange(32)} {dice.randrange(256):02x}", f"at {dice.randrange(2000)}")
            return [f"step {node} {dice.choice(steps)}"]
        return [dice.choice(("line", "bits", f"answer {node}", "run", "step 9 start", "strike 0 x"))]

    def next(self, answer):
        """The next line, behind this answer; None where the talk is to end."""
        words = answer.split()
        if "line" in words and self.dice.random() < 0.8:
            self.due = self.handling(int(words[-1], 16)) + self.due
        if not self.due:
            if self.left == 0:
                return None
            self.left -= 1
            self.due = self.some()
        return self.due.pop(0)
