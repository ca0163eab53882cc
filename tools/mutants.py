"""Plans made from the examples by mutation, for ./checks/hostile. The same seed and number give the same plan."""

import glob
import random
import re

# whole numbers at the edges of what a plan takes, and what TOML writes for a value of another kind
NUMBERS = """0 1 2 3 7 8 9 10 11 12 21 22 59 60 64 127 128 199 255 256 1000 1001 9999 10000 10001 65535 65536 99999
100000 100001 199999 200000 200001 1999999 2000000 2000001 9999999 10000000 2147483647 2147483648 4294967295
4294967296 9223372036854775807 9223372036854775808 18446744073709551616 -0 -1 -200000 +1 +200 0x10 0xffffffffffffffff
0o7 0b1 1_000 1__0 _1 00 021 1.0 1e3 1e400 -inf inf nan true false 1979-05-27 07:32:00 1979-05-27T07:32:00Z 1e 0x 1.
.5""".split()
VALUES = ["''", '""', "[]", "{}", "[[]]", "[{}]", "{ steps = [] }", "['start']", "[1]", "[true]", "[['start']]", "'1'"]
KEYS = ["version", "bits", "node", "turns", "faults", "strikes", "steps", "Version", "nodes", "", '""', "'bits'", '"node"']
KEYS += ["node.steps", "node.0.steps", "a.b.c", "bits.x", "\u00e9", '"\\u0062its"', "bi ts", "-", "1", "_"]
MARKS = ["[", "]", "[[", "]]", "{", "}", "=", ",", '"', "'", '"""', "'''", "#", "\n", "\r\n", "\r", "\t", "\\", "\\u0000"]
MARKS += ["\\U0010ffff", "\\ud800", "\\x41", "\\e", "\0", "\x7f", "\ufeff", "\u00a0", "\u2028", "\U0001f600", " ", ".", "-"]
BYTES = [b"\xff", b"\xfe", b"\xc0\x80", b"\xed\xa0\x80", b"\xf4\x90\x80\x80", b"\x80", b"\xe2\x82", b"\xef\xbb\xbf"]
MESSAGES = ["000000", "002440", "002460", "0224601122", "0fffe00102030405060708", "080000ffffffffffffffff"]
MESSAGES += ["8024600000", "c3fffffffc", "88000000080102030405060708", "402470", "40247f", "0024", "C3FFFFFFFC", "00000"]
PLAIN = ["start", "stop", "window", "release", "sent"]
READ = [0, 2, 3, 4, 11, 12, 13, 14, 15, 16, 20, 28, 29, 30]
WRITTEN = [0, 0, 1, 1, 4, 13, 14, 15, 16, 17, 18, 20, 21, 28, 31]
VALUES_WRITTEN = ["00", "00", "01", "02", "04", "08", "09", "10", "2f", "60", "7f", "80", "ff", "ff"]
NAMES = ["MOD", "CMR", "SR", "IR", "IER", "BTR0", "OCR", "ALC", "ecc", "EWLR", "RXERR", "TXERR", "RMC", "RBSA", "CDR", "ACR0"]
NAMES += ["AMR3", "TX0", "TX12", "RX0", "RX12", "TX13", "RX", "ACR4", "0x0c", "0xff", "0x4", "0x100", "0x"]
BITS = ["RM", "STM|AFM", "TR", "TR|AT", "tr|at|rrb", "SRR", "RIE|TIE|EIE", "BEIE", "CD.0|CBP", "TR|", "|", "0x1d", "0x1", "0x"]
NOTED = ["123#1122", "123#", "12345678#R4", "7ff#r3", "1FFFFFFF#0102030405060708_F", "123#R8_e", "800#", "12#11", "123#1", "#"]
RAW_LINE = "version = 3\n"
TEXT = re.compile(r"\"[^\"\n]*\"|'[^'\n]*'")
NUMBER = re.compile(r"\d+")
KEY = re.compile(r"^[ \t]*([a-z]+)[ \t]*=", re.M)
MOST = 70_000  # bytes of a plan; one of more than 65,536 is too long, but where it begins with RAW_LINE
MOST_RAW = 16_777_300  # and then one of more than 16,777,216 is


class Mutants:
    """The plans of a seed."""

    def __init__(self, seed, folder):
        self.seed = seed
        self.examples = []
        for path in sorted(glob.glob(f"{folder}/*/*.toml")):
            with open(path, encoding="utf-8") as file:
                self.examples.append(file.read())

    def plan(self, number):
        """The plan of this number, as bytes."""
        rng = random.Random(f"{self.seed} {number}")
        kinds = [self.example, made, restarted, accessed, huge, huge_raw, nested, self.spliced]
        kind = rng.choices(kinds, [320, 400, 60, 100, 90, 5, 60, 65])[0]
        text = kind(rng)
        most = max(MOST, len(text)) if text.startswith(RAW_LINE) else MOST
        for _ in range(rng.choice([0, 0, 0, 0, 1, 2] if kind in (made, restarted, accessed) else [0, 1, 1, 1, 2, 2, 3, 5])):
            text = rng.choice(MUTATIONS)(rng, text)[:most]
        data = text.encode("utf-8", "surrogatepass")
        if rng.random() < 0.08:
            data = cut(rng, data)
        if rng.random() < 0.06:
            data = spoiled(rng, data)
        return data

    def example(self, rng):
        """An example, mostly without its comments."""
        text = rng.choice(self.examples)
        return text if rng.random() < 0.2 else re.sub(r"^#.*\n", "", text, flags=re.M)

    def spliced(self, rng):
        """The beginning of one example and the end of another."""
        first, second = self.example(rng), self.example(rng)
        return first[: rng.randrange(len(first))] + second[rng.randrange(len(second)) :]


def step(rng, version):
    """A step, mostly one that a plan of this version may have."""
    if version == 3 and rng.random() < 0.4:
        return access(rng)
    kind = rng.randrange(14)
    if kind < 5:
        return PLAIN[kind]
    if kind < 8:
        return f"load {rng.choice(MESSAGES)}"
    if kind < 11:
        return f"command {rng.choice(['01', '01', '01', '02', '03', '08', '0c', '10', '11', '12', '1f', 'ff', '4', '00'])}"
    if kind == 11:
        return f"read {rng.choice(list(range(32)) + [255, 256])}"
    if kind == 12:
        return f"write {rng.randrange(32)} {rng.randrange(256):02x}"
    return f"await {rng.choice([0, 1, 2, 3, 21, 22])}"


def access(rng):
    """What a driver does that knows addresses and bytes alone: it reads, writes, and waits for its interrupt line, or
    for a bit."""
    kind = rng.randrange(8)
    if kind == 0:
        return rng.choice(["interrupt", f"at {rng.choice([0, 1, 30, 300, 5000, 2000000, 2000001])}"])
    if kind < 4:
        return f"read {rng.choice(NAMES if rng.random() < 0.4 else READ)}"
    if kind == 4:
        return f"load {rng.choice(NOTED)}"
    if kind == 5:
        return f"write {rng.choice(NAMES)} {rng.choice(BITS)}"
    return f"write {rng.choice(WRITTEN)} {rng.choice(VALUES_WRITTEN)}"


def turn(rng, nodes):
    """A turn of a run of so many nodes."""
    kind = rng.randrange(6)
    if kind == 0:
        return f"bus {rng.choice([1, 11, 50, 64, 200, 1500, 20000, 9999999])}"
    if kind == 1:
        return "rest"
    return f"node {rng.randrange(nodes)} {rng.choice([0, 1, 1, 2, 3, 3, 5, 1000])}"


def strike(rng, nodes):
    """A strike of one of so many nodes."""
    if rng.random() < 0.7:
        return f"{rng.randrange(nodes)} {rng.randrange(400)}"
    return f"{rng.randrange(nodes)} {rng.randrange(400)} {rng.choice([1, 18, 26, 53, 1000])} {rng.choice([1, 2, 16, 40, 300])}"


def placed(rng, nodes):
    """A strike of one of so many nodes at a place of a frame."""
    place = rng.choice(["SOF", "ID.28", "RTR", "DLC.0", "data 1.7", "data 8.0", "CRC.14", "CRC delimiter", "ACK", "EOF.7", "stuff.1", "stuff.9"])
    if rng.random() < 0.7:
        return f"{rng.randrange(nodes)} frame {rng.choice([1, 1, 2, 3, 40])} {place}"
    return f"{rng.randrange(nodes)} {place} x{rng.choice([1, 2, 9])}"


def strikes(rng, nodes, version, counts):
    """Strikes of so many nodes, of which in version 3 some may be at places."""
    found = [strike(rng, nodes) for _ in range(rng.choice(counts))]
    if version == 3 and rng.random() < 0.2:
        found += [placed(rng, nodes) for _ in range(rng.choice([1, 1, 3]))]
    rng.shuffle(found)
    return found


def listed(texts):
    """A list of texts."""
    return "[" + ", ".join(f'"{it}"' for it in texts) + "]"


def written(rng, version, bits, turns, faults, scripts):
    """A document of these parts."""
    key = rng.choice(["faults", "strikes"]) if version == 3 else "faults"
    lines = [f"version = {version}", f"bits = {bits}", f"turns = {listed(turns)}", f"{key} = {listed(faults)}"]
    rng.shuffle(lines)
    return "\n".join(lines + [f"[[node]]\nsteps = {listed(it)}" for it in scripts]) + "\n"


def made(rng):
    """A plan, mostly one that is run."""
    version = rng.choice([1, 1, 2, 3, 3])
    nodes = rng.choice([1, 2, 2, 2, 3, 3, 4, 8])
    most = rng.choice([3, 6, 12, 40])
    scripts = [script(rng, version, rng.randrange(most)) for _ in range(nodes)]
    turns = [turn(rng, nodes) for _ in range(rng.choice([2, 5, 10, 30]))]
    if rng.random() < 0.5:
        turns = [f"node {it} {rng.choice([1, 3, 4])}" for it in range(nodes)] + turns
    faults = strikes(rng, nodes, version, [0, 0, 1, 2, 8])
    bits = rng.choice([1, 60, 64, 200, 200, 1000, 2000, 5000, 30000, 200000])
    return written(rng, version, bits, turns, faults, scripts)


def script(rng, version, count):
    """So many steps of a node, mostly with a start before them; where one doesn't fit it's mostly left out."""
    steps = ["start"] * (rng.random() < 0.8) + [step(rng, version) for _ in range(count)]
    return [it for it in steps if fits(it)] if rng.random() < 0.8 else steps


def restarted(rng):
    """A plan with a node that is started about as often as it may be, and asks its controller for something each time,
    beside others that listen or do so too; in version 3 a bus-off may come in the place of a start."""
    version = rng.choice([1, 2, 3, 3, 3])
    nodes = rng.choice([1, 2, 2, 3, 8])
    times = rng.choice([7, 8, 9] if version < 3 else [8, 9, 33, 63, 64, 65, 70])
    waits = rng.random() < 0.4
    scripts = [starts(rng, version, times, waits)]
    for _ in range(1, nodes):
        others = starts(rng, version, times, waits) if rng.random() < 0.5 else ["start"] + ["release", "read 3"] * 20
        scripts.append(others)
    turns = []
    for _ in range(times):
        turns += [f"node {it} {rng.choice([2, 5, 8, 8])}" for it in range(nodes)]
        turns.append(rng.choice(["rest", "bus 1", "bus 11", "bus 30", "bus 80", "bus 200", "bus 1500"]))
    turns += [f"node {it} 1000" for it in range(nodes)]
    faults = [strike(rng, nodes) for _ in range(rng.choice([0, 0, 1, 8]))]
    return written(rng, version, rng.choice([200, 5000, 30000, 200000]), turns, faults, scripts)


def starts(rng, version, times, waits):
    """So many starts, each with something to do behind it and mostly with a stop; in version 3 it may wait there."""
    steps = []
    for _ in range(times):
        if version == 3 and rng.random() < 0.1:
            steps += ["write 15 ff", "write 0 00"]
        steps.append("start")
        if rng.random() < 0.6:
            steps += [f"load {rng.choice(MESSAGES[:9])}", f"command {rng.choice(['01', '03', '10', '12'])}"]
        if version == 3 and rng.random() < 0.5:
            steps += ["write 4 ff", rng.choice(["interrupt", "sent"]) if waits else "read 3"]
        steps += ["release"] * rng.choice([0, 0, 1, 3])
        steps += ["stop"] * (rng.random() < 0.97)
    return steps


def accessed(rng):
    """A plan of version 3 whose drivers read and write any address, and any byte, in either mode."""
    nodes = rng.choice([1, 2, 2, 3, 8])
    most = rng.choice([10, 40, 40, 200, 600])
    scripts = [accesses(rng, rng.randrange(most)) for _ in range(nodes)]
    turns = []
    for _ in range(rng.choice([2, 10, 40])):
        node = rng.randrange(nodes)
        turns.append(rng.choice([f"node {node} {rng.choice([1, 3, 10, 50])}", f"node {node}"]))
        turns.append(rng.choice(["rest", "bus 1", "bus 11", "bus 60", "bus 300", f"irq {node} {rng.choice([1, 60, 300])}", "go"]))
    turns += [f"node {it} 1000" for it in range(nodes)]
    faults = strikes(rng, nodes, 3, [0, 0, 1, 2, 8])
    return written(rng, 3, rng.choice([60, 2000, 30000, 200000]), turns, faults, scripts)


def accesses(rng, count):
    """So many accesses of a node, mostly behind a write that leaves reset mode, and some of them of a frame that is sent."""
    steps = ["write 4 ff", "write 0 00"] * (rng.random() < 0.8)
    while len(steps) < count:
        if rng.random() < 0.1:
            steps += [f"write {16 + it} {rng.randrange(256):02x}" for it in range(rng.choice([3, 5, 13]))]
            steps.append(f"write 1 {rng.choice(['01', '02', '03', '04', '10', '12', '1f'])}")
        else:
            steps.append(access(rng))
    return steps


def access(rng):
    """A read or a write of any address, mostly of a register that is there, and of any byte."""
    address = rng.choice([rng.randrange(256), rng.randrange(32), rng.randrange(32), rng.choice([0, 1, 2, 3, 4])])
    if rng.random() < 0.5:
        return f"read {address}"
    return f"write {address} {rng.choice(VALUES_WRITTEN) if rng.random() < 0.5 else f'{rng.randrange(256):02x}'}"


def fits(text):
    """Whether a step of `step` is one that a plan may have."""
    wrong = ("0024", "00000", "4", "0", "22", "256", "0x", "0x100", "TX13", "RX", "ACR4", "TR|", "|", "800#", "12#11", "123#1", "#")
    return text.split()[-1] not in wrong or text.startswith("read 0")


def huge(rng):
    """A plan with lists of as many items as they may have, or one more, and with many nodes, keys or lines."""
    kind = rng.randrange(8)
    nodes = rng.choice([1, 2, 8])
    turns, faults, scripts = ["rest"], [], [["start"]] * nodes
    if kind == 0:
        scripts = [[rng.choice(["start", "stop", "sent", "read 2"])] * rng.choice([999, 1000, 1001])] * nodes
        turns = [f"node {it} 1000" for it in range(nodes)]
    elif kind == 1:
        turns = [rng.choice(["rest", "bus 1", "node 0 1"])] * rng.choice([4000, 9999, 10000, 10001])
    elif kind == 2:
        faults = [f"0 {it}" for it in range(rng.choice([999, 1000, 1001]))]
    elif kind == 3:
        scripts = [["start", "load 000000", "command 01"] * rng.choice([1, 40])] * rng.choice([8, 9, 500, 2000])
        turns = [f"node {it % 8} 3" for it in range(200)] + ["bus 200000"]
    elif kind == 4:
        scripts = [["start"] + ["load 080000ffffffffffffffff", "command 01", "sent"] * 300] * nodes
        turns = [f"node {it} 3" for it in range(nodes)] + ["bus 9999999"]
        faults = [f"{it % nodes} {it} 13 90" for it in range(11)]
    elif kind == 5:
        turns = ["node 0 " + "0" * rng.choice([5, 6, 60_000]) + "1", "bus " + "9" * rng.choice([7, 8, 60_000])]
    text = written(rng, 1, rng.choice([1, 2000, 200000]), turns, faults, scripts)
    if kind == 6:
        text = "".join(f"a{it}=1\n" for it in range(rng.choice([100, 1000, 7500]))) + text
    if kind == 7:
        text += "#" * rng.choice([0, 1000, 65_536 - len(text), 65_537 - len(text), 66_000])
    return text


def huge_raw(rng):
    """A plan of version 3 with lists of as many items as they may have there, or one more, or of as many bytes."""
    kind = rng.randrange(7)
    nodes = rng.choice([1, 1, 2, 8])
    bits, turns, faults, scripts = 2000, ["rest"], [], [["start"]] * nodes
    if kind == 0:
        word = rng.choice(["read 3", "write 4 ff", "write 1 01"])
        scripts = [["start"] + [word] * rng.choice([65_533, 65_534, 65_535])]
        turns = ["node 0 9999999", "rest"]
    elif kind == 1:
        turns = [rng.choice(["rest", "bus 1", "node 0 1"])] * rng.choice([199_999, 200_000, 200_001])
    elif kind == 2:
        faults = [f"0 {it}" for it in range(rng.choice([99_999, 100_000, 100_001]))]
    elif kind == 3:
        faults = [f"0 0 7 {rng.choice([99_999, 100_000, 100_001])}"]
        turns = [f"node {it} 1" for it in range(nodes)] + ["bus 9999999"]
    elif kind == 4:
        bits = rng.choice([1_999_999, 2_000_000, 2_000_001])
        scripts = [["start", "load 080000ffffffffffffffff"] + ["command 01", "sent", "window", "read 3"] * 1000] * nodes
        turns = [f"node {it % nodes} 3" for it in range(400)] + ["bus 9999999"]
    elif kind == 6:  # 100,000 accesses of two nodes
        bits, scripts = 20_000, [accesses(rng, 50_000) for _ in range(2)]
        turns = [it for _ in range(500) for it in ("node 0 100", "node 1 100", "bus 40")]
    parts = f"bits = {bits}\nturns = {listed(turns)}\nfaults = {listed(faults)}\n"
    text = RAW_LINE + parts + "".join(f"[[node]]\nsteps = {listed(it)}\n" for it in scripts)
    if kind == 5:
        text += "#" * rng.choice([65_537 - len(text), 1_000_000, 16_777_216 - len(text), 16_777_217 - len(text)])
    return text if rng.random() < 0.8 else "\n" + text


def nested(rng):
    """An example's keys beside a value that is nested deeply."""
    depth = rng.choice([5, 50, 79, 80, 81, 200, 3000, 20_000])
    kind = rng.randrange(6)
    if kind == 0:
        value = "turns = " + "[" * depth + "]" * rng.choice([depth, depth - 1, 0])
    elif kind == 1:
        value = "node = " + "{ a = " * min(depth, 9000) + "1" + " }" * rng.choice([min(depth, 9000), 0])
    elif kind == 2:
        value = ".".join(["a"] * depth) + " = 1"
    elif kind == 3:
        value = "[" + ".".join(["node"] * min(depth, 12_000)) + "]"
    elif kind == 4:
        value = "\n".join(f"[[{'.'.join(['a'] * it)}]]" for it in range(1, min(depth, 200)))
    else:
        value = "steps = " + "[{ steps = " * min(depth, 5000) + "[]" + " }]" * min(depth, 5000)
    parts = ["version = 1\nbits = 60", value, "[[node]]\nsteps = ['start']"]
    rng.shuffle(parts)
    return "\n".join(parts) + "\n"


def replaced(rng, text, pattern, choice):
    """A text with one of the places of a pattern replaced."""
    places = [it.span() for it in pattern.finditer(text)]
    if not places:
        return text
    begin, end = rng.choice(places)
    return text[:begin] + choice + text[end:]


def number_changed(rng, text):
    return replaced(rng, text, NUMBER, rng.choice(NUMBERS))


def text_changed(rng, text):
    quote = rng.choice("\"\"\"'")
    word = rng.choice([step(rng, rng.choice([1, 3])), turn(rng, 3), strike(rng, 3), "", " start", "start ", "bus  1", "jump", "x" * 3000])
    return replaced(rng, text, TEXT, quote + word + quote)


def value_changed(rng, text):
    return replaced(rng, text, TEXT, rng.choice(VALUES + NUMBERS))


def key_changed(rng, text):
    return replaced(rng, text, KEY, f"{rng.choice(KEYS)} =")


def line_again(rng, text):
    """A line, or a few, once more somewhere: a key or a table that stands twice."""
    lines = text.splitlines(keepends=True) or [""]
    begin = rng.randrange(len(lines))
    again = lines[begin : begin + rng.choice([1, 1, 2, 4])] * rng.choice([1, 1, 2, 9])
    place = rng.randrange(len(lines) + 1)
    return "".join(lines[:place] + again + lines[place:])


def line_gone(rng, text):
    lines = text.splitlines(keepends=True) or [""]
    del lines[rng.randrange(len(lines))]
    return "".join(lines)


def lines_mixed(rng, text):
    lines = text.splitlines(keepends=True)
    rng.shuffle(lines)
    return "".join(lines)


def mark_put(rng, text):
    place = rng.randrange(len(text) + 1)
    return text[:place] + rng.choice(MARKS) * rng.choice([1, 1, 1, 2, 40]) + text[place:]


def part_gone(rng, text):
    begin = rng.randrange(len(text) + 1)
    return text[:begin] + text[begin + rng.choice([1, 1, 2, 5, 20, 100]) :]


def part_again(rng, text):
    begin = rng.randrange(len(text) + 1)
    return text[:begin] + text[begin : begin + rng.choice([1, 5, 30, 200])] * rng.choice([2, 2, 3, 50]) + text[begin:]


def key_put(rng, text):
    value = rng.choice(VALUES + NUMBERS)
    return rng.choice([f"{rng.choice(KEYS)} = {value}\n{text}", f"{text}\n{rng.choice(KEYS)} = {value}\n"])


def endings_changed(rng, text):
    return text.replace("\n", rng.choice(["\r\n", "\r", "\n\n", " \n", "\t\n"]))


MUTATIONS = [number_changed, number_changed, number_changed, text_changed, text_changed, text_changed, value_changed]
MUTATIONS += [key_changed, line_again, line_again, line_gone, lines_mixed, mark_put, mark_put, part_gone, part_again]
MUTATIONS += [key_put, endings_changed]


def cut(rng, data):
    """Bytes cut off at the end, or at the front."""
    place = rng.randrange(len(data) + 1)
    return data[:place] if rng.random() < 0.8 else data[place:]


def spoiled(rng, data):
    """Bytes with some of them changed, or with some put in that are no UTF-8."""
    changed = bytearray(data)
    for _ in range(rng.choice([1, 1, 2, 8])):
        place = rng.randrange(len(changed) + 1)
        if rng.random() < 0.4:
            changed[place:place] = rng.choice(BYTES)
        elif place < len(changed):
            changed[place] = rng.randrange(256) if rng.random() < 0.5 else changed[place] ^ (1 << rng.randrange(8))
    return bytes(changed)
