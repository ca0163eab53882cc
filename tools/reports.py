"""Whether the report of a run in threads is one that the plan may have, whatever the schedule was. ./checks/soak says what is
checked."""

from collections import Counter

from plan_words import in_numbers

REQUEST = 0x01  # bits of the command register: transmission request, self reception request
SELF_REQUEST = 0x10
RELEASE = 0x04
RESET = 0x01  # RM, of the mode register

NUMBER = "number"
REGISTER = "register"
MESSAGE = "message"
MAY_ANSWER = {
    "start": {"ok"},
    "stop": {"ok"},
    "window": {"none", MESSAGE},
    "release": {NUMBER},
    "read": {REGISTER},
    "write": {"ok"},
    "load": {"ok"},
    "command": {"ok"},
    "await": {"ok"},
    "sent": {"ok"},
    "interrupt": {"ok"},
    "at": {"ok"},
}
REGISTER_FAULTS = {
    "NoRegister", "ReadOnly", "ResetOnly", "Locked", "UseTyped", "NotInVersion", "ActiveOnly", "ListenOnly",
}
MAY_REFUSE = {
    "start": {"NoActivationLeft", "WrongState"},
    "stop": {"WrongState"},
    "window": {"Stopped", "WrongState"},
    "release": {"Empty", "Stopped", "WrongState"},
    "read": REGISTER_FAULTS,
    "write": REGISTER_FAULTS,
    "load": REGISTER_FAULTS | {"WrongState"},
    "command": REGISTER_FAULTS | {"WrongState"},
    "await": {"Stopped", "Closed", "WrongState"},
    "sent": {"Closed", "WrongState"},
    "interrupt": {"Closed"},
    "at": {"Closed"},
}


class Wrong(Exception):
    """What is wrong with a report."""


def check(holds, text):
    if not holds:
        raise Wrong(text)


def number(text):
    check(text == "0" or (text.isdecimal() and text.isascii() and text[0] != "0"), f"{text!r} is no number")
    return int(text)


def message(words):
    """A message of these words, as bytes."""
    check(3 <= len(words) <= 13, f"{words} is no message")
    for word in words:
        check(len(word) == 2 and set(word) <= set("0123456789abcdef"), f"{word!r} is no byte")
    return bytes(int(word, 16) for word in words)


class Lines:
    """The lines of a report, one after the other, each as its words."""

    def __init__(self, text):
        check(text.endswith("\n"), "no line feed at the end")
        self.left = [line.split(" ") for line in text[:-1].split("\n")]

    def take(self, *shape):
        """The next line: words that stand as they are, and None for each number."""
        check(self.left, f"the report ends before {shape}")
        words = self.left.pop(0)
        check(len(words) == len(shape), f"{words} in the place of {shape}")
        for word, wanted in zip(words, shape):
            check(wanted is None or word == wanted, f"{words} in the place of {shape}")
        return [number(word) for word, wanted in zip(words, shape) if wanted is None]

    def next_is(self, word):
        return bool(self.left) and self.left[0][0] == word

    def words(self):
        check(self.left, "the report ends too early")
        return self.left.pop(0)


class Activation:
    def __init__(self):
        self.released = []
        self.unread = []
        self.lost = []
        self.told = []  # for each step that sees messages: the number released before, the step's name, its answer

    def stored(self):
        return self.released + self.unread


def check_answer(version, step, answer):
    """Whether a step may be answered so: in version 3 no read and no write is refused."""
    name = step[0]
    if answer[0] == "refused":
        check(version < 3 or name not in ("read", "write"), f"{step} is answered {answer}")
        check(len(answer) == 2 and answer[1] in MAY_REFUSE[name], f"{step} is answered {answer}")
        return
    may = MAY_ANSWER[name]
    if answer in (["ok"], ["none"]):
        check(answer[0] in may, f"{step} is answered {answer}")
    elif NUMBER in may:
        check(len(answer) == 1 and 3 <= number(answer[0]) <= 13, f"{step} is answered {answer}")
    elif REGISTER in may:
        check(len(answer) == 1 and len(answer[0]) == 2, f"{step} is answered {answer}")
        check(set(answer[0]) <= set("0123456789abcdef"), f"{step} is answered {answer}")
    else:
        check(MESSAGE in may, f"{step} is answered {answer}")
        message(answer)


def sent(buffer):
    """The message of the frame in a transmit buffer, whose unused bits may be anything."""
    extended, remote = buffer[0] & 0x80, buffer[0] & 0x40
    end, kept, mark = (5, 0xF8, 0x04) if extended else (3, 0xE0, 0x10)
    last = buffer[end - 1] & kept | (mark if remote else 0)
    data = b"" if remote else buffer[end : end + min(buffer[0] & 0x0F, 8)]
    return bytes([buffer[0] & 0xCF, *buffer[1 : end - 1], last]) + bytes(data)


def most_activations(version):
    """How many activations a node of this version has at most."""
    return 8 if version < 3 else 64


def depends(version, step, active, before):
    """Whether it isn't in the answer what a step did: in version 3 a write of MOD or CMR, or of the transmit buffer. Where
    the step before loaded that buffer, a request is taken; and abort and CDO are neither here nor there."""
    if version < 3 or step[0] != "write":
        return False
    at, byte = int(step[1]), int(step[2], 16)
    if at == 1 and active and not byte & RELEASE:
        return bool(byte & (REQUEST | SELF_REQUEST)) and before != "load"
    return at in (0, 1) and (at == 1 or active or byte & RESET == 0) or active and 16 <= at <= 28


def asks(step):
    """Whether a step asks to send."""
    return (step[0] == "command" or step[:2] == ["write", "1"]) and int(step[-1], 16) & (REQUEST | SELF_REQUEST)


def walk(version, steps, answers):
    """The activations of a driver, with what its steps were told; and each message that it asked to send, and whether
    with self reception. None where the answers don't say what was done."""
    for step, answer in zip(steps, answers):
        check_answer(version, step, answer)
    activations = []
    active = False
    released = 0
    asked = []
    buffer = bytearray(13)
    before = None
    for step, answer in zip(steps, answers):
        if depends(version, step, active, before):
            return None
        name = step[0]
        before = name if answer == ["ok"] else None
        done = answer[0] != "refused"
        if answer == ["refused", "WrongState"]:
            check(active == (name == "start"), f"{step} is answered {answer}")
        elif name == "start":
            check(not active, "a start in an activation")
            check(done == (len(activations) < most_activations(version)), f"activation {len(activations) + 1}: {answer}")
            active = done
            if done:
                activations.append(Activation())
                released = 0
        elif name not in ("read", "write", "interrupt", "at"):
            check(active, f"{step} in reset is answered {answer}")
        if not done:
            continue
        if name == "stop":
            active = False
        elif name in ("window", "release", "await"):
            activations[-1].told.append((released, name, int(step[1]) if name == "await" else answer))
            released += name == "release"
        elif name == "load":
            buffer = bytearray(bytes.fromhex(step[1]).ljust(13, b"\0"))
        elif name == "write" and active and 16 <= int(step[1]) <= 28:
            buffer[int(step[1]) - 16] = int(step[2], 16)
        elif asks(step):
            asked.append((sent(buffer), bool(int(step[-1], 16) & SELF_REQUEST)))
    return activations, asked


def read_activation(lines, count, activation):
    stored, overrun, free = lines.take("activation", str(count), "stored", None, "overrun", None, "free", None)
    for kind, found in (
        ("released", activation.released), ("unread", activation.unread), ("overrun", activation.lost),
    ):
        while lines.next_is(kind):
            found.append(message(lines.words()[1:]))
    check(stored == len(activation.stored()), f"stored {stored}, and {len(activation.stored())} are there")
    check(overrun == len(activation.lost), f"overrun {overrun}, and {len(activation.lost)} are told")
    check(free == 64 - sum(map(len, activation.unread)), f"free {free} doesn't add up")
    check(free >= 0, f"free {free}")


def check_told(activation):
    """What the driver was told of its messages is what they are, in order."""
    stored = activation.stored()
    count = 0
    for before, name, answer in activation.told:
        if name == "await":
            check(len(stored) >= before + answer, f"await {answer} passed with {len(stored) - before} there")
        elif answer == ["none"]:
            pass
        else:
            check(before < len(stored), f"{name} is answered {answer}, and there is none")
            first = stored[before]
            told = message(answer) if name == "window" else number(answer[0])
            check(told == (first if name == "window" else len(first)), f"{name} is answered {answer} of {first.hex()}")
        count += name == "release"
    check(count == len(activation.released), f"{count} releases, {len(activation.released)} released")


def read_activations(lines, version, walked):
    """The activations of a node, beside what its steps were told, where that is known."""
    count = 0
    for activation in walked[0] if walked else (Activation() for _ in range(most_activations(version))):
        if walked or lines.next_is("activation"):
            count += 1
            read_activation(lines, count, activation)
            if walked:
                check_told(activation)


def check_senders(node, activation, asked, struck):
    """Each message is one that a driver asked to send, and those of one sender come in its order."""
    senders = [[m for m, itself in sent if itself or k != node] for k, sent in enumerate(asked)]
    asked_by = Counter(m for sent in senders for m in set(sent))
    stored = activation.stored()
    for found in stored + activation.lost:
        check(asked_by[found] > 0, f"{found.hex()} was sent by no driver")
    for sent in senders:
        once = [m for m in sent if sent.count(m) == 1 and asked_by[m] == 1]
        places = [once.index(m) for m in stored if m in once]
        check(places == sorted(places), "the messages of a sender aren't in its order")
        check(struck or len(places) == len(set(places)), "a message came twice though no bit is struck")


def wanted(plan, text):
    """The report in threads of a plan that has the line `# No race.`, by its report in one thread; of others None."""
    if b"\n# No race.\n" not in plan:
        return None
    check(" end turns\n" in text, "the turns of a plan without a race are all done")
    return text.replace(" end turns\n", " end rest\n", 1)


def judge(plan, text):
    """Raises what is wrong with the report of a run in threads."""
    lines = Lines(text)
    nodes = [[in_numbers(step) for step in node["steps"]] for node in plan["node"]]
    check(lines.left[0][-1] in ("rest", "bits"), f"the run ends with {lines.left[0][-1]!r}")
    end = lines.left[0][-1]
    (bits,) = lines.take("sja", "version", str(plan["version"]), "bits", None, "end", end)
    check(bits == plan["bits"] if end == "bits" else bits <= plan["bits"], f"{bits} bits, and the end is {end}")
    walks = []
    for k, steps in enumerate(nodes):
        _, _, done = lines.take("node", str(k), "tec", None, "rec", None, "steps", None)
        check(done <= len(steps), f"node {k} has done {done} steps of {len(steps)}")
        answers = []
        for i in range(done):
            words = lines.words()
            check(words[:2] == ["step", str(i + 1)], f"{words} in the place of step {i + 1}")
            answers.append(words[2:])
        walks.append(walk(plan["version"], steps[:done], answers))
        read_activations(lines, plan["version"], walks[k])
    check(not lines.left, f"more lines: {lines.left[:1]}")
    if None in walks:  # what they sent isn't known
        return
    for k, (activations, _) in enumerate(walks):
        for activation in activations:
            check_senders(k, activation, [asked for _, asked in walks], bool(plan.get("faults") or plan.get("strikes")))
