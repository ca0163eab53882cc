"""Sessions of SJA1000 controllers in Python: the calls of c/sja.h.

    with Session(version=3, bits=1000, nodes=2) as bus:
        bus.write(0, 0, 0x00)
        bus.run(100)
        print(bus.report())

A session is one of a shared object made of the library, where there is one, and else a process `sja live` of its own.
The environment variable SJA_LIBRARY names the shared object (checks/c_library makes one), or nothing for a process;
without it the libsja.so beside this file is taken, where there is one. SJA names the program; a `./sja` that isn't
proved says so of the first session. Each call that isn't done raises SjaError, with its status. Standard library
only."""

import contextlib
import ctypes
import errno
import operator
import os
import signal
import subprocess

BESIDE = os.path.join(os.path.dirname(os.path.realpath(__file__)), "libsja.so")

STATUSES = """DONE NO_HANDLE ENDED NO_VERSION NO_BITS NO_NODES NO_ADDRESS NO_BYTE NO_NODE NO_BIT PAST STEPS_USED
TURNS_USED STRIKES_USED NO_PLAN NO_DOCUMENT NO_ROOM NO_MEMORY BROKEN NO_PLACE ENDLESS STOPPED""".split()

LINES = {"no VERSION": "NO_VERSION", "no BITS": "NO_BITS", "no NODES": "NO_NODES", "no NODE": "NO_NODE",
         "no ADDRESS": "NO_ADDRESS", "no BYTE": "NO_BYTE", "no BIT": "PAST", "full STEPS": "STEPS_USED",
         "full TURNS": "TURNS_USED", "full STRIKES": "STRIKES_USED", "full PLAN": "NO_DOCUMENT"}


# The greatest number that a call of c/sja.h takes, and the greatest number of bits in a line to `sja live`.
GREATEST, MOST_BITS = 2**32 - 1, 9999999

# The names of enum sja_places, in its order, as plans have them.
NAMES = ["SOF", "ID", "SRR", "RTR", "IDE", "r1", "r0", "DLC", "data", "CRC", "CRC delimiter", "ACK", "ACK delimiter",
         "EOF", "intermission", "stuff"]
NUMBERED = {"ID": range(29), "DLC": range(4), "CRC": range(15), "EOF": range(1, 8), "intermission": range(1, 4),
            "stuff": range(1, 30), "data": [10 * byte + bit for byte in range(1, 9) for bit in range(8)]}


def _place_of(number):
    """The place of a number, as plans name it. None of 0."""
    name, own = NAMES[(number >> 8) - 1], number & 255
    if not number:
        return None
    if name == "data":
        return f"data {own // 10}.{own % 10}"
    return f"{name}.{own}" if name in NUMBERED else name


PLACES = {_place_of((kind + 1) * 256 + own): (kind + 1) * 256 + own
          for kind, name in enumerate(NAMES) for own in NUMBERED.get(name, [0])}


class SjaError(Exception):
    """A call that isn't done. `status` is its name in enum sja_status, without SJA_; or NO_NUMBER, where `run` is given
    a number that isn't one from 0 to 2^32-1. NO_HANDLE says that the session was closed."""

    def __init__(self, status):
        super().__init__(status)
        self.status = status


class _Answer(ctypes.Structure):
    _fields_ = [("status", ctypes.c_uint32), ("rose", ctypes.c_uint32), ("value", ctypes.c_uint64)]


def _done(answer):
    """The value of a call of the library that is done."""
    if answer.status:
        raise SjaError(STATUSES[answer.status])
    return answer.value


def _text_of(call, *given):
    """The text of a call of the library, which is asked first how much room it needs."""
    needs = call(*given, ctypes.create_string_buffer(1), 0)
    if STATUSES[needs.status] != "NO_ROOM":
        _done(needs)
    room = ctypes.create_string_buffer(needs.value)
    _done(call(*given, room, needs.value))
    return room.value.decode()


class _Library:
    """A session in this process."""

    def __init__(self, path, version, bits, nodes):
        self.calls = ctypes.CDLL(path)
        u32, text, handle = ctypes.c_uint32, [ctypes.c_char_p, ctypes.c_size_t], [ctypes.c_void_p]
        arguments = {"make": [ctypes.POINTER(ctypes.c_void_p)], "begin": handle + [u32] * 3, "read": handle + [u32] * 2,
                     "write": handle + [u32] * 3, "bits": handle + [u32] * 2, "irq": handle + [u32],
                     "lines": handle, "strike_at": handle + [u32] * 3, "now": handle, "place": handle + [u32],
                     "to": handle + [u32] * 3, "put_report": handle + text,
                     "put_plan": handle + text, "let_go": handle}
        for name, types in arguments.items():
            call = getattr(self.calls, f"sja_{name}")
            call.argtypes, call.restype = types, _Answer
        self.handle, self.rose = ctypes.c_void_p(), 0
        _done(self.calls.sja_make(ctypes.byref(self.handle)))
        try:
            _done(self.calls.sja_begin(self.handle, version, bits, nodes))
        except SjaError:
            self.close()
            raise

    def call(self, name, *numbers):
        if name == "strike":
            node, bit = numbers
            name, numbers = "strike_at", (node, bit & GREATEST, bit >> 32)
        answer = getattr(self.calls, f"sja_{name}")(self.handle, *numbers)
        if name == "bits":
            self.rose = answer.rose
        return _done(answer)

    def text(self, name):
        return _text_of(getattr(self.calls, f"sja_put_{name}"), self.handle)

    def close(self):
        if self.handle:
            self.calls.sja_let_go(self.handle)
            free = ctypes.CDLL(None).free
            free.argtypes, free.restype = [ctypes.c_void_p], None
            free(self.handle)
            self.handle = None


class _Process:
    """A session in a process of its own."""

    def __init__(self, program, version, bits, nodes):
        self.bits, self.nodes, self.texts, self.rose = bits, nodes, {}, 0
        pipe = subprocess.PIPE
        try:
            self.process = subprocess.Popen([program, "live"], stdin=pipe, stdout=pipe, env=_quiet())
        except OSError:
            raise SjaError("BROKEN") from None
        try:
            self._ask(f"live {version} {bits} {nodes}", "ok")
        except BaseException:
            self.close()
            raise

    def _lost(self):
        """What is answered where the process answers no more: it ended with status 1 where it was refused memory."""
        with contextlib.suppress(OSError):
            self.process.stdin.close()
        status = self.process.wait()
        return "NO_MEMORY" if status == 1 else _broken(status)

    def _say(self, line):
        try:
            self.process.stdin.write(f"{line}\n".encode())
            self.process.stdin.flush()
        except (OSError, ValueError) as error:
            closed = getattr(error, "errno", 0) == errno.EBADF  # this program has closed it
            raise SjaError("BROKEN" if closed else self._lost()) from None

    def _ask(self, line, *words):
        """Says a line. What is answered, which begins with one of these words."""
        self._say(line)
        return self._hear(*words)

    def _hear(self, *words):
        answer = self.process.stdout.readline()
        if not answer:
            raise SjaError(self._lost())
        heard = answer.decode().rstrip("\n")
        for word in words:
            if heard == word or heard.startswith(f"{word} "):
                return heard
        raise SjaError(LINES.get(heard, "BROKEN"))

    def _judge(self, *checks):
        if self.texts:
            raise SjaError("ENDED")
        for holds, status in checks:
            if not holds:
                raise SjaError(status)

    def call(self, name, *numbers):
        return getattr(self, f"_{name}")(*numbers)

    def _read(self, node, address):
        self._judge((0 <= address <= 255, "NO_ADDRESS"), (0 <= node < self.nodes, "NO_NODE"))
        return int(self._ask(f"read {node} {address}", "value").split()[1], 16)

    def _write(self, node, address, value):
        self._judge((0 <= address <= 255, "NO_ADDRESS"), (0 <= value <= 255, "NO_BYTE"),
                    (0 <= node < self.nodes, "NO_NODE"))
        self._ask(f"write {node} {address} {value:02x}", "ok")
        return 0

    def _active(self):
        return int(self._ask("line", "line").split()[1], 16)

    def _bits(self, count, watch):
        """The lines are asked for together with the first bits, so that the process is woken once. A line of the
        process has room for so many bits; more are asked for again, as long as none of those before was missing."""
        self._judge()
        total, before = 0, None if watch else 0
        while True:
            most = min(count - total, MOST_BITS)
            self._say(("line\n" if before is None else "") + f"run {most}")
            if before is None:
                before = int(self._hear("line").split()[1], 16)
            words = self._hear("ran").split()
            total += int(words[1])
            active = int(words[3], 16) if words[2:3] == ["line"] else None
            risen = (active or 0) & ~before & watch
            if risen or total >= count or (active is None and int(words[1]) < most):
                self.rose = (risen & -risen).bit_length()
                return total
            before = before if active is None else active

    def _irq(self, node):
        self._judge((0 <= node < self.nodes, "NO_NODE"))
        return self._active() >> node & 1

    def _lines(self):
        self._judge()
        return self._active()

    def _strike(self, node, bit):
        self._judge((0 <= node < self.nodes, "NO_NODE"), (0 <= bit < (self.bits or 2**62), "NO_BIT"))
        self._ask(f"strike {node} {bit}", "ok")
        return 0

    def _place(self, node):
        self._judge((0 <= node < self.nodes, "NO_NODE"))
        return PLACES.get(self._ask(f"place {node}", "place", "nothing").removeprefix("place "), 0)

    def _to(self, node, place, limit):
        self._judge((place in PLACES.values(), "NO_PLACE"), (0 <= node < self.nodes, "NO_NODE"))
        while True:
            most = min(limit, MOST_BITS)
            words = self._ask(f"to {node} {_place_of(place)} {most}", "ran").split()
            limit = limit - most if int(words[1]) == most else 0
            if words[2:] != ["spent"] or not limit:
                return int(words[2:] != ["spent"])

    def _now(self):
        self._judge()
        return int(self._ask("bits", "bits").split()[1])

    def _plan_now(self):
        """The status of the plan so far, and its text."""
        self._say("plan")
        lines = []
        for line in self.process.stdout:
            if line == b".\n":
                return "DONE", b"".join(lines).decode()
            if line == b"full PLAN\n" and not lines:
                return "NO_DOCUMENT", ""
            lines.append(line)
        return self._lost(), ""

    def _end(self):
        """Ends the session. Its plan and its report are kept, each with its status."""
        self.texts = {"plan": ("BROKEN", ""), "report": ("BROKEN", "")}
        self.texts["plan"] = self._plan_now()
        self._say("end")
        report = self.process.stdout.read().decode()
        self.texts["report"] = ("DONE" if report else self._lost(), report)

    def text(self, name):
        if not self.bits:
            raise SjaError("ENDLESS")
        if not self.texts and name == "report":
            self._end()
        status, text = self.texts[name] if self.texts else self._plan_now()
        if status != "DONE":
            raise SjaError(status)
        return text

    def close(self):
        with contextlib.suppress(OSError):
            self.process.stdin.close()
        self.process.stdout.close()
        self.process.wait()


def _is_number(number, most=GREATEST):
    return 0 <= operator.index(number) <= most


def _taken(number, most=GREATEST):
    """A number as a call takes it. One that it can't take becomes the greatest, which is past each limit."""
    return operator.index(number) if _is_number(number, most) else most


def _library():
    """The shared object, or nothing where there is none."""
    return os.environ.get("SJA_LIBRARY", BESIDE if os.path.exists(BESIDE) else "")


def _program():
    return os.environ.get("SJA", "sja")


_begun = []


def _quiet():
    """The environment of a process: only the first one says that its program isn't proved."""
    _begun.append(True)
    return {**os.environ, "SJA_QUIET": "1"} if len(_begun) > 1 else None


def _broken(status):
    """What is answered of a process that ended with this status: a check stopped it, or something else."""
    return "STOPPED" if status in (-signal.SIGILL, 128 + signal.SIGILL) else "BROKEN"


def run_plan(plan):
    """Runs a plan, a text as `sja run` takes it. Its report."""
    document, library = plan.encode(), _library()
    if library:
        call = ctypes.CDLL(library).sja_put_run
        call.argtypes, call.restype = [ctypes.c_char_p, ctypes.c_size_t] * 2, _Answer
        return _text_of(call, document, len(document))
    try:
        ran = subprocess.run([_program(), "run"], input=document, stdout=subprocess.PIPE, stderr=subprocess.DEVNULL)
    except OSError:
        raise SjaError("BROKEN") from None
    # Where SIGCHLD is ignored there is no status, and 0 stands for it: a run that is refused prints no report.
    if ran.returncode or not ran.stdout:
        raise SjaError("NO_PLAN" if ran.returncode in (0, 1) else _broken(ran.returncode))
    return ran.stdout.decode()


def parts_of(access_bits):
    """The parts of a bit that an access takes, and how many parts a bit has: of 2, "2" or "3/2"."""
    parts, _, whole = str(access_bits).partition("/")
    if not (parts.isdecimal() and (whole or "1").isdecimal() and int(whole or 1)):
        raise ValueError(f"access_bits is a whole number or A/B, and not {access_bits!r}")
    return int(parts), int(whole or 1)


class Session:
    """A bus of one to eight controllers. The calls are those of c/sja.h. In version 3 with 0 bits it goes on without an
    end, and has neither plan nor report. With `access_bits`, a whole number or "A/B", accesses take time: before access
    i of a node, from 0, floor((i+1)A/B) less floor(iA/B) bits run."""

    def __init__(self, version, bits, nodes, access_bits=0):
        self._parts, self._whole = parts_of(access_bits)
        self._late, self._made, self._nodes = {}, [0] * 8, _taken(nodes)
        library = _library()
        made = _Library if library else _Process
        self._session = made(library or _program(), *map(_taken, (version, bits, nodes)))

    def _open(self):
        if self._session is None:
            raise SjaError("NO_HANDLE")
        return self._session

    def _call(self, name, *numbers):
        return self._open().call(name, *map(_taken, numbers))

    def late(self, access, bits):
        """Lets so many bits run before this access beside those of `access_bits`: accesses of all nodes count from 0."""
        self._late[operator.index(access)] = operator.index(bits)

    @property
    def accesses(self):
        """How many accesses were made."""
        return sum(self._made)

    def _pass(self, node, *bytes_):
        """The next access of a node takes its time, but for one that is refused for its numbers. `rose` stays."""
        if not (_is_number(node, self._nodes - 1) and all(_is_number(byte, 255) for byte in bytes_)):
            return
        before = self._made[node]
        bits = (before + 1) * self._parts // self._whole - before * self._parts // self._whole
        bits += self._late.get(self.accesses, 0)
        rose = self._open().rose
        if bits:
            self._call("bits", bits, 0)
            self._session.rose = rose
        self._made[node] += 1

    def read(self, node, address):
        """Reads an address of a node."""
        self._pass(node, address)
        return self._call("read", node, address)

    def write(self, node, address, value):
        """Writes a byte to an address of a node."""
        self._pass(node, address, value)
        self._call("write", node, address, value)

    def run(self, count, watch=0):
        """Runs bits, up to the first in which the line of a watched node rises. How many were run; `rose` tells the
        node."""
        if not (_is_number(count) and _is_number(watch)):
            self.now()
            raise SjaError("NO_NUMBER")
        return self._call("bits", count, watch)

    @property
    def rose(self):
        """The first watched node whose line rose as the last `run` ended; None where it ran all its bits."""
        rose = self._open().rose
        return rose - 1 if rose else None

    def irq(self, node):
        """Whether the interrupt line of a node is active."""
        return bool(self._call("irq", node))

    def lines(self):
        """Which interrupt lines are active: bit K is 1 where that of node K is."""
        return self._call("lines")

    def strike(self, node, bit):
        """Has a node see the other level in a bit that hasn't run."""
        self._open().call("strike", _taken(node), _taken(bit, 2**64 - 1))

    def place(self, node):
        """At which place of a frame the next bit of a node is, as plans name it; None at none."""
        return _place_of(self._call("place", node))

    def to(self, node, place, limit):
        """Runs bits, up to the one before which the next bit of a node is at a place, at most so many. Whether it is
        there then."""
        return bool(self._call("to", node, PLACES.get(place, 0), limit))

    def now(self):
        """How many bits were run."""
        return self._call("now")

    def report(self):
        """Ends the session. Its report."""
        return self._open().text("report")

    def plan(self):
        """The plan that the session wrote so far."""
        return self._open().text("plan")

    def close(self):
        """Lets go of the session. It can be called again."""
        if self._session is not None:
            self._session.close()
            self._session = None

    def __enter__(self):
        return self

    def __exit__(self, *_):
        self.close()
