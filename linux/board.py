# SPDX-License-Identifier: GPL-2.0-only
"""Linux's CAN driver on the bus of this model, in Python: links in the words of `ip`, frames in those of candump.

    with Board(nodes=3, driver="/usr/src/linux-source-6.1") as bus:
        bus.link(0, bitrate=500000, restart_ms=100, berr_reporting=True)
        ..
        bus.up(0)
        bus.strike(1, "stuff.2")
        bus.send(0, "123#1122")
        bus.run(bits=1000)
        print(bus.received(1), bus.errors(0), bus.state(0))

`driver` is an unpacked source of Linux, or a shared object that linux/build made of one. Of a source the object is
built first, and kept beside others in a folder of the user's cache. With `bits` a bus ends after so many, and has a plan; without it
goes on. There is one Board at a time in a process. Standard library only; docs/use/LINUX.md says more."""

import ctypes
import errno
import hashlib
import os
import re
import subprocess
import sys

HERE = os.path.dirname(os.path.realpath(__file__))
sys.path.append(os.path.join(os.path.dirname(HERE), "python"))
from sja import PLACES, parts_of  # noqa: E402

LIBRARY = os.path.join(os.path.dirname(HERE), "crates/sja_c/out/libsja.so")
PROGRAM = os.path.join(os.path.dirname(HERE), "tools/with_checks")  # it prints its path
TEXT, ROOM = 40, 1 << 24
KINDS = ("received", "sent", "error")
STATES = "ERROR-ACTIVE ERROR-WARNING ERROR-PASSIVE BUS-OFF STOPPED SLEEPING".split()


class BoardError(OSError):
    """A call that Linux refuses, with its errno; or a session that goes no further."""


class _Frame(ctypes.Structure):
    _fields_ = [("bit", ctypes.c_uint64), ("id", ctypes.c_uint32), ("kind", ctypes.c_uint8),
                ("length", ctypes.c_uint8), ("dlc", ctypes.c_uint8), ("data", ctypes.c_uint8 * 8)]


class _Details(ctypes.Structure):
    _fields_ = [(name, ctypes.c_uint32) for name in """state ctrlmode restart_ms bitrate sample_point brp sjw tseg1
                tseg2 txerr rxerr bus_error error_warning error_passive bus_off arbitration_lost restarts""".split()]
    _fields_ += [(name, ctypes.c_uint64) for name in """rx_packets tx_packets rx_bytes tx_bytes rx_errors tx_errors
                 rx_dropped tx_dropped rx_over_errors""".split()]
    _fields_ += [(name, ctypes.c_int) for name in ("is_up", "has_carrier", "waiting")]


def _built(tree, driver, board):
    """The shared object of a tree: built where it isn't there, or older than what it is made of."""
    cache = os.environ.get("XDG_CACHE_HOME", os.path.expanduser("~/.cache"))
    words = [os.path.abspath(tree)]
    for option, file in (("--driver", driver), ("--board", board)):
        if file:
            words = [option, os.path.abspath(file), *words]
    library = os.environ.get("SJA_LIBRARY", LIBRARY if os.path.exists(LIBRARY) else "")
    if not library and "SJA" not in os.environ and os.path.exists(PROGRAM):
        told = subprocess.run([PROGRAM], stdout=subprocess.PIPE, text=True, check=False)
        os.environ["SJA"] = told.stdout.strip() or "sja"
    key = hashlib.sha256(repr((HERE, words, library)).encode()).hexdigest()[:16]
    made = os.path.join(cache, "sja", f"driver-{key}.so")
    os.makedirs(os.path.dirname(made), exist_ok=True)
    sources = [os.path.join(folder, name) for folder in (HERE, os.path.join(HERE, "shim"), os.path.join(HERE, "../c"))
               for name in os.listdir(folder) if name.endswith((".c", ".h"))]
    sources += [file for file in (driver, board) if file]
    if not os.path.exists(made) or any(os.path.getmtime(file) > os.path.getmtime(made) for file in sources):
        given = dict(os.environ, SJA_C=library and library.removesuffix(".so") + ".a")
        part = f"{made}.{os.getpid()}.so"
        subprocess.run([os.path.join(HERE, "build"), part, *words], check=True, env=given)
        os.replace(part, made)
    return made


class Board:
    """A bus of one to eight cards, with the driver of a tree of Linux or one of your own.

    Time between accesses: each takes `access_bits`, a whole number or "A/B", and a handler is called `latency` bits
    after its line rose, or with `edges` for each rise alone. While a device waits in an access act, by `others`: 0
    nobody, 1 the other devices, 2 its own handler too, 3 its own queue too, as on another processor; 4
    all that it has, as on several."""

    _taken = False

    def __init__(self, nodes, driver, bits=0, own_driver=None, own_board=None, access_bits=0, latency=0, others=0,
                 edges=False):
        if Board._taken:
            raise BoardError(16, "there is one Board at a time in a process")
        path = driver if os.path.isfile(driver) else _built(driver, own_driver, own_board)
        self._calls = ctypes.CDLL(path)
        for name in ("bus_run", "bus_fault", "bus_missed"):
            getattr(self._calls, name).restype = ctypes.c_uint32
        for name in ("bus_now", "bus_frames", "bus_accesses"):
            getattr(self._calls, name).restype = ctypes.c_uint64
        for name in ("bus_plan", "bus_report"):
            getattr(self._calls, name).restype = ctypes.c_int64
        for name in ("bus_refusal", "bus_dmesg"):
            getattr(self._calls, name).restype = ctypes.c_char_p
        self._calls.bus_peek.restype = ctypes.c_uint8
        self._calls.bus_frame.restype = ctypes.POINTER(_Frame)
        self._calls.bus_strike.argtypes = [ctypes.c_uint, ctypes.c_uint64]
        self._calls.bus_frame.argtypes = [ctypes.c_uint, ctypes.c_size_t]
        self._calls.bus_late.argtypes = [ctypes.c_uint64, ctypes.c_uint32]
        if others not in range(5):
            raise ValueError(f"others is 0 to 4, and not {others!r}")
        self._calls.bus_on_time()
        self._calls.bus_access_bits(*parts_of(access_bits))
        self._calls.bus_latency(latency)
        self._calls.bus_others(others)
        self._calls.bus_edges(int(edges))
        self.nodes = nodes
        error = self._calls.bus_begin(nodes, bits)
        self._done(error, "there is neither a library nor a program" if error == -errno.EPIPE else "bus_begin")
        Board._taken = True

    def _done(self, error, what):
        if error < 0:
            reason = self._calls.bus_refusal().decode()
            raise BoardError(-error, f"{what}: {os.strerror(-error)}" + (f" ({reason})" if reason else ""))

    def link(self, node, words="", **asked):
        """`ip link set canN type can ..`: as words, or by name: bitrate=500000, one_shot=True, restart_ms=100."""
        for name, value in asked.items():
            given = ("on" if value else "off") if isinstance(value, bool) else str(value)
            words += f" {name.replace('_', '-')} {given}"
        self._done(self._calls.bus_link(node, words.encode()), f"can{node}:{words}")

    def up(self, *nodes):
        """`ip link set canN up`, and so many bits that the controllers take part in the bus."""
        for node in nodes:
            self._done(self._calls.bus_up(node), f"can{node} up")
        self.run(30)

    def down(self, *nodes):
        """`ip link set canN down`."""
        for node in nodes:
            self._done(self._calls.bus_down(node), f"can{node} down")

    def restart(self, node):
        """`ip link set canN type can restart`: back from bus-off by hand."""
        self.link(node, "restart")

    def send(self, node, frame):
        """`cansend canN FRAME`."""
        self._done(self._calls.bus_send(node, frame.encode()), f"can{node} {frame}")

    def strike(self, node, place):
        """Has a node see the other level: in a bit by its number, or at a place of the next frame that begins for it, as
        "data 1.7", or of the one after it, "frame 2 data 1.7"; one that comes again counts again. At "SOF" is who sends
        the frame."""
        if isinstance(place, int):
            self._done(self._calls.bus_strike(node, place), f"strike {place}")
            return
        number, name = re.fullmatch(r"(?:frame ([1-9]\d*) )?(.*)", place).groups()
        if name not in PLACES:
            raise BoardError(errno.EINVAL, f"there is no place {name}")
        self._done(self._calls.bus_strike_at(node, int(number or 1), PLACES[name]), f"strike {place}")

    def run(self, bits):
        """Lets bits run, with all that drivers and kernel do meanwhile. How many were run."""
        missed = self._calls.bus_missed()
        ran = self._calls.bus_run(bits)
        if self._calls.bus_fault():
            raise BoardError(errno.EIO, f"the session goes no further: status {self._calls.bus_fault()}")
        if self._calls.bus_missed() > missed:
            raise BoardError(errno.EINVAL, "a frame ended without the place at which it was to be struck")
        return ran

    def late(self, access, bits):
        """Lets so many bits run before one access of the drivers: they count from 0 as the bus begins."""
        self._calls.bus_late(access, bits)

    def on_time(self):
        """No access takes time from now on, and no handler comes late."""
        self._calls.bus_on_time()

    @property
    def accesses(self):
        """How many accesses the drivers made."""
        return self._calls.bus_accesses()

    def hold(self, node, is_held=True):
        """Holds a device's interrupts back, or lets them go: for a handler that comes late."""
        self._calls.bus_hold(node, is_held)

    def peek(self, node, address):
        """A register, as a test looks at it beside the driver. A read may clear what it shows."""
        return self._calls.bus_peek(node, address)

    def now(self):
        """How many bits were run."""
        return self._calls.bus_now()

    def frames(self, node, kind=None):
        """What the stack got of a device, in turn: (bit, kind, frame)."""
        told, text = [], ctypes.create_string_buffer(TEXT)
        for number in range(self._calls.bus_frames(node)):
            frame = self._calls.bus_frame(node, number)
            self._calls.bus_frame_text(frame, text)
            if kind in (None, KINDS[frame.contents.kind]):
                told.append((frame.contents.bit, KINDS[frame.contents.kind], text.value.decode()))
        return told

    def received(self, node):
        """The frames that a device received."""
        return [frame for _, _, frame in self.frames(node, "received")]

    def sent(self, node):
        """The frames of a device that came back as sent."""
        return [frame for _, _, frame in self.frames(node, "sent")]

    def errors(self, node):
        """The error frames of a device's driver."""
        return [frame for _, _, frame in self.frames(node, "error")]

    def details(self, node):
        """`ip -details -statistics link show canN`, by name."""
        told = _Details()
        self._done(self._calls.bus_details(node, ctypes.byref(told)), f"can{node}")
        return {name: getattr(told, name) for name, _ in _Details._fields_}

    def state(self, node):
        """The state of a device, as ip writes it."""
        return STATES[self.details(node)["state"]]

    def dmesg(self):
        """The kernel's log."""
        return self._calls.bus_dmesg().decode()

    def bugs(self):
        """How many lines of the log tell of a bug of the driver."""
        return self._calls.bus_bugs()

    def _text(self, call):
        room = ctypes.create_string_buffer(ROOM)
        if call(room, ctypes.c_size_t(ROOM)) < 0:
            raise BoardError(5, "the session tells nothing more")
        return room.value.decode()

    def plan(self):
        """The plan of what was done so far, of a bus with `bits`: `sja run` and `sja trace` take it."""
        return self._text(self._calls.bus_plan)

    def close(self):
        """Takes the cards away. How many socket buffers a driver lost."""
        lost = self._calls.bus_end()
        Board._taken = False
        return lost

    def __enter__(self):
        return self

    def __exit__(self, *_):
        self.close()
