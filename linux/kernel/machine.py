# SPDX-License-Identifier: GPL-2.0-only
"""A kernel as a process, and what has to be there before one can begin."""

import ctypes
import os
import re
import signal
import subprocess
import tempfile
from typing import NamedTuple

from made import SetupError, is_hidden

OPTIONS = """UML_TIME_TRAVEL_SUPPORT VIRTIO_UML UML_PCI_OVER_VIRTIO HOSTFS PROC_FS SYSFS TMPFS NET CAN CAN_RAW
CAN_SJA1000""".split()
WINDOW, MEMORY, BETWEEN, INTERRUPT, CLOCK = 0xf0000000, "64M", 32, 11, 16000000
DEBUG_MEMORY = "512M"   # of a kernel with KASAN
LONGEST = 170           # characters of a script's path, which a kernel reads from its card
SEEN = "/run/kernel"    # where a kernel sees its folder, as guest/first.c mounts it
PR_SET_PDEATHSIG = 1


class Card(NamedTuple):
    """A row of the table of cards, which the process of the bus has."""
    name: str
    channels: int
    option: str
    is_plain: bool

    @staticmethod
    def named(bus, name):
        listed = subprocess.run([bus, "-C"], stdout=subprocess.PIPE, text=True, check=True).stdout
        rows = [line.split() for line in listed.splitlines()]
        for row in rows:
            if row[0] == name:
                return Card(name, int(row[1]), row[2], row[3] == "plain")
        raise SetupError(f"there is no card {name}: {', '.join(row[0] for row in rows)}")


def checked_place():
    """Where sockets and the memory of kernels are: TMPDIR, or /dev/shm."""
    place = os.environ.get("TMPDIR") or "/dev/shm"
    if not os.path.isdir(place) or not os.access(place, os.W_OK):
        raise SetupError(f"{place} isn't there, or can't be written to: TMPDIR=/tmp names another folder")
    if os.statvfs(place).f_flag & os.ST_NOEXEC:
        raise SetupError(f"{place} is mounted noexec: TMPDIR=/tmp names a folder from which programs may run")
    return place


def checked_kernel(kernel, card):
    """The options of a kernel, all of which a run needs."""
    if not os.path.isfile(kernel) or not os.access(kernel, os.X_OK):
        raise SetupError(f"there is no kernel {kernel}: linux/kernel/build makes one")
    try:
        told = subprocess.run([kernel, "--showconfig"], stdin=subprocess.DEVNULL, stdout=subprocess.PIPE,
                              stderr=subprocess.DEVNULL, text=True, timeout=10, check=False).stdout
    except (OSError, subprocess.TimeoutExpired) as wrong:
        raise SetupError(f"{kernel} is no kernel of linux/kernel/build: {wrong}") from wrong
    config = dict(line.split("=", 1) for line in told.splitlines() if line.startswith("CONFIG_"))
    for option in (f"CONFIG_{name}" for name in OPTIONS):
        if option not in config:
            raise SetupError(f"{kernel} has no {option}: build it with linux/kernel/build")
    if card.option not in config:
        raise SetupError(f"{kernel} has no {card.option}: build it with linux/kernel/build, or take another --card")
    return config


def _dies_with_parent():
    ctypes.CDLL(None).prctl(PR_SET_PDEATHSIG, signal.SIGKILL)


class Machine:
    """A kernel of User-mode Linux with its nodes, in a folder of its own."""

    def __init__(self, number, kernel, config, folder, nodes, card, memory, driver):
        self.number, self.folder, self._kernel, self._nodes, self._card = number, folder, kernel, nodes, card
        self._memory = memory or (DEBUG_MEMORY if "CONFIG_KASAN" in config else MEMORY)
        self._out, self._read, self._process = os.path.join(folder, "out"), 0, None
        self._modules = self._named_modules(config, driver)

    def _named_modules(self, config, driver):
        """The modules to load: the driver's, and the chip of INTx."""
        out = os.path.dirname(os.path.realpath(self._kernel))
        names = []
        if driver or config["CONFIG_CAN_SJA1000"] == "m":
            folder = os.path.abspath(driver) if driver else os.path.join(out, "drivers/net/can/sja1000")
            names = [os.path.join(folder, f"{name}.ko") for name in ("sja1000", self._card.name)]
            if driver and config["CONFIG_CAN_SJA1000"] != "m":
                raise SetupError(f"{self._kernel} has a driver of its own: build it with linux/kernel/own.config")
        if not self._card.is_plain:
            names.append(os.path.join(out, "intx.ko"))
        for name in names:
            if not os.path.isfile(name):
                raise SetupError(f"there is no module {name}: linux/kernel/build makes it")
        return names

    def _parameters(self):
        """What the driver of plain memory is told: where controllers lie, their interrupt and their clock. It is
        kept from beginning if the cards are others."""
        if not self._card.is_plain:
            return ["initcall_blacklist=sja1000_isa_init"]
        mem = ",".join(hex(WINDOW + BETWEEN * node) for node in range(self._nodes))
        each = [("mem", mem), ("irq", ",".join([str(INTERRUPT)] * self._nodes)),
                ("clk", ",".join([str(CLOCK)] * self._nodes))]
        return [f"sja1000_isa.{name}={value}" for name, value in each]

    def _words(self, tools):
        cards = -(-self._nodes // self._card.channels)
        return [self._kernel, f"mem={self._memory}", "root=/dev/root", "rootfstype=hostfs", "rootflags=/", "ro",
                f"init={tools}/first", f"tools={tools}", "con=null", "con0=null,fd:1", "quiet", "random.trust_cpu=on",
                f"time-travel=ext:{self.folder}/clock", f"uml_dir={self.folder}", "umid=kernel",
                *[f"virtio_uml.device={self.folder}/card:1234"] * cards, *self._parameters(),
                *([f"load={','.join(self._modules)}"] if self._modules else []), f"number={self.number}",
                f"folder={self.folder}"]

    def start(self, tools):
        """Starts it, in a process group of its own, whose number this gives."""
        for path in (tools, self.folder, *self._modules):
            if re.search(r"[\s,]", path):
                raise SetupError(f"a kernel takes no path with a space or a comma: {path}")
        with open(self._out, "wb") as out:
            self._process = subprocess.Popen(self._words(tools), stdin=subprocess.DEVNULL, stdout=out,
                                             stderr=subprocess.STDOUT, start_new_session=True,
                                             env=dict(os.environ, TMPDIR=self.folder), preexec_fn=_dies_with_parent)
        return self._process.pid

    def script(self, script):
        """The path of a script, which is written if it is a text."""
        if isinstance(script, os.PathLike):
            if not os.path.isfile(script):
                raise SetupError(f"there is no script {script}")
            if is_hidden(script):
                raise SetupError(f"a kernel doesn't see {script}: it has its own /dev, /proc, /sys and /run")
            path = os.path.abspath(script)
            if len(path) > LONGEST or "\n" in path:
                raise SetupError(f"the path of {script} is longer than {LONGEST} characters, or has more than one line")
            return path
        with tempfile.NamedTemporaryFile("w", dir=self.folder, prefix="script.", delete=False) as file:
            file.write(script + "\n")
        return f"{SEEN}/{os.path.basename(file.name)}"

    def text(self):
        """What the kernel printed since this was asked last."""
        if not os.path.exists(self._out):
            return ""
        with open(self._out, "rb") as file:
            file.seek(self._read)
            got = file.read()
        self._read += len(got)
        return got.decode(errors="replace").replace("\r", "")

    def has_ended(self):
        return self._process is not None and self._process.poll() is not None

    def refusal(self):
        """Why the kernel didn't begin, as far as it says so."""
        with open(self._out, encoding="utf-8", errors="replace") as file:
            lines = [line.strip() for line in file if line.strip()]
        if any("ptrace" in line and ("failed" in line or "ermitted" in line) for line in lines):
            return SetupError("ptrace isn't allowed here: in a container --cap-add=SYS_PTRACE lets it")
        return None

    def kill(self):
        if self._process is None:
            return
        try:
            os.killpg(self._process.pid, signal.SIGKILL)
        except ProcessLookupError:
            pass
        self._process.wait()
