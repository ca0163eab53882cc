# SPDX-License-Identifier: GPL-2.0-only
"""Whole Linux kernels on the bus of this model, in Python: scripts run in them, chosen bits are struck.

    with Kernels("out/linux", nodes=2) as kernels:
        kernels.run("up 0 1; candump -L any,0:0,#FFFFFFFF > /run/log &")
        kernels.strike("1 frame 1 stuff.2")
        told, = kernels.run("cansend can0 123#1122; sleep 0.1; cat /run/log")

A kernel is a program that linux/kernel/build made. Between two calls the time of the bus stands still. Standard library
only; docs/use/KERNEL.md says more."""

import os
import shutil
import socket
import subprocess
import sys
import tempfile
import time

from machine import Machine, checked_kernel, checked_place, Card
from made import TOP, SetupError, library, made, program

sys.path.append(os.path.join(TOP, "python"))
from sja import PLACES  # noqa: E402

ANSWERS, SWITCHES_OFF = 1, 20   # seconds, within which the bus answers and kernels end
__all__ = ["Kernels", "SetupError", "ScriptFailed", "Hangs"]


class ScriptFailed(Exception):
    """A script's status isn't 0, or its kernel went down, or the plan is full. `texts` has what was printed."""
    status = 3

    def __init__(self, reason, texts):
        super().__init__(reason)
        self.texts = texts


class Hangs(ScriptFailed):
    """A script, or a kernel, didn't end in time."""
    status = 4


class Kernels:
    """One to eight kernels on one bus, each with `nodes` nodes, on cards for one driver. With `plan` the bus ends after
    2,000,000 bits, and its plan is written into that file as the kernels are closed. `log`: a file for each access,
    strike and interrupt. `driver`: a folder of modules, in place of those of the kernel's own build. `boot` is what the
    kernels printed before the first script."""

    def __init__(self, *kernels, nodes=2, card="sja1000_isa", plan=None, log=None, seconds=60, memory=None,
                 driver=None):
        self.seconds, self._machines, self._bus, self._said = seconds, [], None, b""
        self._ends, self.notes, self.counts = False, [], ""
        self._folders = [tempfile.mkdtemp(prefix="sja.", dir=checked_place())]
        try:
            self._begin(kernels, nodes, card, plan, log, memory, driver)
        except BaseException:
            self.kill()
            raise

    def _without_cache(self):
        """A folder for programs that a kernel sees."""
        self._folders.append(tempfile.mkdtemp(prefix="sja.", dir="/tmp"))
        return self._folders[-1]

    def _begin(self, kernels, nodes, card, plan, log, memory, driver):
        bus, tools = made(self._without_cache)
        self._allow(self.seconds)
        row = Card.named(bus, card)
        if not kernels or not 1 <= nodes * len(kernels) <= 8:
            raise SetupError("a bus has one to eight nodes")
        for number, kernel in enumerate(kernels):
            config = checked_kernel(kernel, row)
            folder = os.path.join(self._folders[0], str(number))
            os.mkdir(folder)
            self._machines.append(Machine(number, kernel, config, folder, nodes, row, memory, driver))
        self._start_bus(bus, card, plan, log, nodes)
        for machine in self._machines:
            self._say(f"group {machine.number} {machine.start(tools)}")
        self._until_rest("it doesn't start")
        self.boot = "".join(self._texts())

    def _start_bus(self, bus, card, plan, log, nodes):
        places = os.path.join(self._folders[0], "places")
        with open(places, "w", encoding="ascii") as file:
            file.writelines(f"{number} {name}\n" for name, number in PLACES.items())
        self._socket, theirs = socket.socketpair()
        words = [bus, "-c", card, "-n", places, "-f", str(theirs.fileno())]
        words += (["-p", os.path.abspath(plan)] if plan else []) + (["-l", os.path.abspath(log)] if log else [])
        environment = dict(os.environ) if library() else dict(os.environ, SJA=program())
        with theirs:
            self._bus = subprocess.Popen([*words, *(f"{machine.folder}:{nodes}" for machine in self._machines)],
                                         stdin=subprocess.DEVNULL, pass_fds=[theirs.fileno()], env=environment)
        self._expect("ready")

    # ---- what is said with the process of the bus

    def _allow(self, seconds):
        self._allowed, self._deadline = seconds, time.monotonic() + seconds

    def _say(self, line):
        if self._bus is None:
            raise ScriptFailed("the kernels have ended", self._texts())
        self._socket.sendall(line.encode() + b"\n")

    def _hear(self, hangs):
        """The next line. Raises what ended the run."""
        while b"\n" not in self._said:
            self._socket.settimeout(max(0.01, min(0.5, self._deadline - time.monotonic())))
            try:
                got = self._socket.recv(4096)
                if not got:
                    self._end(ScriptFailed("the process of the bus is gone", self._texts()))
                self._said += got
            except TimeoutError:
                self._judge(hangs)
        line, self._said = self._said.split(b"\n", 1)
        return line.decode()

    def _judge(self, hangs):
        """Nothing was heard for a while: whether a kernel went down, or all takes too long. All ends then."""
        for machine in self._machines:
            if machine.has_ended() and not self._ends:
                self._end(machine.refusal() or ScriptFailed(f"kernel {machine.number} went down", self._texts()))
        if time.monotonic() > self._deadline:
            self._end(Hangs(f"{hangs}: nothing more came in {self._allowed:.0f} s{self._position()}", self._texts()))

    def _end(self, reason):
        self.kill()
        raise reason

    def _position(self):
        """Where the bus is, if its process still answers."""
        try:
            self._say("word 0 where")
            self._socket.settimeout(ANSWERS)
            words = self._socket.recv(4096).decode().split()
        except OSError:
            return ""
        return f", the bus is at bit {words[1]}" if words[:1] == ["ok"] else ""

    def _expect(self, *kinds, hangs="it hangs"):
        """The next line of these kinds. Notes are kept."""
        while True:
            line = self._hear(hangs)
            kind, _, rest = line.partition(" ")
            if kind == "note":
                self.notes.append(rest)
            elif kind == "end":
                self.counts = rest
            elif kind == "used":
                self._end(ScriptFailed(f"the run ends: {rest}", self._texts()))
            elif kind == "fail":
                self._end(SetupError(rest))
            if kind in kinds:
                return kind, rest

    def _until_rest(self, hangs):
        """The status of each script that ended, by the number of its kernel, once all wait for what is next."""
        statuses = {}
        while True:
            kind, rest = self._expect("done", "rest", "end", hangs=hangs)
            if kind == "rest":
                return statuses
            if kind == "end":
                self._end(ScriptFailed("the kernels switched off", self._texts()))
            number, status = rest.split()
            statuses[int(number)] = int(status)

    def _texts(self):
        return [machine.text() for machine in self._machines]

    # ---- what a test does

    def left(self):
        """How many seconds are left of those that were allowed last."""
        return self._deadline - time.monotonic()

    def word(self, words, kernel=0):
        """Has the bus do something, in the words of the guest's `bus`. How many bits were run."""
        self._allow(self.seconds)
        self._say(f"word {kernel} {words}")
        kind, rest = self._expect("ok", "no")
        if kind == "no":
            raise ValueError(f"{words}: {rest}")
        return int(rest)

    def strike(self, words):
        """A strike in the words of plans: "1 frame 1 stuff.2". Frames count from now on."""
        return self.word(f"strike {words}")

    def where(self):
        """How many bits were run."""
        return self.word("where")

    def run(self, *scripts, check=True, seconds=None):
        """Runs a script in each kernel: a text for the shell, a path of a file (os.PathLike), or None for no script.
        Gives what each kernel printed. ScriptFailed if a status isn't 0, but without `check`; Hangs."""
        self._allow(self.seconds if seconds is None else seconds)
        for machine, script in zip(self._machines, scripts, strict=False):
            if script is not None:
                self._say(f"script {machine.number} {machine.script(script)}")
        self._say("go")
        statuses = self._until_rest("the script hangs")
        texts = self._texts()
        failed = [number for number, status in statuses.items() if status and check]
        if failed:
            raise ScriptFailed(f"the script of kernel {failed[0]} ended with status {statuses[failed[0]]}", texts)
        return texts

    def close(self):
        """Switches the kernels off, and writes the plan."""
        if self._bus is None:
            return
        try:
            self._allow(SWITCHES_OFF)
            self._ends = True
            for machine in self._machines:
                self._say(f"end {machine.number}")
            self._say("go")
            self._expect("end", hangs="it doesn't switch off")
            self._bus.wait(timeout=SWITCHES_OFF)
        finally:
            self.kill()

    def kill(self):
        """Ends all processes, and takes away what they left."""
        for machine in self._machines:
            machine.kill()
        if self._bus is not None:
            self._bus.kill()
            self._bus.wait()
            self._socket.close()
            self._bus = None
        for folder in self._folders:
            shutil.rmtree(folder, ignore_errors=True)

    def __enter__(self):
        return self

    def __exit__(self, kind, *_):
        if kind is None:
            self.close()
        else:
            self.kill()
