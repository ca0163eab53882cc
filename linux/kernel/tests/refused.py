# SPDX-License-Identifier: GPL-2.0-only
"""Bad input, and what is left behind: each wrong run ends in time, with a line and a status, and leaves nothing."""

import ctypes
import glob
import os
import pathlib
import shutil
import signal
import struct
import subprocess
import sys
import tempfile
import time

from made import TOP, SetupError  # noqa: F401

RUN = os.path.join(TOP, "linux/kernel/run")
BUILD = os.path.join(TOP, "linux/kernel/build")
SECONDS = 5
ENDS = 20       # seconds, within which a run has begun, and one that is told to stop has ended
RUNNING = 8     # processes, files and sockets of a run whose kernel runs its script
# Of linux/prctl.h, linux/seccomp.h, linux/filter.h and the calls of x86-64.
NO_NEW_PRIVS, SECCOMP, FILTER_MODE, PTRACE = 38, 22, 2, 101
ALLOW, REFUSE = 0x7fff0000, 0x00050001


def without_ptrace():
    """Has the kernel of this machine refuse ptrace to this process."""
    code = b"".join(struct.pack("HBBI", *row) for row in
                    [(0x20, 0, 0, 0), (0x15, 0, 1, PTRACE), (0x06, 0, 0, REFUSE), (0x06, 0, 0, ALLOW)])
    room = ctypes.create_string_buffer(code)
    program = ctypes.create_string_buffer(struct.pack("H6xQ", 4, ctypes.addressof(room)))
    libc = ctypes.CDLL(None)
    assert libc.prctl(NO_NEW_PRIVS, 1, 0, 0, 0) == 0 and libc.prctl(SECCOMP, FILTER_MODE, program, 0, 0) == 0


def written(folder, name, text):
    path = os.path.join(folder, name)
    pathlib.Path(path).write_text(text, "utf-8")
    return path


def imitated(folder, kernel, without):
    """A program that says the options of a kernel, but for one."""
    told = subprocess.run([kernel, "--showconfig"], stdout=subprocess.PIPE, text=True, check=True).stdout
    kept = "".join(line for line in told.splitlines(keepends=True) if without not in line)
    config = written(folder, f"without_{without}.config", kept)
    path = written(folder, f"without_{without}", f"#!/bin/sh\ncat {config}\n")
    os.chmod(path, 0o755)
    return path


def rows(folder, kernel, hidden):
    """Each row: what is wrong, the words of `run`, its environment, its status, and what its line has."""
    nothing = written(folder, "nothing.sh", ":\n")
    fails = written(folder, "fails.sh", "echo before; exit 7\n")
    hangs = written(folder, "hangs.sh", "echo before; sleep 100000000\n")
    spins = written(folder, "spins.sh", "while :; do :; done\n")
    down = written(folder, "down.sh", "exec python3 -c 'import ctypes; ctypes.CDLL(None).reboot(0x4321fedc)'\n")
    spaced = os.path.join(folder, "a folder")
    os.makedirs(spaced, exist_ok=True)
    os.makedirs(os.path.join(folder, "l" * 180), exist_ok=True)
    long = written(os.path.join(folder, "l" * 180), "nothing.sh", ":\n")
    bare = os.path.join(folder, "bare")
    os.makedirs(bare, exist_ok=True)
    if not os.path.exists(os.path.join(bare, "python3")):
        os.symlink(sys.executable, os.path.join(bare, "python3"))
        os.symlink(shutil.which("env"), os.path.join(bare, "env"))
    fresh = {"PATH": bare, "XDG_CACHE_HOME": os.path.join(folder, "cache")}
    return [
        ("no /dev/shm", [kernel, nothing], {"TMPDIR": "/nowhere"}, 2, "TMPDIR="),
        ("no script", [kernel, "/nowhere.sh"], {}, 2, "no script /nowhere.sh"),
        ("no kernel", ["/nowhere", nothing], {}, 2, "no kernel /nowhere"),
        ("not a kernel", ["/bin/true", nothing], {}, 2, "has no CONFIG_"),
        ("a kernel without an option", [imitated(folder, kernel, "VIRTIO_UML"), nothing], {}, 2, "CONFIG_VIRTIO_UML"),
        ("a card that isn't there", ["--card", "no_card", kernel, nothing], {}, 2, "no card no_card"),
        ("a card that the kernel doesn't know", ["--card", "ems_pci", imitated(folder, kernel, "EMS_PCI"), nothing], {},
         2, "CONFIG_CAN_EMS_PCI"),
        ("no compiler", [kernel, nothing], fresh, 2, "apt-get install gcc"),
        ("nine nodes", ["--nodes", "9", kernel, nothing], {}, 2, "one to eight nodes"),
        ("no library", [kernel, nothing], {"SJA_C": "/nowhere.a"}, 2, "no library /nowhere.a"),
        ("a path with a space", [kernel, nothing], {"TMPDIR": spaced}, 2, "no path with a space"),
        ("a long path", [kernel, long], {}, 2, "170 characters"),
        ("a script in /dev/shm", [kernel, hidden], {}, 2, "doesn't see"),
        ("a script that fails", [kernel, fails], {}, 3, "status 7"),
        ("a kernel that goes down", [kernel, down], {}, 3, "went down|switched off|gone"),
        ("a script that hangs", ["--seconds", str(SECONDS), kernel, hangs], {}, 4, "hangs"),
        ("a script that spins", ["--seconds", str(SECONDS), kernel, spins], {}, 4, "hangs"),
    ]


def full(folder, kernel):
    """Rows of runs with a plan, each of which uses all of what a plan has."""
    scripts = [("bits", "up 0; sleep 5\n", "all 2000000 bits"),
               ("starts", "for i in $(seq 65); do up 0; ip link set can0 down; done\n", "all 64 starts of node 0"),
               ("accesses", "up 0 1; cangen can0 -g 0.3 -n 5000 -L 8 -p 100\n", "all 65535 accesses of a node")]
    return [(f"all {name} of a plan", ["--plan", os.path.join(folder, f"{name}.toml"), kernel,
                                       written(folder, f"{name}.sh", script)], {}, 3, says)
            for name, script, says in scripts]


def left_of(place):
    """What is left of runs in a folder: processes that name it, files, sockets."""
    found = []
    for path in glob.glob("/proc/[0-9]*/cmdline"):
        try:
            words = pathlib.Path(path).read_bytes()
        except OSError:
            continue
        if place.encode() in words:
            found.append(f"process {path.split('/')[2]}")
    sockets = [line.split()[-1] for line in pathlib.Path("/proc/net/unix").read_text("ascii").splitlines()]
    return found + [name for name in sockets if name.startswith(place)] + glob.glob(f"{place}/*")


def tried(words, environment, place, before=None):
    """The status of a run, its lines on standard error, and how long it took."""
    began = time.monotonic()
    done = subprocess.run([RUN, *words], env={**os.environ, "TMPDIR": place, **environment}, preexec_fn=before,
                          stdout=subprocess.PIPE, stderr=subprocess.PIPE, text=True, check=False, timeout=120)
    return done.returncode, done.stderr, time.monotonic() - began


def judged(name, told, status, words, place):
    got, line, took = told
    wrong = []
    if got != status or not any(word in line for word in words.split("|")):
        wrong.append(f"refused: {name}: status {got}, not {status}: {line.strip()}")
    if line.count("\n") != 1:
        wrong.append(f"refused: {name}: not one line: {line}")
    if took > 60:
        wrong.append(f"refused: {name}: took {took:.0f} s")
    print(f"  {name}: {got}: {line.strip()}")
    return wrong + [f"refused: {name} leaves {what}" for what in left_of(place)]


def mounted(kernel, script, place):
    """The status and line of a run on a /dev/shm that is mounted noexec, or None if this user may not mount."""
    words = f"mount -t tmpfs -o noexec none {place} && exec {RUN} {kernel} {script}"
    done = subprocess.run(["unshare", "-m", "sh", "-c", words], env={**os.environ, "TMPDIR": place},
                          stdout=subprocess.PIPE, stderr=subprocess.PIPE, text=True, check=False)
    return None if "unshare" in done.stderr or "mount:" in done.stderr else (done.returncode, done.stderr, 0)


def refused(outs, _):
    """Each wrong run ends in time, with its status and a line of what to do, and leaves nothing."""
    wrong = []
    kernel = os.path.join(outs[0], "linux")
    with tempfile.TemporaryDirectory() as folder, tempfile.TemporaryDirectory(dir="/dev/shm") as place, \
            tempfile.NamedTemporaryFile(dir="/dev/shm") as hidden:
        for name, words, environment, status, says in rows(folder, kernel, hidden.name) + full(folder, kernel):
            wrong += judged(name, tried(words, environment, place), status, says, place)
        nothing = written(folder, "nothing.sh", ":\n")
        wrong += judged("no ptrace", tried([kernel, nothing], {}, place, without_ptrace), 2, "ptrace", place)
        told = mounted(kernel, nothing, place)
        wrong += judged("noexec", told, 2, "noexec", place) if told else []
        for tool in ("gcc", "flex", "bison", "bc"):
            wrong += built_without(tool, folder)
    return wrong


def built_without(tool, folder):
    """linux/kernel/build names the package of a tool that is missing."""
    path = os.path.join(folder, f"without_{tool}")
    os.makedirs(path)
    for name in {"sh", "readlink", "dirname", "gcc", "make", "flex", "bison", "bc", "perl"} - {tool}:
        found = shutil.which(name)
        if found:
            os.symlink(found, os.path.join(path, name))
    tree = os.path.join(folder, "tree")
    os.makedirs(os.path.join(tree, "arch/um"), exist_ok=True)
    done = subprocess.run([BUILD, tree, os.path.join(folder, "out")], env={"PATH": path}, stdout=subprocess.PIPE,
                          stderr=subprocess.STDOUT, text=True, check=False)
    print(f"  no {tool}: {done.returncode}: {done.stdout.strip()}")
    right = done.returncode == 2 and f"apt-get install {tool}" in done.stdout
    return [] if right else [f"refused: build without {tool}: status {done.returncode}: {done.stdout.strip()}"]


def stopped(kernel, script, number, place):
    """What a run leaves that a signal ends, as ^C does, once its kernel runs. The lines that are wrong."""
    running = subprocess.Popen([RUN, kernel, script], env={**os.environ, "TMPDIR": place}, stdout=subprocess.DEVNULL,
                               stderr=subprocess.PIPE, text=True)
    begun, until = 0, time.monotonic() + ENDS
    while begun < RUNNING and time.monotonic() < until:
        time.sleep(1)
        begun = len(left_of(place))
    running.send_signal(number)
    try:
        running.communicate(timeout=ENDS)
    except subprocess.TimeoutExpired:
        running.kill()
        return [f"left: {signal.Signals(number).name} doesn't end a run"]
    if number == signal.SIGKILL:    # it can't take its files away
        time.sleep(1)
        left = [what for what in left_of(place) if what.startswith("process")]
        shutil.rmtree(place)
        os.mkdir(place)
    else:
        left = left_of(place)
    print(f"  {signal.Signals(number).name}: status {running.returncode}, of {begun} processes, files and sockets "
          f"{len(left)} are left")
    return [f"left: after {signal.Signals(number).name}: {what}" for what in left] + ([] if begun else ["left: no run"])


def left(outs, _):
    """Nothing is left of a run, also after ^C, and after one that hangs."""
    kernel, wrong = os.path.join(outs[0], "linux"), []
    with tempfile.TemporaryDirectory() as folder, tempfile.TemporaryDirectory(dir="/dev/shm") as place:
        for script in ("sleep 100000000\n", "while :; do :; done\n"):
            path = written(folder, "hangs.sh", script)
            for number in (signal.SIGINT, signal.SIGTERM, signal.SIGHUP, signal.SIGKILL):
                wrong += stopped(kernel, path, number, place)
    return wrong
