# SPDX-License-Identifier: GPL-2.0-only
"""Builds the process of the bus and the programs of a guest, at their first use, and keeps them in the user's cache."""

import hashlib
import os
import shutil
import subprocess

HERE = os.path.dirname(os.path.realpath(__file__))
TOP = os.path.dirname(os.path.dirname(HERE))
FLAGS = ["-std=gnu11", "-D_GNU_SOURCE", "-O2", "-Wall", "-Wextra"]
GUEST = {"first": ["first.c", "window.c"], "bus": ["bus.c", "window.c"]}


class SetupError(Exception):
    """What keeps a run from beginning, with what to do."""
    status = 2


HIDDEN = ("/dev", "/proc", "/sys", "/run")     # folders of the machine in whose place a kernel has its own


def is_hidden(path):
    """Whether a kernel doesn't see a file of the machine."""
    return any(os.path.realpath(path).startswith(folder + "/") for folder in HIDDEN)


def library():
    """The library that the bus is linked with: SJA_C names it. None: the calls go over a pipe to a program."""
    named = os.environ.get("SJA_C")
    path = os.path.join(TOP, "crates/sja_c/out/libsja.a") if named is None else named
    if os.path.isfile(path):
        return path
    if named:
        raise SetupError(f"there is no library {named}")
    return None


def program():
    """The program that is the session if there is no library: SJA names it."""
    named = os.environ.get("SJA") or os.path.join(TOP, "crates/sja/out/sja")
    found = shutil.which(named) or shutil.which("sja")
    if found is None:
        raise SetupError("there is neither a library nor a program: ./prove sja_c or ./prove makes one")
    return found


def _given():
    """More flags for the process of the bus, that CFLAGS names: those of sanitizers, say."""
    return os.environ.get("CFLAGS", "").split()


def _files(folder, ending):
    return sorted(os.path.join(folder, name) for name in os.listdir(folder) if name.endswith(ending))


def _compiled(out, sources, flags=(), libraries=()):
    compiler = os.environ.get("CC", "cc")
    if shutil.which(compiler) is None:
        raise SetupError(f"there is no C compiler {compiler}: apt-get install gcc libc6-dev")
    part = f"{out}.{os.getpid()}"
    words = [compiler, *FLAGS, *flags, *sources, *libraries, "-o", part]
    done = subprocess.run(words, stdout=subprocess.PIPE, stderr=subprocess.STDOUT, text=True, check=False)
    if done.returncode:
        first = next((line for line in done.stdout.splitlines() if "error" in line), done.stdout.strip())
        raise SetupError(f"{os.path.basename(out)} isn't compiled, apt-get install libc6-dev linux-libc-dev? {first}")
    os.replace(part, out)


def _is_new(out, sources):
    return os.path.exists(out) and all(os.path.getmtime(file) <= os.path.getmtime(out) for file in sources)


def _cache(key):
    """A folder for what is made: the user's cache, if it can be written to, and a kernel sees it."""
    cache = os.environ.get("XDG_CACHE_HOME") or os.path.expanduser("~/.cache")
    folder = os.path.join(cache, "sja", f"kernel-{key}")
    try:
        os.makedirs(folder, exist_ok=True)
    except OSError:
        return None
    return folder if os.access(folder, os.W_OK) and not is_hidden(folder) else None


def made(without):
    """Where the process of the bus is, and the folder of a guest's programs. If there is no cache they are made in a
    folder that a call of `without` gives."""
    linked = library()
    calls = [linked] if linked else [os.path.join(TOP, "c/sja_pipe.c")]
    folder = _cache(hashlib.sha256(repr((HERE, calls, _given())).encode()).hexdigest()[:16]) or without()
    tools = os.path.join(folder, "tools")
    os.makedirs(tools, exist_ok=True)
    bus, guest, header = os.path.join(HERE, "bus"), os.path.join(HERE, "guest"), os.path.join(TOP, "c")
    out = os.path.join(folder, "bus")
    if not _is_new(out, _files(bus, (".c", ".h")) + [os.path.join(header, "sja.h")] + calls):
        _compiled(out, _files(bus, ".c"), [*_given(), "-I", bus, "-I", header], calls)
    for name, sources in GUEST.items():
        if not _is_new(os.path.join(tools, name), _files(guest, (".c", ".h"))):
            _compiled(os.path.join(tools, name), [os.path.join(guest, source) for source in sources])
    up = os.path.join(tools, "up")
    if not _is_new(up, [os.path.join(guest, "up")]):
        shutil.copy(os.path.join(guest, "up"), f"{up}.{os.getpid()}")
        os.replace(f"{up}.{os.getpid()}", up)
    return out, tools
