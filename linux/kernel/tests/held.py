# SPDX-License-Identifier: GPL-2.0-only
"""What checks/kernel looks at: each check gives the lines that are wrong."""

import difflib
import importlib.util
import os
import pathlib
import re
import subprocess
import sys
import tempfile

import delayed
import refused
import spelled
from drivers import CARDS, card_of
from kernels import Kernels, ScriptFailed
from made import TOP, library, program

HERE = pathlib.Path(__file__).resolve().parent
FRAMES = ["123#1122", "12345678#0102030405060708", "7FF#"]
RUNS = 10


def kernel_of(out):
    return os.path.join(out, "linux")


def source_of(out):
    return os.path.realpath(os.path.join(out, "source"))


def differing(name, left, right):
    """The first lines in which two texts differ."""
    lines = difflib.unified_diff(left.splitlines(), right.splitlines(), lineterm="", n=0)
    found = [line for line in lines if line[:1] in "+-" and line[:3] not in ("+++", "---")]
    return [f"{name}: {len(found)} lines differ, the first {found[0]}"] if found else []


def ran(kernel, script, **options):
    """What a script prints, in a kernel of its own."""
    with Kernels(kernel, **options) as kernels:
        text, = kernels.run(pathlib.Path(script))
    return text


def same_each_time(outs, _):
    """Ten runs have the same text, and the same log of each register access."""
    wrong = []
    for out in outs:
        with tempfile.TemporaryDirectory() as folder:
            log = os.path.join(folder, "log")
            texts = [ran(kernel_of(out), HERE / "struck.sh", card=card_of(out), log=log) +
                     pathlib.Path(log).read_text("ascii") for _ in range(RUNS)]
        wrong += [line for text in texts[1:] for line in differing(f"{out} again", texts[0], text)]
        print(f"  {out}: {RUNS} runs, {len(texts[0].splitlines())} lines each")
    return wrong


def swept(outs, _):
    """Each bit of three frames struck at each node: the kernel's stacks get what the shim's get."""
    wrong = []
    for out in outs:
        for frame in FRAMES:
            with Kernels(kernel_of(out), nodes=3, card=card_of(out), seconds=300) as kernels:
                real, = kernels.run(f"{sys.executable} {HERE}/sweep.py kernel '{frame}'")
            shim = subprocess.run([sys.executable, str(HERE / "sweep.py"), "shim", frame, source_of(out)],
                                  stdout=subprocess.PIPE, text=True, check=True, env=shim_environment()).stdout
            wrong += differing(f"{out} {frame}", real, shim)
            struck = sum("20000" in line for line in real.splitlines())
            print(f"  {out} {frame}: {len(real.splitlines())} lines, {struck} with an error frame")
    return wrong


def shim_environment():
    """linux/board.py takes the same library, or the same program."""
    linked = library()
    named = {"SJA_LIBRARY": re.sub(r"\.a$", ".so", linked)} if linked else {"SJA_LIBRARY": "", "SJA": program()}
    return dict(os.environ, **named)


def cards(outs, _):
    """Each card does the same: a frame each way, a struck bit, bus-off and the restart."""
    wrong = []
    for out in outs:
        first = None
        for card in CARDS:
            try:
                text = ran(kernel_of(out), HERE / "card.sh", card=card)
            except refused.SetupError as missing:
                print(f"  {out} {card}: {missing}")
                continue
            first = first or text
            wrong += differing(f"{out} {card}", first, text)
            if "20000040#" not in text or "20000100#" not in text or not text.endswith("\n"):
                wrong.append(f"{out} {card}: no bus-off, or no restart")
            print(f"  {out} {card}: {len(text.splitlines())} lines")
    return wrong


def error_frames(text, node):
    return re.findall(rf"{node} (2[0-9A-F]{{7}}#[0-9A-F]*)", text)


def replayed(outs, _):
    """The plan of a run has the run's error frames."""
    wrong = []
    for out in outs:
        with tempfile.TemporaryDirectory() as folder:
            plan = os.path.join(folder, "plan.toml")
            text = ran(kernel_of(out), HERE / "card.sh", card=card_of(out), plan=plan)
            with open(plan, "rb") as file:
                told = subprocess.run([program(), "candump", "--errors"], stdin=file, stdout=subprocess.PIPE, text=True,
                                      check=True).stdout
        for node in ("can0", "can1"):
            real = error_frames(text, node)
            wrong += differing(f"{out} {node}'s plan", "\n".join(real), "\n".join(error_frames(told, node)))
            print(f"  {out} {node}: {len(real)} error frames")
    return wrong


def together(outs, _):
    """Kernels of several versions on one bus: the same each time, and an overrun by a late handler."""
    several = (list(outs) * 3)[:max(2, min(3, len(outs)))]
    texts = []
    for _ in range(3):
        with Kernels(*map(kernel_of, several), nodes=1, card=card_of(*several)) as kernels:
            texts.append("".join(kernels.run(*[HERE / "turns.sh"] * len(several))))
    with Kernels(*map(kernel_of, several[:2]), nodes=1, card=card_of(*several[:2])) as kernels:
        overrun = kernels.run(*[HERE / "overrun.sh"] * 2)[1]
    print(f"  {len(several)} kernels with {card_of(*several)}: {texts[0].count('can0')} frames")
    wrong = [line for text in texts[1:] for line in differing("together", texts[0], text)]
    if "20000204#0001" not in overrun:
        wrong.append("together: no overrun is told")
    if texts[0].count("20000") < len(several):
        wrong.append("together: the struck bit isn't told")
    return wrong


PLANTED = {
    "use-after-free": ("priv->can.can_stats.arbitration_lost++;",
                       "priv->can.can_stats.arbitration_lost++; kfree_skb(skb);"),
    "inconsistent": ("spin_lock_irqsave(&priv->cmdreg_lock, flags);", "flags = 0; spin_lock(&priv->cmdreg_lock);"),
}


def planted_driver(tree, out, folder, old, new):
    """A copy of the driver with a mistake, as modules."""
    own = os.path.join(folder, "own")
    subprocess.run(["cp", "-r", os.path.join(tree, "drivers/net/can/sja1000"), own], check=True)
    path = pathlib.Path(own, "sja1000.c")
    text = path.read_text("utf-8")
    assert text.count(old) == 1, old
    text = text.replace(old, new)
    if "spin_lock(" in new:
        text = text.replace("spin_unlock_irqrestore(&priv->cmdreg_lock, flags)", "spin_unlock(&priv->cmdreg_lock)")
    path.write_text(text, "utf-8")
    subprocess.run([os.path.join(TOP, "linux/kernel/build"), "--modules", own, out], check=True)
    return own


def mistakes(_, debug):
    """KASAN and lockdep find a mistake each that is planted, and nothing in the driver as it is."""
    if debug is None:
        print("  no kernel of debug.config and own.config is named")
        return []
    sound = ran(kernel_of(debug), HERE / "own.sh")
    wrong = [f"the sound driver: {line}" for line in sound.splitlines() if "can" not in line.split(" ", 1)[0]]
    for word, (old, new) in PLANTED.items():
        with tempfile.TemporaryDirectory() as folder:
            own = planted_driver(source_of(debug), debug, folder, old, new)
            text = ran(kernel_of(debug), HERE / "own.sh", driver=own)
        found = [line for line in text.splitlines() if word in line]
        print(f"  {found[0].strip() if found else 'nothing'}")
        wrong += [] if found else [f"the planted {word} isn't found"]
    return wrong


def shown(outs, _):
    """The transcript of docs/use/KERNEL.md is what the first kernel prints, but for times.

    Tools of another version have other ones."""
    page = pathlib.Path(TOP, "docs/use/KERNEL.md").read_text("utf-8")
    said = page[page.index("--- a frame\n"):].split("\n```", 1)[0]
    told = ran(kernel_of(outs[0]), HERE / "struck.sh")
    return differing("docs/use/KERNEL.md", *(re.sub(r"^\([\d.]*\)", "", text, flags=re.M) for text in (said, told)))


def tested(outs, _):
    """The example for pytest holds."""
    if importlib.util.find_spec("pytest") is None:
        print("  there is no pytest: apt-get install python3-pytest")
        return []
    words = [sys.executable, "-B", "-m", "pytest", "-q", "-p", "no:cacheprovider", str(HERE.parent / "example_test.py")]
    done = subprocess.run(words, env=dict(os.environ, KERNEL=kernel_of(outs[0])), stdout=subprocess.PIPE, text=True,
                          check=False)
    print(f"  {done.stdout.splitlines()[-1]}")
    return [] if done.returncode == 0 else [f"tested: {done.stdout}"]


CHECKS = {check.__name__: check for check in (shown, spelled.spelled, tested, delayed.delayed, same_each_time, swept,
                                              cards, replayed, together, mistakes, refused.refused, refused.left)}


def all_of(outs, debug, only):
    wrong = []
    for name, check in CHECKS.items():
        if only and name not in only:
            continue
        print(f"{name}: {check.__doc__.splitlines()[0]}", flush=True)
        try:
            wrong += check(outs, debug)
        except ScriptFailed as failed:
            wrong.append(f"{name}: {failed}: {''.join(failed.texts)[-300:]}")
    return wrong
