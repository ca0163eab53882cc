#!/usr/bin/env python3
"""The crate sja_page as a module: what the compiler is given of it, and that compiled for a browser. Read by
tools/page.

    tools/page_module.py TREE FILE    proves the crate of this tree over the libraries that were proved there, and keeps
                                      in FILE what the compiler is given of it; ./prove sja_page does that
"""
import os
import re
import shutil
import subprocess
import sys
import tempfile

TOP = os.path.dirname(os.path.dirname(os.path.abspath(__file__)))
KIT = os.environ.get("RATTLE_KIT", "/opt/rattle")
CRATE = "sja_page"
TARGET = "wasm64-unknown-unknown"
LAYOUT = "e-m:e-p:64:64-p10:8:8-p20:8:8-i64:64-i128:128-n32:64-S128-ni:1:10:20"
STACK = 4194304


class Missing(Exception):
    """Something that has to be there isn't."""


# ---- proved


def crates_below(tree, name):
    """The libraries that a crate needs, from crates.txt: those of this repository, and those of the kit."""
    needs = {}
    with open(f"{tree}/crates.txt", encoding="utf-8") as listed:
        for line in listed:
            head, colon, names = line.split("#")[0].partition(":")
            if colon:
                needs[head.split()[0]] = names.split()
    own, others, waiting = [], [], list(needs[name])
    while waiting:
        found = waiting.pop(0)
        if found in needs and found not in own:
            own.append(found)
            waiting += needs[found]
        elif found not in needs and found not in others:
            others.append(found)
    return needs[name], own, others


def library_words(tree):
    """The words by which the compiler finds the libraries; an error where one isn't there."""
    direct, own, _ = crates_below(tree, CRATE)
    missing = [it for it in own if not os.path.isdir(f"{tree}/crates/{it}/out/rlib/{it}.rlib")]
    if missing:
        raise Missing(f"no proved library of {', '.join(sorted(missing))}: ./prove makes them")
    words = ["--extern", f"std={KIT}/rlibs/std.rlib", "-L", f"dependency={KIT}/rlibs"]
    for name in direct:
        at = f"{tree}/crates/{name}/out/rlib" if name in own else f"{KIT}/rlibs"
        words += ["--extern", f"{name}={at}/{name}.rlib"]
    for name in own:
        words += ["-L", f"dependency={tree}/crates/{name}/out/rlib"]
    return words


def look_for_the_kit():
    """An error where a part of the kit isn't there."""
    for part in ("bin/rattle", "bin/rattle-link", "toolchain/bin/clang", "toolchain/bin/llvm-ar", "logic_built"):
        if not os.path.exists(f"{KIT}/{part}"):
            raise Missing(f"no {KIT}/{part}: the kit isn't there; RATTLE_KIT names another folder")


def run(words, **more):
    """Runs a program; an error with its last lines where it fails."""
    done = subprocess.run(words, stdout=subprocess.PIPE, stderr=subprocess.STDOUT, text=True, check=False, **more)
    if done.returncode:
        last = "\n".join(done.stdout.strip().splitlines()[-4:])[-1500:]
        raise Missing(f"{os.path.basename(words[0])} failed with status {done.returncode}:\n{last}")
    return done.stdout


def keeping_toolchain(work):
    """A toolchain as the kit's, whose clang keeps what it is given to compile."""
    os.makedirs(f"{work}/chain/bin")
    os.symlink(f"{KIT}/toolchain/lib", f"{work}/chain/lib")
    for name in os.listdir(f"{KIT}/toolchain/bin"):
        if name != "clang":
            os.symlink(f"{KIT}/toolchain/bin/{name}", f"{work}/chain/bin/{name}")
    path = f"{work}/chain/bin/clang"
    with open(path, "w", encoding="utf-8") as script:
        script.write(f"""#!/bin/sh
for word in "$@"; do
    case $word in *.bc) cp "$word" '{work}/module.bc' || exit 1 ;; esac
done
exec '{KIT}/toolchain/bin/clang' "$@"
""")
    os.chmod(path, 0o755)
    return f"{work}/chain"


def keep_proved(tree, path):
    """Proves the crate as it compiles it, and keeps in a file what clang is given."""
    look_for_the_kit()
    with tempfile.TemporaryDirectory(prefix="page-") as work:
        run([f"{KIT}/bin/rattle", "build", "--crate-name", CRATE, "--crate-type", "staticlib", "src/lib.rt",
             *library_words(tree), "--antt-project", f"{KIT}/rattle/logic/antt-project.json",
             "--logic-built", f"{KIT}/logic_built", "--links", f"{CRATE}=", "--backend", "llvm",
             "--toolchain", keeping_toolchain(work), "-o", f"{work}/library.a"],
            cwd=f"{tree}/crates/{CRATE}")
        shutil.move(f"{work}/module.bc", path)


# ---- for a browser


def shuffle():
    """One instruction of x86-64 that a library names, as steps that each machine has: bytes by their places."""
    lines, last = [], "zeroinitializer"
    for at in range(16):
        lines += [
            f"  %place{at} = extractelement <16 x i8> %places, i32 {at}", f"  %low{at} = and i8 %place{at}, 15",
            f"  %byte{at} = extractelement <16 x i8> %bytes, i8 %low{at}", f"  %none{at} = icmp slt i8 %place{at}, 0",
            f"  %value{at} = select i1 %none{at}, i8 0, i8 %byte{at}",
            f"  %row{at} = insertelement <16 x i8> {last}, i8 %value{at}, i32 {at}",
        ]
        last = f"%row{at}"
    head = "define internal <16 x i8> @shuffled(<16 x i8> %bytes, <16 x i8> %places) {"
    return "\n".join([head, *lines, f"  ret <16 x i8> {last}", "}"])


def for_browser(text):
    """The module's text for a browser: its target, its one export, and nothing of the processor it was made for."""
    text = re.sub(r"^target datalayout = .*$", f'target datalayout = "{LAYOUT}"', text, count=1, flags=re.M)
    text = re.sub(r"^target triple = .*$", f'target triple = "{TARGET}"', text, count=1, flags=re.M)
    text = re.sub(r' "(?:target-cpu|target-features|probe-stack|stack-probe-size)"="[^"]*"', "", text)
    export = re.compile(rf"^(define [^\n]*@{CRATE}\([^\n]*?) \{{$", re.M)
    text, count = export.subn(rf'\1 "wasm-export-name"="{CRATE}" {{', text)
    if count != 1:
        raise Missing(f"the compiled crate has {count} functions {CRATE}")
    declared = r"^declare <16 x i8> @llvm\.x86\.ssse3\.pshuf\.b\.128\([^\n]*$"
    text = re.sub(declared, lambda _: shuffle(), text, flags=re.M)
    text = text.replace("@llvm.x86.ssse3.pshuf.b.128(", "@shuffled(")
    left = sorted(set(re.findall(r"@llvm\.x86\.[a-z0-9.]+", text)))
    if left:
        raise Missing(f"the module names instructions of x86-64 alone: {', '.join(left)}")
    return text


def browser_module(kept):
    """The module for a browser, of what was kept and the heap."""
    with tempfile.TemporaryDirectory(prefix="page-") as work:
        return compiled(kept, work)


def compiled(kept, work):
    """The same, made in a folder."""
    clang = [f"{KIT}/toolchain/bin/clang", "--no-default-config"]
    run([*clang, "--target=x86_64-unknown-linux-gnu", "-S", "-emit-llvm", "-Xclang", "-disable-llvm-passes", "-x", "ir",
         kept, "-o", "module.ll"], cwd=work)
    with open(f"{work}/module.ll", encoding="utf-8") as source:
        text = for_browser(source.read())
    with open(f"{work}/browser.ll", "w", encoding="utf-8") as out:
        out.write(text)
    common = [*clang, f"--target={TARGET}", "-mcpu=lime1", "-O3", "-ffunction-sections", "-fdata-sections", "-c"]
    run([*common, "-mllvm", "-expand-div-rem-bits=64", "-mllvm", "-expand-fp-convert-bits=64", "-x", "ir", "browser.ll",
         "-o", "browser.o"], cwd=work)
    run([*common, "-ffreestanding", "-Wall", "-Wextra", "-Werror", f"{TOP}/c/page_heap.c", "-o", "heap.o"], cwd=work)
    run([f"{KIT}/toolchain/bin/llvm-ar", "rcsD", "page.a", "browser.o", "heap.o"], cwd=work)
    run([f"{KIT}/bin/rattle-link", "--target", TARGET, "--toolchain", f"{KIT}/toolchain", "--stack", str(STACK),
         "-o", "page.wasm", "page.a"], cwd=work)
    with open(f"{work}/page.wasm", "rb") as made:
        return made.read()


def main():
    """Keeps what the compiler is given."""
    if len(sys.argv) != 3:
        sys.exit(__doc__)
    try:
        keep_proved(os.path.abspath(sys.argv[1]), os.path.abspath(sys.argv[2]))
    except (Missing, OSError) as why:
        sys.exit(f"page_module: {why}")


if __name__ == "__main__":
    main()
