"""Puts the page together: its sources in the folder page, the examples, the notices and the module. Read by
tools/page."""
import base64
import gzip
import hashlib
import json
import glob
import os
import re

TOP = os.path.dirname(os.path.dirname(os.path.abspath(__file__)))
FIRST_SCRIPTS = ["elements", "state", "tokens", "texts"]


def read(path):
    """The text of a file of this repository."""
    with open(f"{TOP}/{path}", encoding="utf-8") as source:
        return source.read()


def scripts(folder, first, last):
    """The scripts of a folder, one after another: these first, then by name, and these last."""
    names = [it[:-3] for it in os.listdir(f"{TOP}/page/{folder}") if it.endswith(".js")]
    order = [*first, *sorted(set(names) - set(first) - set(last)), *last]
    return "\n".join(read(f"page/{folder}/{name}.js") for name in order)


def plans():
    """The examples, as a script's data."""
    paths = sorted(glob.glob("examples/*/*.toml", root_dir=TOP))
    return [{"name": os.path.basename(path)[:-5], "text": read(path)} for path in paths]


def notices(kit, libraries):
    """The notices of these libraries of the kit, and of those that they use."""
    parts, waiting, known = [], [*libraries, "std"], []
    while waiting:
        name = waiting.pop(0)
        if name in known or not os.path.isdir(f"{kit}/rlibs/{name}.rlib"):
            continue
        known.append(name)
        with open(f"{kit}/rlibs/{name}.rlib/format", encoding="utf-8") as form:
            waiting += re.findall(r"^dep (\w+)$", form.read(), re.M)
    for name in sorted(known):
        for licence in ("LICENSE-MIT", "LICENSE"):
            path = f"{kit}/rattle/{name}/{licence}"
            if os.path.isfile(path):
                with open(path, encoding="utf-8") as source:
                    parts.append(f"The library {name}:\n\n{source.read().strip()}")
                break
    return "\n\n".join(parts)


def hashed(text):
    """The word by which a policy allows this script or style alone."""
    return "'sha256-" + base64.b64encode(hashlib.sha256(text.encode()).digest()).decode() + "'"


def in_data(text):
    """A text within a script element that isn't run: no tag ends it."""
    return text.replace("</", "<\\/")


def page(module, notice_text):
    """The whole file, of a module and the notices of its libraries."""
    style = "".join(read(f"page/style/{name}.css") for name in ("page", "parts", "texts"))
    own = scripts("script", FIRST_SCRIPTS, ["main"])
    script = f'"use strict";\n(() => {{\n{own}\n}})();\n'
    worker = '"use strict";\n' + scripts("worker", [], ["answers"])
    if "</" in script or "</" in worker:
        raise ValueError("a script has a closing tag in it")
    policy = (f"default-src 'none'; script-src {hashed(script)} 'wasm-unsafe-eval'; style-src {hashed(style)}; "
              "worker-src blob:; img-src data: blob:; base-uri 'none'; form-action 'none'")
    parts = {
        "policy": policy, "style": style, "script": script, "worker": worker,
        "plans": json.dumps(plans(), ensure_ascii=True).replace("<", "\\u003c"),
        "notices": in_data(notice_text),
        "module": base64.b64encode(gzip.compress(module, 9, mtime=0)).decode(),
    }
    return re.sub(r"@(\w+)@", lambda words: parts[words[1]], read("page/page.html"))
