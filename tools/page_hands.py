"""What a person does with the page, over a tab of Chromium, and what the program says. Read by checks/page."""
import glob
import json
import os
import subprocess
import time
import zlib
from base64 import urlsafe_b64encode

from tried import program

TOP = os.path.dirname(os.path.dirname(os.path.abspath(__file__)))
SETTLED = 'document.querySelector("main").getAttribute("aria-busy") === "false"'


def sja(words, plan):
    """The status, the text and what is told of the program for these words over a plan."""
    done = subprocess.run([program(), *words], input=plan, capture_output=True, text=True, check=False)
    return done.returncode, done.stdout, done.stderr


def examples():
    """The examples by name."""
    found = {}
    for path in sorted(glob.glob(f"{TOP}/examples/*/*.toml")):
        with open(path, encoding="utf-8") as source:
            found[os.path.basename(path)[:-5]] = source.read()
    return found


def long_plan(kind, bits):
    """A plan of tools/long_plan with so many bits."""
    text = subprocess.run([f"{TOP}/tools/long_plan", kind], stdout=subprocess.PIPE, text=True, check=True).stdout
    return text.replace("bits = 200000\n", f"bits = {bits}\n").replace('"bus 200000"', f'"bus {bits}"')


def same(what, found, wanted):
    """An error where two texts differ, with the first line that does."""
    if found == wanted:
        return
    one, other = found.splitlines(), wanted.splitlines()
    at = next((k for k, (a, b) in enumerate(zip(one, other)) if a != b), min(len(one), len(other)))
    raise AssertionError(f"{what}: line {at + 1} is {one[at:at + 1]} and not {other[at:at + 1]}")


# ---- what a person does


def wait_settled(tab):
    """Waits until the texts are those of the plan."""
    tab.wait('document.querySelector("main[aria-busy]") !== null')
    tab.wait(SETTLED)


def text_of(tab):
    """The plan in the editor."""
    return tab.value('document.getElementById("text").value')


def choose(tab, menu, value):
    """Chooses an entry of a menu."""
    tab.value(f'(() => {{ const menu = document.getElementById({json.dumps(menu)}); menu.value = {json.dumps(value)}; '
              'menu.dispatchEvent(new Event("change", { bubbles: true })); })()')


def show_example(tab, name):
    """Shows an example."""
    choose(tab, "examples", name)
    wait_settled(tab)


def press(tab, selector):
    """Clicks in the middle of an element."""
    x, y = tab.value(f'(() => {{ const it = document.querySelector({json.dumps(selector)}); it.scrollIntoView('
                     '{ block: "nearest" }); const box = it.getBoundingClientRect(); '
                     'return [box.left + box.width / 2, box.top + box.height / 2]; })()')
    tab.click(x, y)


def shown(tab, name):
    """The text of a tab, as its lines are shown."""
    press(tab, f'[data-name="{name}"]')
    lines = tab.value('[...document.querySelectorAll("#panel > .line")].map(line => line.textContent.slice(1))')
    return "".join(line + "\n" for line in lines)


def type_over(tab, text):
    """Types a text in place of the plan."""
    tab.value('(() => { const field = document.getElementById("text"); field.focus(); field.select(); })()')
    tab.call("Input.insertText", text=text)
    time.sleep(0.2)
    wait_settled(tab)


def places(tab):
    """Where the picture stands, and which bits it shows."""
    return tab.value("""(() => { const canvas = document.getElementById("bus");
        canvas.scrollIntoView({ block: "nearest" });
        const box = canvas.getBoundingClientRect(); const sheet = canvas.parentElement.getBoundingClientRect();
        const [names, top, high, nodes] = canvas.dataset.places.split(" ").map(Number);
        return { left: box.left, top: box.top + top, end: box.right, bottom: sheet.bottom, names, high, nodes,
            first: Number(canvas.dataset.first), scale: Number(canvas.dataset.scale),
            bits: Number(canvas.dataset.bits) };
    })()""")


def show_part(tab, share):
    """Clicks into the overview at this share of its width."""
    box = tab.value('(() => { const box = document.getElementById("overview").getBoundingClientRect(); '
                    'return [box.left, box.top, box.width, box.height]; })()')
    tab.click(box[0] + box[2] * share, box[1] + box[3] / 2)
    tab.value("new Promise(settle => requestAnimationFrame(() => requestAnimationFrame(settle)))")


def click_bit(tab, node, bit):
    """Clicks a bit of a node that is seen."""
    at = places(tab)
    x = at["left"] + at["names"] + (bit + 0.5 - at["first"]) * at["scale"]
    y = at["top"] + node * at["high"] + 13
    if y > at["bottom"] - 4:
        tab.value(f'document.querySelector(".bus-sheet").scrollTop += {y - at["bottom"] + 40}')
        y = places(tab)["top"] + node * at["high"] + 13
    tab.click(x, y)
    wait_settled(tab)


def link_of(plan, words=""):
    """The fragment of a link with this plan."""
    packer = zlib.compressobj(9, zlib.DEFLATED, -15)
    packed = packer.compress(plan.encode()) + packer.flush()
    return "#plan=" + urlsafe_b64encode(packed).decode().rstrip("=") + words


def saved(tab, folder, name, value):
    """The text of a file that an entry of the menu of exports saves."""
    path = os.path.join(folder, name)
    before = sum(1 for it in tab.browser.events if finished(it))
    time.sleep(0.15)  # of more than ten files in a second Chromium drops some
    choose(tab, "exports", value)
    press(tab, "#save")
    end = time.monotonic() + 20
    while sum(1 for it in tab.browser.events if finished(it)) <= before:
        if time.monotonic() > end:
            raise RuntimeError(f"no file {name} was saved")
        tab.browser.take(0.2)
    with open(path, encoding="utf-8") as source:
        text = source.read()
    os.remove(path)
    return text


def finished(event):
    """Whether an event says that a file was saved."""
    return event["method"] == "Browser.downloadProgress" and event["params"]["state"] == "completed"
