"""The checks of how the page is used, each over a tab that shows it. Read by checks/page."""
import os
import subprocess
import time

from page_hands import (
    TOP, click_bit, examples, link_of, long_plan, places, press, same, show_example, shown, sja, text_of,
    type_over, wait_settled,
)
from chromium import Tab
from tried import program

EDITS = int(os.environ.get("EDITS", "1000"))
LINE_TOLD = 'document.getElementById("told").textContent.includes("interrupt line")'
HOSTILE = """# </script><script>window.struck = 1</script> <img src=x onerror="window.struck = 2">
# &lt;b&gt; &quot; ' \\" `${window.struck = 5}` @script@
version = 1
bits = 20
"<img src=x onerror=window.struck=6>" = 1
faults = ["<img src=x onerror=window.struck=3>"]
[[node]]
steps = ["start", "</textarea><script>window.struck = 4</script>"]
"""


def data_of(tab):
    """Where the picture and the cursor stand."""
    return tab.value('(() => { const { first, scale, bits } = document.getElementById("bus").dataset; '
                     'return [first, scale, bits, document.getElementById("told").textContent]; })()')


def key(tab, name, modifiers=0):
    """Presses a key, and waits until it is drawn."""
    tab.key(name, modifiers)
    tab.value("new Promise(settle => requestAnimationFrame(() => requestAnimationFrame(settle)))")


def mistake(tab, *_):
    """A mistake is told below the plan and marked at its line, and the run before stays."""
    plan = examples()["own_case"]
    wrong = plan.replace('"start", "load', '"strat", "load')
    type_over(tab, wrong)
    said = tab.value('document.getElementById("mistake").textContent')
    same("the mistake", said, sja(["check"], wrong)[2])
    marked = tab.value('[...document.querySelectorAll(".numbers .wrong")].map(row => row.textContent.trim())')
    line = next(k + 1 for k, row in enumerate(plan.splitlines()) if '"load' in row and row.startswith("steps"))
    if marked != [f"✗ {line}"]:
        raise AssertionError(f"{marked} is marked and not line {line}")
    if not tab.value('document.body.classList.contains("is-old")'):
        raise AssertionError("the run before isn't greyed")
    same("the report of the run before", shown(tab, "report"), sja(["run"], plan)[1])
    type_over(tab, plan)
    if tab.value('document.querySelectorAll(".wrong").length || document.body.classList.contains("is-old")'):
        raise AssertionError("a line is still marked")
    answers = tab.value('[...document.querySelectorAll(".answers")].map(it => it.textContent.trim())')
    if answers != ["ok · ok · ok · ok · 0c · 08 · 07", "ok · ok · a8 · 5"]:
        raise AssertionError(f"the answers beside the steps are {answers}")
    return "is told, marked and taken back, and each step has its answer beside it"


def link(tab, *_):
    """The link, opened in another tab, shows the same."""
    show_example(tab, "bus_off")
    tab.value('document.getElementById("bus").focus()')
    for name in ("e", "ArrowRight", "-", "x"):
        key(tab, name)
    wait_settled(tab)
    tab.wait(LINE_TOLD)
    press(tab, "#share")
    tab.wait('location.hash.startsWith("#plan=")')
    other = Tab(tab.browser, tab.value("location.href"))
    wait_settled(other)
    other.wait(LINE_TOLD)
    same("the plan of the link", text_of(other), text_of(tab))
    if data_of(other) != data_of(tab):
        raise AssertionError(f"the link shows {data_of(other)} and not {data_of(tab)}")
    length = tab.value("location.hash.length")
    if other.faults():
        raise AssertionError(str(other.faults()))
    third = Tab(tab.browser, link_of_a_test(tab.value("location.href.split('#')[0]")))
    wait_settled(third)
    with open(f"{TOP}/examples/ci/mistake/receive.toml", encoding="utf-8") as source:
        plan = source.read()
    same("the plan of a test's link", text_of(third), plan)
    same("its mistake", third.value('document.getElementById("mistake").textContent'), sja(["check"], plan)[2])
    return f"has {length} characters, and shows the same in another tab; so does that of a test"


def link_of_a_test(page):
    """The link that the script for tests writes of a plan with a mistake."""
    done = subprocess.run(["./plans_hold", "mistake"], cwd=f"{TOP}/examples/ci", stdout=subprocess.PIPE, text=True,
                          env={**os.environ, "SJA": program(), "SJA_PAGE": page}, check=False)
    return next(word for line in done.stdout.splitlines() for word in line.split() if "#plan=" in word)


def keys(tab, *_):
    """The keys alone go to a bit, strike it, compare and take it back."""
    plan = examples()["own_case"]
    show_example(tab, "own_case")
    reached = None
    for _ in range(40):
        key(tab, "Tab")
        reached = tab.value("document.activeElement.id")
        if reached == "bus":
            break
    if reached != "bus":
        raise AssertionError("the picture isn't reached by the tabulator")
    ways = (("Home", 0), ("]", 11), ("ArrowRight", 12), ("ArrowLeft", 11), ("e", 52), ("[", 11), ("End", 134))
    for name, bit in ways:
        key(tab, name)
        said = data_of(tab)[3]
        if not said.startswith(f"bit {bit} "):
            raise AssertionError(f"{name} leads to {said[:60]} and not to bit {bit}")
    for name in ("Home", "]", "ArrowRight", "ArrowDown", "x"):
        key(tab, name)
    wait_settled(tab)
    node = 1 if "node 1" in data_of(tab)[3] else 0
    struck = sja(["sweep", "--plan", str(node), "12"], plan)[1]
    same("the report after x", shown(tab, "report"), sja(["run"], struck)[1])
    tab.value('document.getElementById("bus").focus()')
    tab.call("Input.dispatchKeyEvent", type="keyDown", key=" ", code="Space", windowsVirtualKeyCode=32, text=" ")
    tab.wait('document.getElementById("told").textContent.startsWith("THE RUN BEFORE")', 5)
    tab.call("Input.dispatchKeyEvent", type="keyUp", key=" ", code="Space", windowsVirtualKeyCode=32)
    key(tab, "z", 2)
    wait_settled(tab)
    same("the plan after ctrl-z", text_of(tab), plan)
    return "lead to bits, frames and errors, strike, compare and undo"


def hostile(tab, *_):
    """What a link brings is a text: none of its markup is run or becomes an element."""
    before = tab.value('document.querySelectorAll("*").length - document.querySelectorAll("pre *, .panel *").length')
    words = "&bit=<img src=x>&first=1e999&scale=NaN&node=-5"
    other = Tab(tab.browser, tab.value("location.href") + link_of(HOSTILE, words))
    wait_settled(other)
    same("the plan", text_of(other), HOSTILE)
    for name in ("trace", "frames", "registers", "check", "report"):
        press(other, f'[data-name="{name}"]')
    if other.value("window.struck") or other.value('document.images.length || document.scripts.length > 5'):
        raise AssertionError("markup of a plan became part of the page")
    same("the mistake", other.value('document.getElementById("mistake").textContent'), sja(["check"], HOSTILE)[2])
    good = HOSTILE.replace('"<img src=x onerror=window.struck=6>" = 1\n', "").replace(
        'faults = ["<img src=x onerror=window.struck=3>"]', "").replace(
        ', "</textarea><script>window.struck = 4</script>"', "")
    type_over(other, good)
    same("the report", shown(other, "report"), sja(["run"], good)[1])
    for bad in ("#plan=%3Cscript%3E", "#plan=AAAA", "#plan=", "#" + "x" * 70000):
        other.value(f'location.hash = "{bad}"')
        time.sleep(0.1)
    if other.value("window.struck") or other.faults():
        raise AssertionError(f"a broken link did something: {other.faults()}")
    after = tab.value('document.querySelectorAll("*").length - document.querySelectorAll("pre *, .panel *").length')
    if before != after:
        raise AssertionError(f"{after} elements, and {before} before")
    return "plans and links stay texts"


def memory_of(browser):
    """How many bytes the browser's processes have in memory."""
    listed = subprocess.run(["ps", "-eo", "rss,args"], stdout=subprocess.PIPE, text=True, check=True).stdout
    return sum(int(line.split()[0]) for line in listed.splitlines() if browser.folder in line) * 1024


def memory(tab, chance, _):
    """Many edits leave no more memory taken than few do."""
    show_example(tab, "own_case")
    taken = []
    for at in range(EDITS):
        if at in (EDITS // 10, EDITS - 1):
            tab.call("HeapProfiler.collectGarbage")
            taken.append(memory_of(tab.browser))
        at_places = places(tab)
        click_bit(tab, chance.randrange(2), int(at_places["first"]) + 2 + chance.randrange(50))
    grown = (taken[1] - taken[0]) / 1e6
    if grown > 120:
        raise AssertionError(f"{EDITS} edits took {grown:.0f} MB more")
    return f"{taken[0] / 1e6:.0f} MB after {EDITS // 10} edits, {taken[1] / 1e6:.0f} MB after {EDITS}"


def pictures(tab, *_):
    """Pictures at two widths, to be looked at."""
    folder = os.environ.get("PICTURES", os.path.join(TOP, "crates/sja_page/out"))
    os.makedirs(folder, exist_ok=True)
    show_example(tab, "own_case")
    tab.value('document.getElementById("bus").focus()')
    for name in ("e", "ArrowLeft", "ArrowLeft", "x"):
        key(tab, name)
    wait_settled(tab)
    for width, height in ((1500, 900), (800, 1500)):
        tab.resize(width, height)
        time.sleep(0.5)
        wide = tab.value("document.documentElement.scrollWidth")
        if wide > width:
            raise AssertionError(f"the page is {wide} wide at {width}")
        tab.picture(f"{folder}/page_{width}.png")
    return f"are in {folder}"


def stopped(tab, *_):
    """A plan that takes long is stopped by its button, the page goes on, and the next run is right."""
    plan = examples()["own_case"]
    large = long_plan("contending", 2000000).replace("version = 1", "version = 3")
    tab.value('(() => { const field = document.getElementById("text"); field.focus(); field.select(); })()')
    tab.call("Input.insertText", text=large)
    tab.wait('!document.getElementById("stop").hidden', 20)
    press(tab, "#stop")
    tab.wait('document.getElementById("mistake").textContent.startsWith("stopped")', 5)
    type_over(tab, plan)
    same("the report after a stop", shown(tab, "report"), sja(["run"], plan)[1])
    return "is stopped, and the next run is right"


def no_memory(tab, *_):
    """Where the browser refuses memory the page says so, and the next run is right."""
    plan = examples()["own_case"]
    large = "version = 3\nbits = 2000000\n" + '[[node]]\nsteps = ["start"]\n' * 8
    type_over(tab, large)
    said = tab.value('document.getElementById("mistake").textContent')
    if "emory" not in said:
        raise AssertionError(f"of refused memory is said: {said[:200]}")
    type_over(tab, plan)
    same("the report after refused memory", shown(tab, "report"), sja(["run"], plan)[1])
    return f"is told ({said.strip()[:60]}), and the next run is right"
