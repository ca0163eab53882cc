"""The checks of the page against the program, each over a tab that shows it. Read by checks/page."""
import os
import re

from page_hands import (
    click_bit, examples, places, press, saved, same, show_example, show_part, shown, sja, text_of,
)

STRIKES = int(os.environ.get("STRIKES", "200"))
TABS = {
    "report": ["run"], "trace": ["trace"], "frames": ["frames"], "candump": ["candump", "--errors"],
    "check": ["check"],
}
FILES = {  # of the menu of exports: what an option ends in, the ending of its file, and the program's words
    ".report": ["run"], ".trace": ["trace"], ".frames": ["frames"], ".log": ["candump", "--errors"], ".vcd": ["wave"],
    ".picture": ["picture"],
}


def texts(tab, _, folder):
    """Each text of each example is that of the program, in the tabs and in the files of the exports."""
    tab.browser.call("Browser.setDownloadBehavior", behavior="allow", downloadPath=folder, eventsEnabled=True)
    options = tab.value('[...document.getElementById("exports").options].map(it => [it.value, it.textContent])')
    count = 0
    for name, plan in examples().items():
        show_example(tab, name)
        same(f"{name}: the plan", text_of(tab), plan)
        for title, words in TABS.items():
            status, printed, told = sja(words, plan)
            same(f"{name}: {title}", shown(tab, title), printed if status == 0 else told)
            count += 1
        for ending, words in FILES.items():
            value = next(value for value, title in options if title.endswith(ending))
            same(f"{name}{ending}", saved(tab, folder, f"{name}{ending}", value), sja(words, plan)[1])
            count += 1
        value = next(value for value, title in options if title.endswith(".svg"))
        at = places(tab)
        last = min(at["bits"] - 1, -(-(at["first"] + (at["end"] - at["left"] - at["names"]) / at["scale"]) // 1))
        drawn = sja(["picture", str(int(at["first"])), str(int(last)), "--svg"], plan)[1]
        same(f"{name}.svg", saved(tab, folder, f"{name}.svg", value), drawn)
        count += 1
    return f"{count} texts of {len(examples())} examples are those of the program"


def strikes(tab, chance, _):
    """Random clicks strike as `sweep --plan` does, and a second click gives the text back."""
    names, count = list(examples()), 0
    while count < STRIKES:
        name = chance.choice(names)
        show_example(tab, name)
        for _ in range(4):
            count += one_strike(tab, chance, name)
    return f"{count} strikes by a click have the report of sweep --plan, and each was taken back"


def one_strike(tab, chance, name):
    """One of them: 1, or 0 where the bit is struck already."""
    show_part(tab, chance.random())
    at, plan = places(tab), text_of(tab)
    room = int((at["end"] - at["left"] - at["names"]) / at["scale"]) - 1
    bit = min(at["bits"] - 1, int(at["first"]) + 1 + chance.randrange(room))
    node = chance.randrange(at["nodes"])
    status, struck, told = sja(["sweep", "--plan", str(node), str(bit)], plan)
    if status:
        raise AssertionError(f"{name}: sweep --plan {node} {bit}: {told}")
    if sja(["run"], struck)[1] == sja(["run"], plan)[1] and re.search(rf'"{node} {bit}\b|"{node} \d+ \d+ \d+"', plan):
        return 0
    click_bit(tab, node, bit)
    same(f"{name}: node {node} bit {bit}", shown(tab, "report"), sja(["run"], struck)[1])
    same(f"{name}: the text with node {node} bit {bit}", sja(["trace"], text_of(tab))[1], sja(["trace"], struck)[1])
    click_bit(tab, node, bit)
    same(f"{name}: the text without node {node} bit {bit}", text_of(tab), plan)
    same(f"{name}: without node {node} bit {bit}", shown(tab, "report"), sja(["run"], plan)[1])
    return 1


def registers(tab, *_):
    """The registers after a bit are what the first read that a driver does right behind it answers."""
    names = {"2": "SR", "4": "IER", "11": "ALC", "12": "ECC", "13": "EWLR", "14": "RXERR", "15": "TXERR", "29": "RMC"}
    count = 0
    for name, plan in examples().items():
        show_example(tab, name)
        press(tab, '[data-name="registers"]')
        for bit, node, address, answer in first_reads(sja(["trace"], plan)[1]):
            if bit == 0 or address not in names:
                continue
            go_to_bit(tab, bit - 1)
            tab.wait(f'document.getElementById("panel").textContent.startsWith("After bit {bit - 1},")', 20)
            said = tab.value(f'[...document.querySelectorAll(".registers")][{node}].innerText')
            if not re.search(rf"^(± )?{names[address]}\s+{answer}\b", said, re.M):
                raise AssertionError(f"{name}: node {node} read {names[address]} as {answer}, and the page has {said}")
            count += 1
    return f"{count} reads of drivers answer what the page has"


def lines(tab, chance, _):
    """The interrupt line is active where the first read of IR right behind a bit tells a cause, and in random bits it
    is what the registers there have."""
    count = 0
    for name, plan in examples().items():
        asked = [it for it in first_reads(sja(["trace"], plan)[1]) if it[2] == "3" and it[0] > 0]
        if not asked:
            continue
        show_example(tab, name)
        press(tab, '[data-name="registers"]')
        for bit, node, _, answer in asked:
            line = line_at(tab, bit - 1)[node]
            if line != ("at rest" if answer == "00" else "active"):
                raise AssertionError(f"{name}: node {node} read IR as {answer} after bit {bit - 1}; its line is {line}")
        for bit in sorted(chance.randrange(places(tab)["bits"]) for _ in range(12)):
            line_at(tab, bit)
        count += len(asked) + 12
    return f"in {count} bits of examples it is what IR says"


def line_at(tab, bit):
    """The interrupt line of each node after a bit, as what is told of the cursor has it; the registers there agree."""
    go_to_bit(tab, bit)
    tab.call("Input.dispatchMouseEvent", type="mouseMoved", x=3, y=3)
    tab.value('document.getElementById("bus").focus()')
    tab.wait(f'document.getElementById("panel").textContent.startsWith("After bit {bit},")', 20)
    found = []
    for caption in tab.value('[...document.querySelectorAll(".registers caption")].map(it => it.textContent)'):
        node, line = caption.removeprefix("node ").split(": interrupt line ")
        for _ in range(8):
            tab.key("ArrowUp")
        for _ in range(int(node)):
            tab.key("ArrowDown")
        says = 'document.getElementById("told").textContent'
        tab.wait(f"/node {node}: .* interrupt line (active|at rest)/.test({says})", 20)
        told = re.search("interrupt line (active|at rest)", tab.value(says))[1]
        if told != line:
            raise AssertionError(f"after bit {bit} the line of node {node} is {told}, and by the registers {line}")
        found.append(line)
    return found


def first_reads(trace):
    """Of each node and bit the first step, where it is a read that was answered: bit, node, address and answer."""
    seen, found = set(), []
    for line in trace.splitlines():
        words = re.match(r"bit (\d+) node (\d+) step \d+: (.*)$", line)
        if not words or words.groups()[:2] in seen:
            continue
        seen.add(words.groups()[:2])
        read = re.fullmatch(r"read (\d+) -> ([0-9a-f]{2})", words[3])
        if read:
            found.append((int(words[1]), int(words[2]), read[1], read[2]))
    return found


def go_to_bit(tab, bit):
    """Goes to a bit by a click on the overview near it and by the arrow keys."""
    at = places(tab)
    show_part(tab, min(0.999, (bit + 0.5) / at["bits"]))
    at = places(tab)
    x = at["left"] + at["names"] + (bit + 0.5 - at["first"]) * at["scale"]
    tab.click(x, at["top"] - 15)
    tab.value("new Promise(settle => requestAnimationFrame(() => requestAnimationFrame(settle)))")


def sweeps(tab, *_):
    """The sweep of a plan has the rows of the program's, outcome by outcome."""
    count = 0
    for name in ("own_case", "one_frame", "by_interrupt"):
        show_example(tab, name)
        press(tab, "#sweep")
        wanted = {}
        for row in sja(["sweep", "--rows", "--yes"], examples()[name])[1].splitlines():
            says = row.split(" ", 2)[2]
            kind = re.sub(r"^(same|other): (.*? at node \d+ bit \d+|no error); ", r"\1: ", says)
            wanted[kind] = wanted.get(kind, 0) + 1
            count += 1
        total = sum(wanted.values())
        tab.wait(f'document.querySelector("#outcomes .note").textContent.includes("{total} of {total} ")', 300)
        lines = tab.value('[...document.querySelectorAll("#outcomes .line")].map(line => line.textContent)')
        found = {line.strip().split("  ", 1)[1]: int(line.split()[0]) for line in lines}
        if len(wanted) <= 200 and found != wanted or not set(found.items()) <= set(wanted.items()):
            raise AssertionError(f"{name}: the outcomes are {sorted(set(found.items()) ^ set(wanted.items()))[:4]}")
        press(tab, "#sweep")
    return f"{count} strikes have the outcomes of the program's sweep"
