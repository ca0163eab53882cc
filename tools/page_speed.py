"""The check of how long the page takes, by the browser's own clocks. Read by checks/page."""
import time
from collections import Counter

from page_hands import long_plan, places, same, shown, sja, type_over, wait_settled

MOST = 100  # milliseconds from a click to the new picture that were set out for a quiet machine
KINDS = "devtools.timeline,blink.user_timing,disabled-by-default-devtools.timeline"


def speed(tab, *_):
    """How long it is from a click to the new picture, with 10,000 bits of two nodes; and 200,000 bits are drawn. What a
    busy machine does beside it isn't counted in the time of the processor, which is that of the page with the greater
    one of the two runs beside each other."""
    type_over(tab, long_plan("busy", 10000))
    tab.value('window.addEventListener("pointerup", () => performance.mark("clicked"), true)')
    clicks = sorted(one_click(tab, at) for at in range(7))
    work = sorted(it[1] for it in clicks)
    if work[len(work) // 2] > MOST:
        raise AssertionError(f"from click to picture the processor worked for {work} ms")
    large = long_plan("busy", 200000)
    began = time.monotonic()
    type_over(tab, large)
    seconds = time.monotonic() - began
    drawn = tab.value('(() => { const of = name => performance.getEntriesByName(name).pop().startTime; '
                      'return of("drawn") - of("asked"); })()') / 1000
    if places(tab)["bits"] != 200000:
        raise AssertionError("the run of 200,000 bits isn't shown")
    same("the report of 200,000 bits", shown(tab, "report"), "".join(sja(["run"], large)[1].splitlines(True)[:3000]))
    middle = len(clicks) // 2
    return (f"from click to picture {clicks[0][0]:.0f} to {clicks[-1][0]:.0f} ms, in the middle "
            f"{clicks[middle][0]:.0f}, of which the processor worked for {work[0]:.0f} to {work[-1]:.0f}, in the "
            f"middle {work[middle]:.0f}; 200,000 bits are drawn after {drawn:.1f} s, and have all texts after "
            f"{seconds:.1f} s")


def one_click(tab, at):
    """The milliseconds from a click on a bit to the new picture, and those that the processor worked."""
    browser, where = tab.browser, places(tab)
    begun = len(browser.events)
    browser.call("Tracing.start", categories=KINDS, transferMode="ReportEvents")
    tab.click(where["left"] + where["names"] + (20.5 + at) * where["scale"], where["top"] + 13)
    wait_settled(tab)
    browser.call("Tracing.end")
    end = time.monotonic() + 20
    while not any(it["method"] == "Tracing.tracingComplete" for it in browser.events[begun:]):
        if time.monotonic() > end:
            raise RuntimeError("the browser told nothing of its work")
        browser.take(0.2)
    told = [it["params"]["value"] for it in browser.events[begun:] if it["method"] == "Tracing.dataCollected"]
    browser.events[begun:] = [it for it in browser.events[begun:] if not it["method"].startswith("Tracing.")]
    return times_of(sum(told, []))


def times_of(events):
    """What the browser told of its work: the time between the two marks, and how long the processor worked in it."""
    marks = {it["name"]: it for it in events if it.get("name") in ("clicked", "drawn")}
    first, last = marks["clicked"]["ts"], marks["drawn"]["ts"]
    work = Counter()
    for it in events:
        is_task = it.get("name") == "RunTask" and it.get("pid") == marks["drawn"]["pid"] and it.get("dur", 0) > 0
        if is_task and it["ts"] < last and it["ts"] + it["dur"] > first:
            within = min(last, it["ts"] + it["dur"]) - max(first, it["ts"])
            work[it["tid"]] += it.get("tdur", 0) * within / it["dur"]
    page = work.pop(marks["drawn"]["tid"])
    return (last - first) / 1000, (page + max(work.values(), default=0)) / 1000
