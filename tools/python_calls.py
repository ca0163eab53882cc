"""What the calls of `python/sja.py` answer to numbers in range and out of it, after the end and after `close`: each has
to be the answer that stands beside it, over the library and over a process alike, which the variables of
`python/sja.py` choose. Says which isn't; the status is 1 then. `checks/c_library` runs it over both."""

import os
import signal
import sys
import tempfile

sys.dont_write_bytecode = True
sys.path.insert(0, f"{os.path.dirname(os.path.dirname(os.path.abspath(__file__)))}/python")
from sja import Session, SjaError, run_plan  # noqa: E402

PAST = 2**32


def answer(call):
    """What a call gives, or the name of what it raises."""
    try:
        return call()
    except SjaError as error:
        return error.status
    except TypeError:
        return "TypeError"


def ignoring(call):
    """What a call gives where SIGCHLD is ignored, so that the kernel keeps no status of a process."""
    before = signal.signal(signal.SIGCHLD, signal.SIG_IGN)
    try:
        return call()
    finally:
        signal.signal(signal.SIGCHLD, before)


def stopped(call):
    """What a call gives over a program that answers one line, and that a check stops behind the next."""
    before = {name: os.environ.get(name) for name in ("SJA", "SJA_LIBRARY")}
    with tempfile.TemporaryDirectory() as folder:
        with open(f"{folder}/sja", "w", encoding="ascii") as file:
            file.write("#!/bin/sh\nread -r line\necho ok\nread -r line\nkill -ILL $$\n")
        os.chmod(f"{folder}/sja", 0o755)
        os.environ.update(SJA=f"{folder}/sja", SJA_LIBRARY="")
        try:
            return call()
        finally:
            for name, value in before.items():
                os.environ.pop(name) if value is None else os.environ.update({name: value})


def openings():
    """Openings that are refused: each leaves no process behind."""
    for wanted, numbers in [
        ("NO_VERSION", (4, 10, 1)), ("NO_VERSION", (-1, 10, 1)), ("NO_VERSION", (PAST + 3, 10, 1)),
        ("NO_BITS", (2, 0, 1)), ("NO_BITS", (3, -1, 1)), ("NO_BITS", (3, PAST + 10, 1)), ("NO_BITS", (2, 200001, 1)),
        ("NO_NODES", (3, 10, 0)), ("NO_NODES", (3, 10, 9)), ("NO_NODES", (3, 10, PAST + 1)), ("NO_NODES", (3, 10, -1)),
        ("NO_VERSION", (4, 0, 1)), ("NO_NODES", (3, 0, 0)), ("NO_NODES", (3, 0, 9)), ("TypeError", (3, 10, 1.0)),
    ]:
        yield f"Session{numbers}", lambda numbers=numbers: Session(*numbers), wanted
        yield f"a process of Session{numbers}", has_process, False


def times():
    """Accesses that take time: how many bits run before each, of node 0 and of node 1, and before one that is late."""
    with Session(3, 1000, 2, access_bits="3/2") as bus:
        bus.late(5, 10)
        for wanted, node in [(1, 0), (2, 0), (1, 1), (1, 0), (2, 0), (12, 1)]:
            before = bus.now()
            bus.read(node, 2)
            yield f"access {bus.accesses - 1} takes bits", lambda took=bus.now() - before: took, wanted
        yield "a read of no node", lambda: bus.read(2, 2), "NO_NODE"
        yield "bits after it", bus.now, 19
        yield "accesses", lambda: bus.accesses, 6


def has_process():
    """Whether this program has another one that it has to wait for."""
    try:
        os.waitpid(-1, os.WNOHANG)
    except ChildProcessError:
        return False
    return True


def calls(bus):
    """Calls of a session of two nodes and 1,000 bits, one after another."""
    for wanted, name, numbers in [
        (None, "write", (0, 4, 0x12)), ("NO_BYTE", "write", (0, 4, PAST + 1)), ("NO_BYTE", "write", (0, 4, 256)),
        ("NO_BYTE", "write", (0, 4, -1)), (0x12, "read", (0, 4)), ("NO_ADDRESS", "read", (0, PAST + 4)),
        ("NO_ADDRESS", "read", (0, -1)), ("NO_ADDRESS", "write", (9, 256, 256)), ("NO_BYTE", "write", (9, 4, 256)),
        ("NO_NODE", "read", (PAST, 2)), ("NO_NODE", "read", (-1, 2)), ("NO_NODE", "read", (2, 2)),
        ("NO_NODE", "irq", (2,)), ("NO_NODE", "irq", (-1,)), ("NO_NODE", "irq", (PAST,)), (False, "irq", (0,)),
        (0, "lines", ()),
        ("NO_BIT", "strike", (0, 1000)), ("NO_BIT", "strike", (0, PAST)), ("NO_BIT", "strike", (0, -1)),
        ("NO_NODE", "strike", (PAST + 1, 5)), (None, "strike", (1, 999)), ("TypeError", "read", (0, 2.0)),
        ("TypeError", "run", (1.0,)), (0, "run", (0,)), ("NO_NUMBER", "run", (-1,)), ("NO_NUMBER", "run", (PAST,)),
        ("NO_NUMBER", "run", (5, -1)), ("NO_NUMBER", "run", (5, PAST)), (0, "now", ()), (5, "run", (5, 256)),
        ("PAST", "strike", (0, 4)), (5, "now", ()), (995, "run", (PAST - 1,)), (1000, "now", ()), (0, "run", (1, 1)),
    ]:
        yield f"{name}{numbers}", lambda name=name, numbers=numbers: getattr(bus, name)(*numbers), wanted


def ended(bus, status):
    """Calls of a session that has ended, or was closed: each of them is refused."""
    for name, numbers in [
        ("read", (9, 256)), ("write", (0, 4, PAST)), ("run", (1,)), ("run", (-1,)), ("irq", (PAST,)),
        ("lines", ()), ("strike", (0, 1)), ("now", ()),
    ]:
        yield f"{name}{numbers}, {status}", lambda name=name, numbers=numbers: getattr(bus, name)(*numbers), status


def asked_to_send(bus):
    """Node 0 is to send the frame of examples/own_case/own_case.toml, and node 1 is there to receive it."""
    for address, value in [(0, 0), (16, 2), (17, 0x24), (18, 0x60), (19, 0x11), (20, 0x22), (1, 1)]:
        bus.write(0, address, value)
    bus.write(1, 0, 0)


def rises(bus):
    """Which line rose: of two nodes that are watched that of the receiver, whose receive interrupt is enabled."""
    asked_to_send(bus)
    bus.write(1, 4, 1)
    for wanted, count, watch in [(None, 20, 3), (1, 200, 3), (None, 5, 3), (None, 5, 0)]:
        def rose(count=count, watch=watch):
            bus.run(count, watch)
            return bus.rose

        yield f"which line rose in {count} bits", rose, wanted


def places(bus):
    """Places of a frame, as examples/own_case/own_case.toml has it."""
    asked_to_send(bus)
    for wanted, name, numbers in [
        (None, "place", (0,)), ("NO_NODE", "place", (2,)), ("NO_PLACE", "to", (0, "stuff.30", 9)),
        ("NO_PLACE", "to", (2, "nowhere", 9)), ("NO_NODE", "to", (2, "SOF", 9)), (True, "to", (1, "stuff.2", 200)),
        ("stuff.2", "place", (0,)), ("stuff.2", "place", (1,)), (True, "to", (1, "stuff.2", 0)),
        (True, "to", (0, "CRC delimiter", 12)), (False, "to", (0, "data 2.3", 9)), (72, "now", ()),
    ]:
        yield f"{name}{numbers}", lambda name=name, numbers=numbers: getattr(bus, name)(*numbers), wanted


def endless(bus):
    """Calls of a session of one node without an end: no count of bits ends it, and it has neither plan nor report."""
    for wanted, name, numbers in [
        ("ENDLESS", "plan", ()), ("ENDLESS", "report", ()), (0, "now", ()), (None, "strike", (0, 2500000)),
        (2000000, "run", (2000000,)), (2000000, "run", (2000000,)), (4000000, "now", ()),
        ("PAST", "strike", (0, 3999999)), (None, "strike", (0, PAST + 5)), (None, "strike", (0, 2**62 - 1)),
        ("NO_BIT", "strike", (0, 2**62)), ("NO_BIT", "strike", (0, 2**64 + 4000001)), ("NO_BIT", "strike", (0, -1)),
        (None, "write", (0, 4, 0x12)), (0x12, "read", (0, 4)), ("ENDLESS", "report", ()), ("ENDLESS", "plan", ()),
        (7, "run", (7,)), (4000007, "now", ()), ("NO_NODE", "irq", (1,)), (20000000, "run", (20000000,)),
        (None, "write", (0, 4, 0x80)), (None, "write", (0, 0, 0)), (20000000, "run", (20000000, 1)),
        (None, "strike", (0, 55000000)), (11000000, "run", (20000000, 1)), (True, "irq", (0,)),
        (None, "strike", (0, 70000000)), (True, "to", (0, "ID.27", 20000000)), (70000002, "now", ()),
    ]:
        yield f"{name}{numbers} without an end", lambda name=name, numbers=numbers: getattr(bus, name)(*numbers), wanted


def restarts(bus, times):
    """How often node 1 of a session of two nodes gets the message of node 0 once that has its number, of so many times:
    each time it leaves reset mode before, and enters it behind."""
    bus.write(0, 0, 0)
    for number in range(times):
        bus.write(1, 0, 0)
        bus.run(11)
        for address, value in [(16, 2), (17, 0x24), (18, 0x60), (19, number // 256), (20, number % 256), (1, 1)]:
            bus.write(0, address, value)
        bus.run(100)
        if [bus.read(1, address) for address in (29, 19, 20)] != [1, number // 256, number % 256]:
            return number
        bus.write(1, *[(1, 4), (0, 1)][number % 2])
        bus.write(1, 0, 1)
    return times


def rows():
    """What is called, and what it has to answer."""
    yield from openings()
    yield from times()
    for told in (places, rises):
        framed = Session(3, 1000, 2)
        yield from told(framed)
        framed.close()
    lasting = Session(3, 0, 1)
    yield from endless(lasting)
    lasting.close()
    for wanted, bits in [(1000, 0), (64, 200000)]:
        restarting = Session(3, bits, 2)
        yield f"starts of {bits} bits", lambda: restarts(restarting, 1000), wanted
        restarting.close()
    bus = Session(3, 1000, 2)
    yield from calls(bus)
    plan = bus.plan()
    yield "the plan's first line", lambda: plan.split("\n")[0], "version = 3"
    report = bus.report()
    yield "the report once more", lambda: bus.report() == report, True
    yield "the report of its plan", lambda: run_plan(plan) == report, True
    yield "the report of no plan", lambda: run_plan("version = 4\n"), "NO_PLAN"
    yield "the report of an empty plan", lambda: run_plan(""), "NO_PLAN"
    yield "the report of its plan, SIGCHLD ignored", lambda: ignoring(lambda: run_plan(plan)) == report, True
    yield "the report of no plan, SIGCHLD ignored", lambda: ignoring(lambda: run_plan("version = 4\n")), "NO_PLAN"
    yield "the plan after the end", lambda: bus.plan() == plan, True
    yield from ended(bus, "ENDED")
    bus.close()
    yield from ended(bus, "NO_HANDLE")
    for name in "plan", "report":
        yield f"{name}, closed", getattr(bus, name), "NO_HANDLE"
    yield "close once more", bus.close, None
    yield "a session that a check stops", lambda: stopped(lambda: Session(3, 1000, 2).read(0, 2)), "STOPPED"
    yield "a run that a check stops", lambda: stopped(lambda: run_plan("1\n2\n")), "STOPPED"
    yield "a process at the end", has_process, False


def main():
    bad = 0
    for name, call, wanted in rows():
        told = answer(call)
        if told != wanted or type(told) is not type(wanted):
            print(f"{name}: {told}, not {wanted}")
            bad += 1
    return 1 if bad else 0


sys.exit(main())
