"""Tests of the interface `sja` of python-can, a line each. `checks/python_can` runs them; the status is 1 where one
doesn't hold."""

import contextlib
import itertools
import sys
import threading
import time

import can

NAMES = itertools.count()


@contextlib.contextmanager
def buses(count, nodes=None, **options):
    """So many buses of one channel, all at rest."""
    name = f"test{next(NAMES)}"
    with contextlib.ExitStack() as stack:
        made = [stack.enter_context(can.Bus(interface="sja", channel=name, nodes=nodes or count, **options))
                for _ in range(count)]
        if "callers" not in options:
            made[0].sleep(100 / 500000)
        yield made


def message(identifier, data=b"", extended=False, remote=False, dlc=None):
    return can.Message(arbitration_id=identifier, is_extended_id=extended, is_remote_frame=remote, data=data or None,
                       dlc=dlc if remote else len(data))


def same(one, other):
    parts = ("arbitration_id", "is_extended_id", "is_remote_frame", "is_error_frame", "dlc", "data")
    return one is not None and all(getattr(one, part) == getattr(other, part) for part in parts)


def refused(call, *kind):
    """Whether a call is refused."""
    try:
        call()
    except kind or can.CanError:
        return True
    return False


def frames_come_as_they_were_sent():
    sent = [message(0x123, b"\x11\x22"), message(0), message(0x7FF, bytes(8)), message(0x12345678, b"\xff", True),
            message(0x321, remote=True, dlc=8), message(0x1FFFFFFF, extended=True, remote=True, dlc=0)]
    with buses(3) as (one, two, three):
        for each in sent:
            one.send(each)
        return all(same(other.recv(1), each) for each in sent for other in (two, three)) and one.recv(0.01) is None


def time_is_that_of_the_bus():
    with buses(2) as (one, two):
        begun = one.bit
        one.send(message(0x123, b"\x11\x22"))
        got = two.recv(1)
        far = got.timestamp * 500000 - begun
        before = one.bit
        return 60 < far < 70 and two.recv(1) is None and one.bit - before == 500000


def a_bus_goes_on():
    """More bits and more accesses than a session with an end has."""
    with buses(2) as (one, two):
        before = one.bit
        if two.recv(5) is not None or one.bit - before != 2500000:
            return False
        for number in range(5000):
            sent = message(number % 0x800, number.to_bytes(8, "big"))
            one.send(sent)
            if not same(two.recv(1), sent):
                return False
        return True


def a_poll_is_one_bit():
    with buses(2) as (one, two):
        one.send(message(0x123))
        polls = 0
        while two.recv(0) is None:
            polls += 1
        return 40 < polls < 60


def two_threads_answer_all_requests():
    with buses(2, callers=2) as (client, server):
        return answered(client, server) == 50


def answered(client, server):
    """How many of fifty requests are answered in 10 ms each, where the server computes for a while."""
    ends = threading.Event()

    def serve():
        while not ends.is_set():
            request = server.recv(0.01)
            if request:
                time.sleep(0.002)
                server.send(message(0x7E8, bytes(request.data)))

    thread = threading.Thread(target=serve)
    thread.start()
    good = 0
    for number in range(50):
        client.send(message(0x7E0, bytes([number])))
        answer = client.recv(0.01)
        good += answer is not None and answer.data[0] == number
    ends.set()
    client.sleep(0.02)
    thread.join()
    return good


def threads_share_a_bus():
    with buses(2, callers=4) as (one, two):
        got = []
        threads = [threading.Thread(target=lambda: got.extend(iter(lambda: two.recv(0.01), None))) for _ in range(3)]
        for thread in threads:
            thread.start()
        for number in range(100):
            one.send(message(number))
            one.sleep(0.001)
        one.sleep(0.1)
        for thread in threads:
            thread.join()
        return sorted(each.arbitration_id for each in got) == list(range(100))


def a_notifier_uses_no_time_of_its_own():
    with buses(2, callers=2) as (one, two):
        got = []
        one.send(message(0x100))
        notifier = can.Notifier(two, [got.append], timeout=0.01)
        for number in range(20):
            one.send(message(0x101 + number))
            one.sleep(0.001)
            time.sleep(0.001)
        bits = one.bit
        notifier.stop()
        return [each.arbitration_id for each in got] == list(range(0x100, 0x115)) and bits < 30000


def filters_choose():
    one_filter = [{"can_id": 0x120, "can_mask": 0x7F0, "extended": False}]
    several = [{"can_id": 0x120, "can_mask": 0x7FF}, {"can_id": 0x12345678, "can_mask": 0x1FFFFFFF, "extended": True}]
    sent = [message(0x120), message(0x12F), message(0x130), message(0x12345678, extended=True), message(0x120, b"\1")]
    for filters, wanted in ((one_filter, [0, 1, 4]), (several, [0, 3, 4]), (None, [0, 1, 2, 3, 4])):
        with buses(1, nodes=2) as (one,), \
                can.Bus(interface="sja", channel=one.channel.name, can_filters=filters) as two:
            one.sleep(0.001)
            for each in sent:
                one.send(each)
            got = list(iter(lambda: two.recv(0.01), None))
            if len(got) != len(wanted) or not all(same(a, sent[b]) for a, b in zip(got, wanted)):
                return False
    return True


def a_filter_that_fits_is_the_controllers():
    with buses(1, nodes=2) as (one,), can.Bus(interface="sja", channel=one.channel.name, can_filters=[
            {"can_id": 0x123, "can_mask": 0x7FF, "extended": False}]) as two:
        two._filters = None
        one.sleep(0.001)
        for identifier in (0x122, 0x123):
            one.send(message(identifier))
        return two.recv(0.01).arbitration_id == 0x123 and two.recv(0.01) is None


def a_struck_frame_comes_once_more():
    with buses(2, berr_reporting=True) as (one, two):
        two.strike(one.bit + 40)
        one.send(message(0x123, b"\x11\x22"))
        got = [two.recv(0.01), two.recv(0.01), one.recv(0.01), one.recv(0.01)]
        return (got[0].is_error_frame and got[0].arbitration_id == 0x288
                and bytes(got[0].data).hex() == "0000040800000001" and same(got[1], message(0x123, b"\x11\x22"))
                and bytes(got[2].data).hex() == "0000810800000800" and got[3] is None)


def one_shot_is_lost():
    with buses(2, one_shot=True) as (one, two):
        one.strike(one.bit + 20)
        one.send(message(0x123, b"\x11\x22"))
        lost = two.recv(0.01) is None and one.frame_errors == 1
        one.send(message(0x124))
        return lost and same(two.recv(0.01), message(0x124))


def no_acknowledgement_is_told():
    with buses(1, nodes=2, berr_reporting=True) as (one,):
        one.send(message(0x123))
        told = one.recv(0.01)
        one.sleep(0.05)
        return (told.arbitration_id == 0x288 and told.data[3] == 0x19 and one.state == can.BusState.PASSIVE
                and one.counters == (128, 0))


def bus_off_and_restart():
    with buses(2) as (one, two):
        one.send(message(0x123, b"\x11\x22"))
        for bit in range(one.bit + 20, one.bit + 4000, 20):
            one.strike(bit)
        one.sleep(0.01)
        off = one.state == can.BusState.ERROR and refused(lambda: one.send(message(0x124)))
        kinds = [each.arbitration_id for each in iter(lambda: one.recv(0.0001), None)]
        one.restart()
        two.sleep(0.001)
        one.send(message(0x125))
        got = [each.arbitration_id for each in iter(lambda: two.recv(0.01), None) if not each.is_error_frame]
        again = [each.arbitration_id for each in iter(lambda: one.recv(0.0001), None)]
        return off and kinds[-1] == 0x40 and got[-1] == 0x125 and again[0] == 0x100 and one.counters == (0, 0)


def restart_ms_restarts():
    with buses(2, restart_ms=10) as (one, two):
        one.send(message(0x123, b"\x11\x22"))
        for bit in range(one.bit + 20, one.bit + 4000, 20):
            one.strike(bit)
        one.sleep(0.008)
        off = one.state == can.BusState.ERROR
        one.sleep(0.02)
        return off and one.state == can.BusState.ACTIVE


def periodic_messages_go_by_bits():
    with buses(2) as (one, two):
        task = one.send_periodic(message(0x123, b"\1"), 0.01, 0.095)
        first = [two.recv(0.02) for _ in range(11)]
        gaps = [round((b.timestamp - a.timestamp) * 1000) for a, b in zip(first[:9], first[1:10])]
        task.start()
        two.recv(0.02)
        task.modify_data(message(0x123, b"\2"))
        changed = two.recv(0.02)
        task.stop()
        return gaps == [10] * 9 and first[10] is None and changed.data[0] == 2 and two.recv(0.05) is None


def own_messages_come_where_asked():
    with buses(2, receive_own_messages=True) as (one, two):
        one.send(message(0x123))
        own, other = one.recv(0.01), two.recv(0.01)
        return same(own, message(0x123)) and not own.is_rx and other.is_rx


def a_full_queue_says_so():
    with buses(2) as (one, two):
        for number in range(11):
            one.send(message(number))
        full = refused(lambda: one.send(message(0x100)))
        one.send(message(0x101), timeout=0.1)
        got = [each.arbitration_id for each in iter(lambda: two.recv(0.01), None)]
        return full and got == [*range(11), 0x101]


def accesses_are_used_up_where_bits_end():
    """Those of a sender alone, whose `send` says so, and those of a receiver, whose `recv` does. Each bus is left all
    the same."""
    frame = message(0x123, bytes(8))

    def send(bus, waits):
        for _ in range(5000):
            bus.send(frame)
            waits()
    with buses(1, bits=2000000, presume_ack=True) as (one,):
        sender = refused(lambda: send(one, lambda: one.sleep(200 / 500000)), can.CanOperationError)
    with buses(2, bits=2000000) as (one, two):
        receiver = refused(lambda: send(one, lambda: two.recv(1)), can.CanOperationError)
    return sender and receiver


def a_bus_begins_anew():
    with buses(2) as (one, two):
        name = one.channel.name
        one.send(message(0x123))
        two.recv(1)
    with can.Bus(interface="sja", channel=name, nodes=1) as one:
        return one.bit == 0


def what_cannot_be_is_refused():
    def bus(**options):
        return lambda: can.Bus(interface="sja", channel="refused", **options)
    with buses(2) as (one, two):
        full = refused(lambda: can.Bus(interface="sja", channel=one.channel.name))
        fd = refused(lambda: one.send(can.Message(arbitration_id=1, is_fd=True)))
    return full and fd and all(map(refused, (bus(nodes=9), bus(fd=True), bus(nodes=2, node=2), bus(speed=1))))


def a_refused_bus_leaves_nothing():
    if not refused(lambda: can.Bus(interface="sja", channel="left", nodes=2, node=2)):
        return False
    with can.Bus(interface="sja", channel="left", nodes=3, node=2) as three:
        return three.node.number == 2


def a_pace_is_that_of_the_clock():
    """The bus comes to 0.02 s of its time, by a Notifier alone, and is never ahead of the clock. The clock begins
    before the bus does: a process may take a while to begin."""
    begun = time.monotonic()
    with can.Bus(interface="sja", channel="paced", nodes=2, pace=0.1) as one, \
            can.Bus(interface="sja", channel="paced") as two:
        got, ahead = [], False
        notifier = can.Notifier(two, [got.append], timeout=0.05)
        one.send(message(0x123))
        while (not got or one.bit < 10000) and time.monotonic() - begun < 30:
            bus, clock = one.bit / 500000, time.monotonic() - begun
            ahead = ahead or bus > clock * 0.1
            time.sleep(0.01)
        notifier.stop()
        return len(got) == 1 and one.bit >= 10000 and not ahead


DATABASE = """VERSION ""
BU_: Engine Dash
BO_ 288 Motion: 4 Engine
 SG_ Speed : 0|16@1+ (0.1,0) [0|300] "km/h" Dash
 SG_ Gear : 16|4@1+ (1,0) [0|8] "" Dash
"""


def a_database_goes_over_it():
    try:
        import cantools
    except ImportError:
        return "cantools isn't there: of Debian's releases unstable has it, as python3-cantools"
    database = cantools.database.load_string(DATABASE, "dbc")
    motion = database.get_message_by_name("Motion")
    with buses(2) as (one, two):
        one.send(message(motion.frame_id, motion.encode({"Speed": 88.8, "Gear": 5})))
        got = two.recv(0.01)
        signals = database.decode_message(got.arbitration_id, got.data)
        return round(signals["Speed"], 1) == 88.8 and signals["Gear"] == 5


TESTS = [frames_come_as_they_were_sent, time_is_that_of_the_bus, a_bus_goes_on, a_poll_is_one_bit,
         two_threads_answer_all_requests, threads_share_a_bus, a_notifier_uses_no_time_of_its_own, filters_choose,
         a_filter_that_fits_is_the_controllers, a_struck_frame_comes_once_more, one_shot_is_lost, no_acknowledgement_is_told, bus_off_and_restart,
         restart_ms_restarts, periodic_messages_go_by_bits, own_messages_come_where_asked, a_full_queue_says_so,
         accesses_are_used_up_where_bits_end, a_bus_begins_anew, what_cannot_be_is_refused, a_refused_bus_leaves_nothing, a_pace_is_that_of_the_clock,
         a_database_goes_over_it]


def main(words):
    bad = 0
    for test in [test for test in TESTS if not words or test.__name__ in words]:
        held = test()
        bad += held is False
        print(test.__name__.replace("_", " "), "" if held is True else f": {held or 'WRONG'}", sep="", flush=True)
    print(f"{bad} wrong")
    return bad > 0


if __name__ == "__main__":
    sys.exit(main(sys.argv[1:]))
