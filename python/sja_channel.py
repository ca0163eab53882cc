"""A bus that several objects of python-can share: its session, its controllers, and its time.

Time is bits. It passes only while every caller waits: a thread is a caller from its first send or receive on. So a
thread that computes loses no time of the bus, and a run is the same each time. With `pace` it passes by the clock
instead, so many seconds of the bus in a second."""

import heapq
import itertools
import logging
import math
import threading
import time

from sja import Session, SjaError
from sja_node import Node

VERSION, SLICE, BLINK, STANDSTILL, PATIENCE = 3, 100000, 0.02, 5, 0.1
LOG = logging.getLogger("can.sja")


class Waiter:
    """A caller that waits: until `ready` says so, or up to this bit."""

    def __init__(self, ready, deadline):
        self.ready, self.deadline, self.woken = ready, deadline, False


class Channel:
    """The bus of one name."""

    _open, _guard = {}, threading.Lock()

    @classmethod
    def of(cls, name, **options):
        """The bus with this name, which is begun where there is none."""
        with cls._guard:
            if name not in cls._open:
                cls._open[name] = cls(name, **options)
            return cls._open[name]

    def __init__(self, name, nodes, bitrate, pace, callers, bits):
        self.name, self.bitrate, self.pace, self.least_callers = name, bitrate, pace, callers
        self.session = Session(VERSION, bits, nodes)
        self.lock = threading.Condition(threading.RLock())
        self.nodes = [None] * nodes
        self.callers, self.events, self.order = {}, [], itertools.count()
        self.begun, self.bits = time.monotonic(), 0

    # ---- nodes

    def join(self, number, told, **options):
        """Takes a controller onto the bus: the one with this number, or the first that no one has. A bus on which none
        is ends again."""
        with self.lock:
            try:
                number = self._free(number)
                node = Node(self.session, number, told, **options)
                node.start()
                self.nodes[number] = node
                return node
            finally:
                self._end_unused()

    def _free(self, number):
        free = [each for each, node in enumerate(self.nodes) if node is None and number in (None, each)]
        if not free:
            raise ValueError(f"channel {self.name} has no free node{'' if number is None else f' {number}'}")
        return free[0]

    def leave(self, node):
        """Takes it off the bus, unless it has no access left; the last one ends the session."""
        with self.lock:
            try:
                node.stop()
            except SjaError as error:
                if error.status != "STEPS_USED":
                    raise
            finally:
                self.nodes[node.number] = None
                self.lock.notify_all()
                self._end_unused()

    def _end_unused(self):
        if not any(self.nodes):
            with Channel._guard:
                Channel._open.pop(self.name, None)
            self.session.close()

    # ---- time

    def seconds(self):
        """The bus's time, in seconds."""
        return self.bits / self.bitrate

    def after(self, seconds):
        """The bit so many seconds from now; nothing where there is no such end."""
        return None if seconds is None else self.bits + max(1, math.ceil(seconds * self.bitrate))

    def at(self, bit, act):
        """Has something done once so many bits have run."""
        heapq.heappush(self.events, (bit, next(self.order), act))

    def called(self):
        """The thread that calls is a caller."""
        self.callers.setdefault(threading.current_thread(), None)

    def wait(self, ready, deadline):
        """Waits until it is ready, or up to this bit. Whether it is ready."""
        with self.lock:
            waiter = Waiter(ready, deadline)
            self.callers[threading.current_thread()] = waiter
            blinks, end = 0, self._patience()
            try:
                while not self._is_due(waiter) and time.monotonic() < end:
                    if self._may_pass():
                        self._pass()
                        self._wake()
                        self.lock.notify_all()
                    else:
                        self.lock.wait(BLINK)
                        blinks += 1
                        if blinks == STANDSTILL / BLINK:
                            self._tell_standstill()
                return ready()
            finally:
                self.callers[threading.current_thread()] = None

    def _patience(self):
        """Up to when by the clock a thread waits. A Notifier's is asked to end by a caller that waits for its end, and
        so not for the bus: its receive comes back with nothing after a while, which it makes nothing of. python-can
        names its thread by the bus."""
        notifier = f'for bus "sja channel {self.name} node ' in threading.current_thread().name
        return time.monotonic() + PATIENCE if notifier else math.inf

    def _is_due(self, waiter):
        """Whether it is ready, or its bit has come. What one thread was woken for another may have taken."""
        waiter.woken = waiter.ready() or (waiter.deadline is not None and self.bits >= waiter.deadline)
        return waiter.woken

    def _wake(self):
        for waiter in filter(None, self.callers.values()):
            self._is_due(waiter)

    def _may_pass(self):
        if self.pace:
            return True
        if len(self.callers) < self.least_callers:
            return False
        return all(waiter and not waiter.woken for thread, waiter in self.callers.items() if thread.is_alive())

    def _tell_standstill(self):
        """Time has stood still for a while: which threads it waits for."""
        late = [thread.name for thread, waiter in self.callers.items() if thread.is_alive() and not waiter]
        missing = self.least_callers - len(self.callers)
        LOG.warning("channel %s stands still: %s", self.name, f"{missing} more threads have to call" if missing > 0 else
                    f"{', '.join(late)} doesn't wait in recv or sleep; give pace=1 for time by the clock")

    def _pass(self):
        """Lets bits run up to the first thing that anybody waits for. By the clock other threads get a word in between:
        those that send don't wait, and a bit may take longer to run than it lasts."""
        ends = [waiter.deadline for waiter in self.callers.values() if waiter and waiter.deadline is not None]
        ends += [self.events[0][0]] if self.events else []
        most = min([end - self.bits for end in ends] + [SLICE])
        if self.pace:
            most = min(most, int((time.monotonic() - self.begun) * self.bitrate * self.pace) - self.bits)
        if most > 0:
            self._run(most)
        if self.pace:
            self.lock.wait(0.0005)
        while self.events and self.events[0][0] <= self.bits:
            heapq.heappop(self.events)[2]()

    def _run(self, most):
        ran = self.session.run(most, (1 << len(self.nodes)) - 1)
        self.bits += ran
        active = self.session.lines()
        lines = [node for node in self.nodes if node and active >> node.number & 1]
        if not ran and not lines:
            raise SjaError("NO_BIT")
        for node in lines:
            node.handle()
