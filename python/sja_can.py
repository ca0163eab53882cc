"""The interface `sja` of python-can: a bus of SJA1000 controllers, on which time is bits and any bit can be struck.

    with can.Bus(interface="sja", channel="bus0", nodes=2) as one, can.Bus(interface="sja", channel="bus0") as other:
        one.send(can.Message(arbitration_id=0x123, is_extended_id=False, data=b"\\x11\\x22"))
        print(other.recv(1))

Buses of the same channel share one session of python/sja.py; each is a controller with a driver of its own. Time
passes only while every thread that sends or receives waits in `recv` or `sleep`, or by the clock with `pace`.
docs/use/PYTHON-CAN.md says more."""

import collections

import can
from can.broadcastmanager import CyclicSendTaskABC, ModifiableCyclicTaskABC, RestartableCyclicTaskABC

from sja import SjaError
from sja_channel import Channel
from sja_node import ACTIVE, OFF, PASSIVE, STOPPED, WARNING, Frame

QUEUE = 10


def acceptance_of(filters):
    """The code and mask of the acceptance filter that lets all pass which these filters do, or nothing where there is
    none: it fits one filter that says whether identifiers are extended (SJA1000 data sheet, 6.4.15)."""
    if not filters or len(filters) != 1 or "extended" not in filters[0]:
        return None
    shift = 3 if filters[0]["extended"] else 21
    code, mask = filters[0]["can_id"] << shift, filters[0]["can_mask"] << shift
    return code & 0xFFFFFFFF, ~mask & 0xFFFFFFFF


class PeriodicTask(ModifiableCyclicTaskABC, RestartableCyclicTaskABC, CyclicSendTaskABC):
    """Messages that a bus sends again and again, by the bus's time."""

    def __init__(self, bus, messages, period, duration, autostart, modifier):
        super().__init__(messages, period)
        self.bus, self.duration, self.running, self.round, self.modifier = bus, duration, None, 0, modifier
        if autostart:
            self.start()

    def start(self):
        channel = self.bus.channel
        with channel.lock:
            self.running = running = object()
            self.last = channel.after(self.duration)
            channel.at(channel.bits, lambda: self._send(running))

    def _send(self, running):
        channel = self.bus.channel
        if running is not self.running or (self.last is not None and channel.bits >= self.last):
            return
        message = self.messages[self.round % len(self.messages)]
        if self.modifier:
            self.modifier(message)
        self.bus.hand_over(message)
        self.round += 1
        channel.at(channel.after(self.period), lambda: self._send(running))

    def stop(self):
        self.running = None


class SjaBus(can.BusABC):
    """One controller of a bus.

    channel          the name of the bus; the buses of one name share it
    nodes            how many controllers it has, 1 to 8, where this one begins it
    node             which of them this is, counted from 0; without it the first that is free
    bitrate          bits in a second of the bus
    pace             seconds of the bus in a second of the clock; without it time passes while every caller waits
    callers          time stands still until so many threads have called
    bits             how many bits the bus may run at most; with 0 it goes on without an end
    receive_own_messages, one_shot, listen_only, presume_ack, berr_reporting, restart_ms as `ip link` has them"""

    node = None

    def __init__(self, channel="sja", can_filters=None, nodes=2, node=None, bitrate=500000, pace=None, callers=1,
                 bits=0, receive_own_messages=False, restart_ms=0, fd=False, **options):
        if fd:
            raise can.CanInitializationError("the SJA1000 has no CAN FD")
        self.queue = collections.deque()
        self.receive_own_messages, self.restart_ms, self.frame_errors = receive_own_messages, restart_ms, 0
        try:
            self.channel = Channel.of(channel, nodes=nodes, bitrate=bitrate, pace=pace, callers=callers, bits=bits)
            self.node = self.channel.join(node, self, acceptance=acceptance_of(can_filters), **options)
        except (SjaError, ValueError, TypeError) as error:
            raise can.CanInitializationError(f"sja: {error}") from error
        self.channel_info = f"sja channel {channel} node {self.node.number}"
        super().__init__(channel=channel, can_filters=can_filters)

    # ---- what the driver tells

    def _offer(self, message):
        message.timestamp, message.channel = self.channel.seconds(), self.channel.name
        if message.is_error_frame or self._matches_filters(message):
            self.queue.append(message)

    def _message(self, frame, **more):
        return can.Message(arbitration_id=frame.id, is_extended_id=frame.extended, is_remote_frame=frame.remote,
                           dlc=min(frame.dlc, 8), data=None if frame.remote else frame.data, **more)

    def received(self, frame):
        self._offer(self._message(frame))

    def sent(self, frame):
        if self.receive_own_messages:
            self._offer(self._message(frame, is_rx=False))

    def failed(self, frame):
        self.frame_errors += 1

    def error(self, kind, data):
        self._offer(can.Message(arbitration_id=kind, is_extended_id=False, is_error_frame=True, dlc=8, data=data))
        if self.node.state == OFF and self.restart_ms:
            self.channel.at(self.channel.after(self.restart_ms / 1000), self._restart_late)

    def _restart_late(self):
        if self.node.state == OFF:
            self.node.restart()

    # ---- what python-can asks for

    def hand_over(self, message):
        """Gives a message to the driver; one that finds no room is dropped. Whether it was taken."""
        if len(self.node.waiting) >= QUEUE or self.node.state in (OFF, STOPPED):
            return False
        self.node.send(Frame(message.arbitration_id, bool(message.is_extended_id), bool(message.is_remote_frame),
                             message.dlc, bytes(message.data)))
        return True

    def send(self, msg, timeout=None):
        if msg.is_fd or msg.is_error_frame:
            raise can.CanOperationError("the SJA1000 sends neither CAN FD nor error frames")
        with self.channel.lock:
            self.channel.called()
            if self.node.state in (OFF, STOPPED):
                raise can.CanOperationError("the controller is off the bus")
            if len(self.node.waiting) >= QUEUE and timeout:
                self._waited(lambda: len(self.node.waiting) < QUEUE, timeout)
            try:
                taken = self.hand_over(msg)
            except SjaError as error:
                raise can.CanOperationError(f"sja: {error}") from error
            if not taken:
                raise can.CanOperationError("no buffer space available")

    def _waited(self, ready, timeout):
        try:
            return self.channel.wait(ready, self.channel.after(timeout))
        except SjaError as error:
            raise can.CanOperationError(f"sja: {error}") from error

    def recv(self, timeout=None):
        """A message, or nothing after so many seconds of the bus; with 0 after one bit."""
        with self.channel.lock:
            return self.queue.popleft() if self._waited(lambda: bool(self.queue), timeout) else None

    def _recv_internal(self, timeout):
        return self.recv(timeout), True

    def sleep(self, seconds):
        """Waits so many seconds of the bus, in place of time.sleep."""
        self._waited(lambda: False, seconds)

    def _send_periodic_internal(self, msgs, period, duration=None, autostart=True, modifier_callback=None):
        return PeriodicTask(self, msgs, period, duration, autostart, modifier_callback)

    def flush_tx_buffer(self):
        with self.channel.lock:
            self.node.waiting.clear()

    @property
    def state(self):
        if self.node.state in (ACTIVE, WARNING):
            return can.BusState.ACTIVE
        return can.BusState.PASSIVE if self.node.state == PASSIVE else can.BusState.ERROR

    @property
    def counters(self):
        """The transmit and the receive error counter."""
        with self.channel.lock:
            return self.node.read(15), self.node.read(14)

    @property
    def bit(self):
        """How many bits of the bus have run: the number of the next one."""
        return self.channel.bits

    def strike(self, bit):
        """Has this controller see the other level in a bit that hasn't run."""
        with self.channel.lock:
            self.channel.session.strike(self.node.number, bit)

    def restart(self):
        """Takes the controller back from bus-off."""
        with self.channel.lock:
            if self.node.state != OFF:
                raise can.CanOperationError("the controller isn't bus-off")
            self.node.restart()

    def shutdown(self):
        if self.node is not None:
            super().shutdown()
            self.channel.leave(self.node)
            self.node = None

    @staticmethod
    def _detect_available_configs():
        return [{"interface": "sja", "channel": "sja"}]
