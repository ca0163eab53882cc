"""How long a program in Python took, with those that it waited for, in a line that tools/gate_times reads. tools/timing
is the same for a shell."""

import os
import resource
import time


class Clock:
    """Runs from when it is made."""

    def __init__(self):
        with open("/proc/loadavg", encoding="ascii") as file:
            self.load = file.read().split()[0]
        self.began = time.monotonic()

    def told(self, what):
        """The line."""
        wall = time.monotonic() - self.began
        both = [resource.getrusage(of) for of in (resource.RUSAGE_SELF, resource.RUSAGE_CHILDREN)]
        used = sum(it.ru_utime + it.ru_stime for it in both) / 60
        return (f"took {what}: {int(wall) // 60} min {int(wall) % 60} s, {used:.1f} min of a processor, "
                f"load {self.load} before, {os.cpu_count()} cores")
