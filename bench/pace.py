"""How fast the processors are while something is measured: what bench/build and bench/gate share.

A processor of a rented machine is often half of one that another customer's work uses too, and then a minute of it
does little more than half as much. So while a command runs, a loop that always does the same is timed on each
processor in turn, every ten seconds, by the processor time that it takes. Its shortest time is that of a processor
that nothing else disturbed; the mean of all its times says how much of such a processor there was.
"""

import os
import threading
import time

EVERY_SECONDS = 10
STEPS = 400_000


def loop_seconds():
    """The processor time that the loop takes now, in seconds."""
    began = time.thread_time()
    total = 0
    for i in range(STEPS):
        total += i * i % 7
    return time.thread_time() - began


class Pace:
    """Times the loop beside what is measured, from `with Pace() as pace:` to the end of that block."""

    def __init__(self):
        self.times, self.ended = [], threading.Event()
        self.thread = threading.Thread(target=self.watch, daemon=True)

    def watch(self):
        while True:
            for processor in sorted(ALLOWED):
                os.sched_setaffinity(0, {processor})
                self.times.append(loop_seconds())
            if self.ended.wait(EVERY_SECONDS):
                return

    def __enter__(self):
        self.thread.start()
        return self

    def __exit__(self, *_):
        self.ended.set()
        self.thread.join()

    def share(self):
        """How much of an undisturbed processor each was, on average: at most 1."""
        return min(self.times) * len(self.times) / sum(self.times)

    def told(self):
        """What the loop took, as a line."""
        shortest, longest = min(self.times) * 1000, max(self.times) * 1000
        return f"a loop timed on each processor took {shortest:.0f} to {longest:.0f} ms: on average {self.share():.2f} of an undisturbed one"


ALLOWED = os.sched_getaffinity(0)
