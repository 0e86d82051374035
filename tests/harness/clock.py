"""Clocks that allow for a machine which is slow or has much else to do."""
import os
import select
import subprocess
import sys
import threading
import time
from collections.abc import Callable

# how many seconds an answer may take, also on such a machine
TIMEOUT_S = 60
# longer than a router waits that nobody keeps out, and less than one that is kept out has waited, in seconds
HELD_UP = 2
# what one tick of the clock `paced` counts, in seconds
TICK = 0.005
# how many times the server may be as late as a process that only sleeps: an answer takes several turns of the scheduler
TURNS = 8


class Pace:
    """A clock that counts seconds by sleeping. On a machine that is held up they last longer, as everything does there that is waited for."""

    def __init__(self):
        self.process, self.ticks = None, 0

    def now(self) -> float:
        if self.process != os.getpid():  # (a thread doesn't go along with a fork)
            self.process = os.getpid()
            threading.Thread(target=self.tick, daemon=True).start()
        return self.ticks * TICK

    def tick(self):
        while True:
            time.sleep(TICK)
            self.ticks += 1


paced = Pace().now


def comes(is_there: Callable[[], bool], within: float = TIMEOUT_S) -> bool:
    """Whether something is there within these seconds of `paced`. A look that takes long is followed by as long a pause."""
    until = paced() + within
    while True:
        begun = time.monotonic()
        if is_there():
            return True
        if paced() > until:
            return False
        time.sleep(max(0.01, min(1, time.monotonic() - begun)))


def sleep_only(is_over: Callable[[], bool]) -> float:
    """Sleeps again and again, and says how late it woke at most, in seconds."""
    late = 0.0
    while not is_over():
        begun = time.monotonic()
        time.sleep(0.002)
        late = max(late, time.monotonic() - begun - 0.002)
    return late


class Timed:
    """Times what happens meanwhile beside a process that only sleeps, by which a machine shows how busy it is."""

    def __enter__(self):
        self.sleeper = subprocess.Popen([sys.executable, "-B", __file__], stdin=subprocess.PIPE, stdout=subprocess.PIPE, text=True)
        self.sleeper.stdout.readline()
        self.begun = time.monotonic()
        return self

    def __exit__(self, *_):
        self.took = time.monotonic() - self.begun
        self.late = float(self.sleeper.communicate()[0])

    def is_within(self, most: float, took: float | None = None):
        """Whether this took no longer than so many seconds, and what the machine was late by; else both."""
        took = self.took if took is None else took
        return took < most + TURNS * self.late or (took, self.late)


if __name__ == "__main__":
    print("begun", flush=True)
    print(sleep_only(lambda: bool(select.select([sys.stdin], [], [], 0)[0])))
