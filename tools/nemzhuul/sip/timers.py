"""The timers of SIP and of the calls, by the clock of the machine. No octet of speech waits for one."""

from __future__ import annotations

import heapq
import itertools
import time
from collections.abc import Callable

Now = Callable[[], float]


class Timer:
    """Something that is done after some time, unless it is cancelled."""

    def __init__(self, act: Callable[[], object]) -> None:
        self.act: Callable[[], object] | None = act

    def cancel(self) -> None:
        self.act = None


class Timers:
    def __init__(self, now: Now = time.monotonic) -> None:
        self.now = now
        self.heap: list[tuple[float, int, Timer]] = []
        self.count = itertools.count()

    def after(self, seconds: float, act: Callable[[], object]) -> Timer:
        timer = Timer(act)
        heapq.heappush(self.heap, (self.now() + seconds, next(self.count), timer))
        return timer

    def act(self) -> float | None:
        """Does all that is due, and returns the seconds until the next is; None if there is none."""
        now = self.now()
        while self.heap and (self.heap[0][2].act is None or self.heap[0][0] <= now):
            act = heapq.heappop(self.heap)[2].act
            if act is not None:
                act()
        return max(0.0, self.heap[0][0] - self.now()) if self.heap else None
