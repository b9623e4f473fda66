"""The clock of a running exchange, and how much of each period is used."""

from __future__ import annotations

import os
import time
from collections.abc import Callable, Sequence
from pathlib import Path

from nemzhuul.command_line import NAME, say
from nemzhuul.traces.events import FRAMES_PER_SECOND

LATE = 0.1  # seconds from which on it is said
SAID = 1  # seconds between two times


class Use:
    """The periods so far. In each the tool gives frames to the exchange, which replies to them."""

    def __init__(self, frames: int) -> None:
        self.frames = frames  # of a period
        self.period = frames / FRAMES_PER_SECOND
        self.count = 0
        self.replies = self.slowest = self.latest = 0.0  # seconds, all together and the most
        self.start = self.given = self.said = 0.0  # when the first period and the last one began, and when that was said
        self.pids: Callable[[], Sequence[int]] = list  # of the exchange
        self.own = self.children = 0.0  # the processor time at the start

    def begin(self, pids: Callable[[], Sequence[int]]) -> None:
        """Starts the clock. The exchange has these processes."""
        self.pids = pids
        self.own = time.process_time()
        self.children = self.exchange_seconds()
        self.start = time.monotonic()

    def left(self) -> float:
        """The seconds until the next period begins."""
        return self.start + self.count * self.period - time.monotonic()

    def has_passed(self, seconds: float | None) -> bool:
        """Whether this time has passed by the clock, which frames that are late do not change."""
        return seconds is not None and time.monotonic() >= self.start + seconds

    def burst(self) -> None:
        """A period begins. It is said if that is late."""
        late = -self.left()
        self.latest = max(self.latest, late)
        self.count += 1
        self.given = time.monotonic()
        if late > LATE and self.given > self.said + SAID:
            self.said = self.given
            say(f"{NAME}: the frames are {late:.2f} s late, and none is lost")

    def replied(self) -> None:
        """The exchange has replied to all that it got; before the first period these are settings."""
        if self.count == 0:
            return
        seconds = time.monotonic() - self.given
        self.replies += seconds
        self.slowest = max(self.slowest, seconds)

    def exchange_seconds(self) -> float:
        """The processor time of the exchange, also before the clock started."""
        return children_seconds() + sum(map(process_seconds, self.pids()))

    def processor_seconds(self) -> tuple[float, float]:
        """The processor time so far, of this tool and of the exchange."""
        return time.process_time() - self.own, self.exchange_seconds() - self.children

    def text(self) -> str:
        """What was used so far, in two lines."""
        count = max(1, self.count)
        period = self.period * 1000
        tool, exchange = (seconds / count * 1000 for seconds in self.processor_seconds())
        return (
            f"{NAME}: {self.count * self.period:.2f} s in periods of {period:.3g} ms; "
            f"the latest began {self.latest * 1000:.1f} ms late\n"
            f"{NAME}: processor time in a period: {tool:.2f} ms ({tool / period:.1%}) for this tool, "
            f"{exchange:.2f} ms ({exchange / period:.1%}) for the exchange; "
            f"replies after {self.replies / count * 1000:.1f} ms, at most {self.slowest * 1000:.1f} ms"
        )


def process_seconds(number: int) -> float:
    """The processor time of a running process, on Linux; 0 if it has ended."""
    try:
        fields = Path(f"/proc/{number}/stat").read_text().rpartition(")")[2].split()
    except OSError:
        return 0
    return (int(fields[11]) + int(fields[12])) / os.sysconf("SC_CLK_TCK")


def children_seconds() -> float:
    """The processor time of the processes that have ended."""
    times = os.times()
    return times.children_user + times.children_system
