"""Counts the calls and the paths of a running exchange, and keeps the calls that ended last."""

from __future__ import annotations

import heapq
from bisect import bisect_left
from collections import Counter, deque
from collections.abc import Mapping
from dataclasses import dataclass, field
from typing import NamedTuple, Optional

from nemzhuul.traces.events import FRAMES_PER_SECOND, PLACES, Reply, Slot
from nemzhuul.traces.following import Call, Run

MAX_ENDED = 50  # calls that ended, which are still shown
SET_UP_BOUNDS = (0.02, 0.05, 0.1, 0.2, 0.5, 1.0, 2.0, 5.0, 10.0, 20.0, 30.0, 60.0, 120.0, 180.0)  # seconds


class Ending(NamedTuple):
    """How a call that was not refused has ended."""

    cause: Optional[int]
    is_answered: bool


@dataclass(frozen=True)
class Histogram:
    """How many of some times are at most each bound, and longer than the one before it."""

    bounds: tuple[float, ...]  # seconds
    counts: tuple[int, ...]  # one more than the bounds
    frames: int  # the sum of the times

    @staticmethod
    def empty(bounds: tuple[float, ...]) -> Histogram:
        return Histogram(bounds, (0,) * (len(bounds) + 1), 0)

    def with_time(self, frames: int) -> Histogram:
        counts = list(self.counts)
        counts[bisect_left(self.bounds, frames / FRAMES_PER_SECOND)] += 1
        return Histogram(self.bounds, tuple(counts), self.frames + frames)


@dataclass(frozen=True)
class Totals:
    """What was counted since the start of an exchange. Its calls are refused, have ended, or are in progress."""

    offered: int = 0
    answered: int = 0
    refused: Mapping[int, int] = field(default_factory=dict)  # by cause
    ended: Mapping[Ending, int] = field(default_factory=dict)
    talked: int = 0  # frames from the answer to the clearing of calls that ended
    set_up: Histogram = Histogram.empty(SET_UP_BOUNDS)  # from SETUP to CONNECT to the caller
    connected: int = 0  # events that laid two paths
    moved: int = 0  # live paths


class Counts:
    """Counts events of a run, and has the last calls that ended, the last one first."""

    def __init__(self, bridges: int = 0) -> None:
        self.last: deque[Call] = deque(maxlen=MAX_ENDED)
        self.ports: dict[Slot, int] = {}  # by member of a room; a new one gets the lowest free port
        self.free_ports = list(range(bridges * PLACES))  # a heap
        self.offered = self.answered = self.talked = self.connected = self.moved = 0
        self.refused: Counter[int] = Counter()
        self.ended: Counter[Ending] = Counter()
        self.set_up = Histogram.empty(SET_UP_BOUNDS)

    def take(self, run: Run, reply: Reply) -> None:
        self.offered = run.count
        for call in run.answered:
            self.answered += 1
            self.set_up = self.set_up.with_time((call.answered or 0) - call.rows[0].frame)
        if reply.moved is not None:
            self.connected += 1
            self.moved += sum(reply.moved)
        for call in run.ended:
            self._end(call)
        for slot in run.left:
            if slot in self.ports:
                heapq.heappush(self.free_ports, self.ports.pop(slot))
        for slot, use in run.joined:
            if use.room is not None and self.free_ports:
                self.ports[slot] = heapq.heappop(self.free_ports)

    def give_up(self, why: str) -> None:
        """What was counted so far remains."""

    def _end(self, call: Call) -> None:
        self.last.appendleft(call)
        if call.refused is not None:
            self.refused[call.refused] += 1
            return
        self.ended[Ending(call.cleared.cause if call.cleared else None, call.answered is not None)] += 1
        if call.answered is not None and call.cleared is not None:
            self.talked += call.cleared.frame - call.answered

    def totals(self) -> Totals:
        """What was counted so far."""
        return Totals(
            self.offered, self.answered, dict(self.refused), dict(self.ended), self.talked, self.set_up, self.connected, self.moved
        )
