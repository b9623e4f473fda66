"""Writes a trace of calls that are drawn from a seed: the trace of `tst gen`, or calls at a rate, to load an exchange."""

from __future__ import annotations

import argparse
import heapq
import random
from collections.abc import Callable, Iterator
from itertools import count
from typing import NamedTuple, NoReturn

from nemzhuul.command_line import NAME, WrongWords, say
from nemzhuul.programs.program import Trace
from nemzhuul.signalling.q931 import (
    ALERTING,
    CALLED_PARTY_NUMBER,
    CONNECT,
    CONNECT_ACKNOWLEDGE,
    DISCONNECT,
    INFORMATION,
    NORMAL_CALL_CLEARING,
    RELEASE,
    RELEASE_COMPLETE,
    SETUP,
    SPEECH,
    USER_BUSY,
    cause,
    number,
    write_message,
)
from nemzhuul.traces.events import FRAMES_PER_SECOND, PLACES, Slot

USAGE = """usage: tools/traffic SEED CALLS >TRACE
       tools/traffic SEED CALLS --rate N [--holding S] [--ringing S] [--busy P] [--unanswered P] [--overlap P]
                     [--lines N] [--processors N] >TRACE
writes a trace of CALLS calls (1 to 2000) that are drawn from SEED (0 to 4294967295). Without --rate it is the
trace that `tst gen SEED CALLS` runs. With it, N calls a second begin at random times between random lines:
  --holding S      how long a conversation lasts, in seconds, on average (0.5)
  --ringing S      how long a called user is alerted, on average (0.1)
  --busy P         of 100 calls, how many find the called user busy (0)
  --unanswered P   of 100 calls, how many are given up while the called user is alerted (0)
  --overlap P      of 100 calls, how many dial their number in parts (0)
  --lines N        external lines (8), 2 to 32
  --processors N   call processors (4), 1 to 8
A call for which no line has a free channel is not made; standard error says how many. No octets are sent."""

ANSWERED, BUSY, UNANSWERED = "answered", "busy", "unanswered"
REACTION = 0.005  # seconds, on average, before an endpoint sends the next message


class Options(argparse.Namespace):
    """The arguments of the command."""

    seed: int
    calls: int
    rate: float | None
    holding: float
    ringing: float
    lines: int
    processors: int
    busy: float
    unanswered: float
    overlap: float


class Parser(argparse.ArgumentParser):
    """A parser that refuses wrong arguments as the other tools do."""

    def error(self, message: str) -> NoReturn:
        raise WrongWords


def between(kind: Callable[[str], float], least: float, most: float) -> Callable[[str], float]:
    """A reader of a number between two others."""

    def read(word: str) -> float:
        value = kind(word)
        if not least <= value <= most:
            raise ValueError
        return value

    return read


def main(*words: str) -> bytes:
    parser = Parser(add_help=False, allow_abbrev=False)
    parser.add_argument("seed", type=between(int, 0, 2**32 - 1))
    parser.add_argument("calls", type=between(int, 1, 2000))
    parser.add_argument("--rate", type=between(float, 0.1, 8000))
    parser.add_argument("--holding", type=between(float, 0, 8), default=0.5)
    parser.add_argument("--ringing", type=between(float, 0, 3), default=0.1)
    parser.add_argument("--lines", type=between(int, 2, 32), default=8)
    parser.add_argument("--processors", type=between(int, 1, 8), default=4)
    for share in ("--busy", "--unanswered", "--overlap"):
        parser.add_argument(share, type=between(float, 0, 100), default=0)
    options = parser.parse_args(words, Options())
    if options.busy + options.unanswered > 100 or options.rate is None and len(words) > 2:
        raise WrongWords
    return generate(options.seed, options.calls) if options.rate is None else Load(options, options.rate).text()


# ---- the trace of `tst gen`


class Draws:
    """Pseudo-random numbers as docs/FORMATS.md defines them."""

    def __init__(self, seed: int) -> None:
        self.x = seed

    def below(self, n: int) -> int:
        self.x = (self.x * 6364136223846793005 + 1442695040888963407) % 2**64
        return (self.x >> 33) % n

    def octets(self) -> str:
        return "".join(f"{self.below(256):02X}" for _ in range(PLACES))


def generate(seed: int, calls: int) -> bytes:
    """The trace of a seed that `tst gen` runs (docs/FORMATS.md, "Generated traces")."""
    draws, trace = Draws(seed), Trace()
    trace.header("exchange 1 8 1 4")
    for line in range(8):
        trace.header(f"number 2{line} line {line}")
    trace.header("number 30 room 0")
    for place in range(10, 30):
        for line in range(4):
            channel = place + (1 if place < 15 else 2)
            trace.event(f"nail {Slot(line, channel)} {Slot(4 + (line + place) % 4, channel)}")
    trace.segment()
    for _ in range(calls):
        generate_call(draws, trace)
    return trace.text()


def generate_call(draws: Draws, trace: Trace) -> None:
    a, b, frames = draws.below(8), draws.below(9), 1 + draws.below(3)
    is_line = b < 8
    send(trace, a, write_message(0, 1, SETUP, SPEECH, number(CALLED_PARTY_NUMBER, f"2{b}" if is_line else "30")))
    if is_line:
        send(trace, b, write_message(1, 1, CONNECT))
    for _ in range(frames):
        parts = [f" {line}:{draws.octets()}" for line in ([a, b] if is_line and a != b else [a])]
        trace.event("F" + "".join(parts))
    trace.segment()
    send(trace, a, write_message(0, 1, DISCONNECT, cause(NORMAL_CALL_CLEARING)))
    send(trace, a, write_message(0, 1, RELEASE_COMPLETE))
    if is_line:
        send(trace, b, write_message(1, 1, RELEASE))


def send(trace: Trace, line: int, octets: bytes) -> None:
    """A message in a segment of its own."""
    trace.event(f"M {line} {octets.hex().upper()}")
    trace.segment()


# ---- calls at a rate


class References(set[int]):
    """A line's call references in use: those that its endpoint chooses, or those that the exchange does."""

    def take(self) -> int:
        """The lowest reference that is free, as both sides choose it."""
        reference = next(at for at in count(1) if at not in self)
        self.add(reference)
        return reference


class Waiting(NamedTuple):
    """A call until its next message: the time in seconds, the order of calls with one time, and the rest of the call."""

    time: float
    order: int
    call: Iterator[float]


class Load:
    """Calls that begin at random times. Each is a generator of the seconds until its next message."""

    def __init__(self, options: Options, rate: float) -> None:
        self.options = options
        self.rate = rate  # of calls a second
        self.random = random.Random(options.seed)
        self.trace = Trace()
        self.own = [References() for _ in range(options.lines)]  # by line
        self.given = [References() for _ in range(options.lines)]
        self.channels = [PLACES] * options.lines  # how many are free on each line
        self.frames = 0
        self.lost = 0

    def text(self) -> bytes:
        self.trace.header(f"exchange 1 {self.options.lines} 0 {self.options.processors}")
        for line in range(self.options.lines):
            self.trace.header(f"number {self.number(line)} line {line}")
        order, time = count(), 0.0
        waiting: list[Waiting] = []
        for _ in range(self.options.calls):
            time += self.random.expovariate(self.rate)
            waiting.append(Waiting(time, next(order), self.call()))
        while waiting:
            time, _, call = heapq.heappop(waiting)
            self.pass_frames(int(time * FRAMES_PER_SECOND) - self.frames)
            pause = next(call, None)
            if pause is not None:
                heapq.heappush(waiting, Waiting(time + pause, next(order), call))
        if self.lost:
            say(f"{NAME}: {self.lost} of {self.options.calls} calls are not made, since no line has a free channel")
        return self.trace.text()

    def pass_frames(self, number_of_frames: int) -> None:
        for _ in range(number_of_frames):
            self.trace.event("F")
        if number_of_frames:
            self.trace.segment()
        self.frames += number_of_frames

    @staticmethod
    def number(line: int) -> str:
        return f"2{line:02}"

    def outcome(self) -> str:
        drawn = self.random.uniform(0, 100)
        if drawn < self.options.busy:
            return BUSY
        return UNANSWERED if drawn < self.options.busy + self.options.unanswered else ANSWERED

    def draw_time(self, mean: float) -> float:
        """A time with this average, from an exponential distribution."""
        return self.random.expovariate(1 / mean) if mean else 0

    def call(self) -> Iterator[float]:
        """One call from its SETUP to its end."""
        outcome, is_overlap = self.outcome(), self.random.uniform(0, 100) < self.options.overlap
        free = [line for line, channels in enumerate(self.channels) if channels]
        if len(free) < 2:
            self.lost += 1
            return
        a, b = self.random.sample(free, 2)
        self.channels[a] -= 1
        self.channels[b] -= 1
        own = self.own[a].take()
        yield from self.dial(a, own, self.number(b), is_overlap)
        given = self.given[b].take()
        yield self.draw_time(REACTION)
        if outcome == BUSY:
            self.send(b, write_message(1, given, RELEASE_COMPLETE, cause(USER_BUSY)))
            self.leave(b, self.given, given)
            yield self.draw_time(REACTION)
            self.send(a, write_message(0, own, RELEASE))
            self.leave(a, self.own, own)
            return
        self.send(b, write_message(1, given, ALERTING))
        yield self.draw_time(self.options.ringing)
        if outcome == ANSWERED:
            self.send(b, write_message(1, given, CONNECT))
            self.send(a, write_message(0, own, CONNECT_ACKNOWLEDGE))
            yield self.draw_time(self.options.holding)
        yield from self.clear(a, own, b, given)

    def leave(self, line: int, references: list[References], reference: int) -> None:
        """A leg is gone, with its reference and its channel."""
        references[line].remove(reference)
        self.channels[line] += 1

    def dial(self, line: int, reference: int, digits: str, is_overlap: bool) -> Iterator[float]:
        """SETUP with the number, or without it and then the number in parts."""
        if not is_overlap:
            self.send(line, write_message(0, reference, SETUP, SPEECH, number(CALLED_PARTY_NUMBER, digits)))
            return
        self.send(line, write_message(0, reference, SETUP, SPEECH))
        for part in (digits[:1], digits[1:]):
            yield self.draw_time(REACTION)
            self.send(line, write_message(0, reference, INFORMATION, number(CALLED_PARTY_NUMBER, part)))

    def clear(self, a: int, own: int, b: int, given: int) -> Iterator[float]:
        """The caller hangs up; each side releases its leg."""
        self.send(a, write_message(0, own, DISCONNECT, cause(NORMAL_CALL_CLEARING)))
        yield self.draw_time(REACTION)
        self.send(a, write_message(0, own, RELEASE_COMPLETE))
        self.leave(a, self.own, own)
        yield self.draw_time(REACTION)
        self.send(b, write_message(1, given, RELEASE))
        self.leave(b, self.given, given)

    def send(self, line: int, octets: bytes) -> None:
        send(self.trace, line, octets)
