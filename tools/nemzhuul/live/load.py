"""The load of an endpoint: calls that it places at a rate, calls to it that it answers, and their outcomes."""

from __future__ import annotations

import heapq
import select
import sys
import time
from collections import Counter
from collections.abc import Sequence
from dataclasses import dataclass, field
from itertools import count
from statistics import median
from typing import NoReturn

from nemzhuul.command_line import NAME, Refused, WrongWords, say, write_output
from nemzhuul.live.wire import Address, read_address, receive
from nemzhuul.signalling.endpoints import HEARS_TONE, TALKS, Endpoints, Leg
from nemzhuul.signalling.q931 import (
    CONNECT,
    DISCONNECT,
    NORMAL_CALL_CLEARING,
    RELEASE,
    RELEASE_COMPLETE,
    SETUP,
    Message,
    cause_text,
    read_message,
)

MAX_REFERENCE = 0x7FFF  # an endpoint can have this number of calls that it placed
CLEARINGS = (DISCONNECT, RELEASE, RELEASE_COMPLETE)
UNSOUND = 3  # the status if a call was not answered, or did not last
LIMITS = {"--calls": (1, 1_000_000), "--rate": (0.01, 8000), "--holding": (0, 86_400), "--patience": (0.1, 600), "--answer": (1, 1_000_000)}


@dataclass(frozen=True)
class Plan:
    """The calls that an endpoint places, and how many calls to it come before it ends."""

    calls: int = 0
    digits: str = ""
    rate: float = 1.0  # calls a second
    holding: float = 1.0  # seconds from the answer of a call to its clearing
    patience: float = 10.0  # seconds until a call without an answer, or a clearing without an end, is given up
    answers: int = 0


def read_plan(words: Sequence[str]) -> tuple[Plan, Address]:
    """The plan and the address of the arguments `--OPTION NUMBER .. ADDRESS [DIGITS]`."""
    left = list(words)
    given: dict[str, float] = {}
    while left and left[0].startswith("--"):
        option = left.pop(0)
        if option in given or not left:
            raise WrongWords
        given[option] = number_of(left.pop(0), option)
    calls, answers = int(given.pop("--calls", 0)), int(given.pop("--answer", 0))
    wanted = 2 if calls else 1
    if len(left) != wanted or not (calls or answers) or bool(calls) != ("--rate" in given) or not calls and given:
        raise WrongWords
    digits = left[1] if calls else ""
    if calls and not (digits.isascii() and digits.isdecimal()):
        raise Refused(f"{digits} is no number: it has digits only")
    return Plan(calls, digits, answers=answers, **{name[2:]: value for name, value in given.items()}), read_address(left[0])


def number_of(word: str, option: str) -> float:
    """The number of an option, within its limits. A count is whole."""
    least, most = LIMITS.get(option) or wrong()
    try:
        value = int(word) if option in ("--calls", "--answer") else float(word)
    except ValueError:
        raise WrongWords from None
    return value if least <= value <= most else wrong()


def wrong() -> NoReturn:
    raise WrongWords


@dataclass
class Tally:
    """The outcomes of the calls. A cause is None if the exchange stated none."""

    offered: int = 0
    set_up: list[float] = field(default_factory=list)  # seconds from SETUP to CONNECT of each answered call
    refused: Counter[int | None] = field(default_factory=Counter)  # before an answer, by cause
    given_up: int = 0  # without an answer or a refusal
    cut: Counter[int | None] = field(default_factory=Counter)  # cleared by the other side while they were held, by cause
    unreleased: int = 0  # whose clearing the exchange has not ended
    came: int = 0  # calls to the endpoint, which it answered
    late: float = 0.0  # seconds from the time of a call to its SETUP, at most

    @property
    def is_sound(self) -> bool:
        """Whether each call was answered, lasted, and was released."""
        return not (self.refused or self.given_up or self.cut or self.unreleased) and len(self.set_up) == self.offered

    def text(self) -> str:
        lines = [f"offered {self.offered}, at most {1000 * self.late:.1f} ms late", f"answered {len(self.set_up)}"]
        lines += causes_text("refused", self.refused) or ["refused 0"]
        lines += [f"given up {self.given_up}"] if self.given_up else []
        lines += causes_text("cut", self.cut)
        lines += [f"not released {self.unreleased}"] if self.unreleased else []
        if self.set_up:
            times = [1000 * value for value in (min(self.set_up), median(self.set_up), max(self.set_up))]
            lines.append("set-up time {:.1f} ms least, {:.1f} ms median, {:.1f} ms most".format(*times))
        came = [f"calls that came {self.came}"] if self.came else []
        return "".join(f"{line}\n" for line in [*(lines if self.offered else []), *came])


def causes_text(what: str, causes: Counter[int | None]) -> list[str]:
    """A line for each cause, the most frequent first."""
    return [
        f"{what} {times} " + ("without a cause" if value is None else f"with {cause_text(value)}")
        for value, times in causes.most_common()
    ]


@dataclass(eq=False)
class Call:
    """A call that was placed, and the time at which something is to be done with it."""

    leg: Leg
    offered: float
    due: float = 0.0
    is_answered: bool = False
    is_ending: bool = False  # one of its sides has cleared it


class Load:
    """The calls of an endpoint that follows a plan. It gets times and messages, and returns the messages to be sent."""

    def __init__(self, line: int, plan: Plan, begun: float) -> None:
        self.line = line
        self.plan = plan
        self.begun = begun
        self.endpoints = Endpoints()
        self.calls: dict[int, Call] = {}  # that it placed, by call reference
        self.due: list[tuple[float, int, Call]] = []  # a heap; an entry counts if its call has the same time
        self.entries = count()
        self.tally = Tally()

    @property
    def is_over(self) -> bool:
        has_more = self.tally.offered < self.plan.calls or self.tally.came < self.plan.answers
        return not (has_more or self.calls or self.endpoints.legs)

    @property
    def next_due(self) -> float | None:
        """The time of the next message that it sends on its own, if there is one."""
        times = [self.due[0][0]] if self.due else []
        if self._may_offer():
            times.append(self._time_of_next_call())
        return min(times, default=None)

    def _may_offer(self) -> bool:
        return self.tally.offered < self.plan.calls and len(self.calls) < MAX_REFERENCE

    def _time_of_next_call(self) -> float:
        return self.begun + self.tally.offered / self.plan.rate

    def work(self, now: float) -> list[bytes]:
        """The messages whose time has come."""
        sent = []
        while self.due and self.due[0][0] <= now:
            due, _, call = heapq.heappop(self.due)
            if call.due == due and self.calls.get(call.leg.reference) is call:
                sent += self._act(call, now)
        while self._may_offer() and self._time_of_next_call() <= now:
            sent.append(self._offer(now))
        return sent

    def _offer(self, now: float) -> bytes:
        self.tally.late = max(self.tally.late, now - self._time_of_next_call())
        self.tally.offered += 1
        setup = self.endpoints.call(self.line, self.plan.digits)
        call = Call(self.endpoints.legs[-1], now)
        self.calls[call.leg.reference] = call
        self._wait(call, now + self.plan.patience)
        return setup

    def _wait(self, call: Call, due: float) -> None:
        call.due = due
        heapq.heappush(self.due, (due, next(self.entries), call))

    def _act(self, call: Call, now: float) -> list[bytes]:
        """Clears a call that was held or is given up, and forgets one whose clearing does not end."""
        if call.is_ending:
            self.tally.unreleased += 1
            self.endpoints.legs.remove(call.leg)
            del self.calls[call.leg.reference]
            return []
        self.tally.given_up += not call.is_answered
        call.is_ending = True
        self._wait(call, now + self.plan.patience)
        return [self.endpoints.clear(call.leg, NORMAL_CALL_CLEARING)]

    def receive(self, octets: bytes, now: float) -> list[bytes]:
        """Takes a message of the exchange, and returns what it is answered with."""
        message = read_message(octets)
        if message is None:
            return []
        call = self.calls.get(message.reference) if message.flag else None
        reply = self.endpoints.receive(self.line, octets)
        sent = [] if reply is None else [reply]
        if call is not None:
            self._follow(call, message, now)
        if message.kind == SETUP:
            sent.append(self._answer(self.endpoints.legs[-1]))
        for leg in self.endpoints.legs if message.kind == DISCONNECT else ():
            if leg.state == HEARS_TONE:  # nobody listens to it
                sent.append(self.endpoints.clear(leg, NORMAL_CALL_CLEARING))
        return sent

    def _follow(self, call: Call, message: Message, now: float) -> None:
        """Records what a message says of a call that was placed."""
        if message.kind == CONNECT and not (call.is_answered or call.is_ending):
            call.is_answered = True
            self.tally.set_up.append(now - call.offered)
            self._wait(call, now + self.plan.holding)
        elif message.kind in CLEARINGS and not call.is_ending:
            call.is_ending = True
            (self.tally.cut if call.is_answered else self.tally.refused)[message.cause] += 1
            self._wait(call, now + self.plan.patience)
        if message.kind in (RELEASE, RELEASE_COMPLETE):
            del self.calls[call.leg.reference]

    def _answer(self, leg: Leg) -> bytes:
        self.tally.came += 1
        leg.state = TALKS
        return leg.message(CONNECT)


class Wire:
    """A connection to the line of an exchange. It sends and gets messages, and no frames."""

    def __init__(self, address: Address) -> None:
        self.connection = address.connect()
        self.connection.setblocking(False)
        self.unsent = bytearray()
        self.begun = b""  # the part of a line that has come
        self.line: int | None = None  # its number, which comes first

    def send(self, messages: Sequence[bytes]) -> None:
        self.unsent += b"".join(b"M %s\n" % octets.hex().upper().encode() for octets in messages)
        try:
            while self.unsent:
                del self.unsent[: self.connection.send(self.unsent)]
        except BlockingIOError:
            pass
        except OSError:  # the last line that comes says why
            self.unsent.clear()

    def receive(self, seconds: float | None) -> list[bytes]:
        """Waits so long until something comes, and returns the messages."""
        ends = [self.connection]
        ready, writable, _ = select.select(ends, ends if self.unsent else [], [], seconds)
        if writable:
            self.send(())
        text = receive(self.connection) if ready else None
        if text is None:
            return []
        if not text:
            raise Refused("the exchange has closed the line")
        *lines, self.begun = (self.begun + text).split(b"\n")
        return [bytes.fromhex(message) for message in map(self._message, lines) if message]

    def _message(self, line: bytes) -> str:
        """The digits of a message. Another line has none."""
        word, _, rest = line.decode().partition(" ")
        if word == "refused":
            raise Refused(f"the exchange has closed the line: {rest}")
        if word == "line":
            self.line = int(rest)
        return rest if word == "M" else ""


def run(wire: Wire, plan: Plan) -> Tally:
    """Follows a plan on a line, and returns the outcomes of its calls. If it cannot go on, that is printed first."""
    came: list[bytes] = []
    while wire.line is None:
        came += wire.receive(None)
    load = Load(wire.line, plan, time.monotonic())
    said = load.begun
    try:
        while True:
            now = time.monotonic()
            if now - said >= 1 and sys.stderr.isatty():
                said = now
                say(f"{NAME}: {load.tally.offered} of {plan.calls} calls offered, {load.tally.came} received")
            wire.send([reply for octets in came for reply in load.receive(octets, now)] + load.work(now))
            if load.is_over and not wire.unsent:
                return load.tally
            due = load.next_due
            came = wire.receive(None if due is None else max(0.0, due - time.monotonic()))
    except (Refused, KeyboardInterrupt):
        write_output(load.tally.text())
        raise


def main(*words: str) -> str:
    """Runs the plan of the arguments. The status is 3 if a call was not answered, or did not last."""
    plan, address = read_plan(words)
    tally = run(Wire(address), plan)
    if not tally.is_sound:
        write_output(tally.text())
        sys.exit(UNSOUND)
    return tally.text()
