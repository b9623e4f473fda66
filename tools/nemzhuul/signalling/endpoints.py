"""The endpoints on the lines of an exchange: their calls, and what each answers of its own accord.

An endpoint acknowledges CONNECT, answers DISCONNECT by RELEASE and RELEASE by RELEASE COMPLETE. Where
DISCONNECT says that there is a tone in band, it listens until its user hangs up. It reports its call state to
STATUS ENQUIRY, and at RESTART drops the calls of the channels and acknowledges. The endpoint of a line that has
fallen silent gets all messages and sends none.
"""

from __future__ import annotations

from collections.abc import Collection
from dataclasses import dataclass
from typing import NamedTuple, Union

from nemzhuul.command_line import Refused
from nemzhuul.signalling.q931 import (
    ACTIVE,
    ALERTING,
    CALLED_PARTY_NUMBER,
    CALLING_PARTY_NUMBER,
    CALL_PROCEEDING,
    CONNECT,
    CONNECT_ACKNOWLEDGE,
    DISCONNECT,
    INFORMATION,
    NULL,
    PROGRESS_INDICATOR,
    RELEASE,
    RELEASE_COMPLETE,
    RESTART,
    SETUP,
    SETUP_ACKNOWLEDGE,
    SPEECH,
    STATUS_ENQUIRY,
    Element,
    Message,
    cause,
    channel_identification,
    number,
    read_message,
    restart_acknowledge,
    restart_indicator,
    sending_complete,
    status,
    write_message,
)
from nemzhuul.traces.events import Slot

Where = Union[int, Slot]  # a line, or a channel of one


class Place(NamedTuple):
    """A line, and one of its channels or None for any."""

    line: int
    channel: int | None


def place_of(where: Where) -> Place:
    return Place(where.line, where.channel) if isinstance(where, Slot) else Place(where, None)


# The states of a leg, as its user sees it.
CALLS = "calls"  # the caller, before CONNECT
DIALS = "dials"  # the caller, asked for more digits
IS_CALLED = "is called"  # the called user, before its first answer
PROCEEDS = "proceeds"
ALERTS = "alerts"
TALKS = "talks"
HEARS_TONE = "hears a tone"  # the other side has cleared
CLEARS = "clears"  # DISCONNECT was sent
RELEASES = "releases"  # RELEASE was sent

UNANSWERED = (IS_CALLED, PROCEEDS, ALERTS)
STANDING = (CALLS, DIALS, *UNANSWERED, TALKS)
CLEARED = (HEARS_TONE, CLEARS, RELEASES)

# The call states of the user side (Q.931), and a caller's by the last message of its progress.
CALL_STATES = {DIALS: 2, IS_CALLED: 6, ALERTS: 7, PROCEEDS: 9, TALKS: ACTIVE, CLEARS: 11, HEARS_TONE: 12, RELEASES: 19}
INITIATED = 1
OF_A_CALLER = {CALL_PROCEEDING: 3, ALERTING: 4}


@dataclass(eq=False)
class Leg:
    """An endpoint's side of a call."""

    line: int
    reference: int
    is_own: bool  # whether the endpoint chose the call reference, and not the exchange
    state: str
    channel: int | None = None
    progress: int | None = None  # of a caller: the kind of the last message

    @property
    def call_state(self) -> int:
        if self.state == CALLS:
            return INITIATED if self.progress is None else OF_A_CALLER[self.progress]
        return CALL_STATES[self.state]

    def message(self, kind: int, *elements: Element) -> bytes:
        return write_message(0 if self.is_own else 1, self.reference, kind, *elements)


class Endpoints:
    """The legs on all lines. What an endpoint sends is returned as octets of a message."""

    def __init__(self) -> None:
        self.legs: list[Leg] = []
        self.silent: set[int] = set()  # the lines whose endpoints send nothing
        self.down: set[int] = set()  # the lines whose data links are down

    def fall_silent(self, line: int) -> None:
        if line in self.silent:
            raise Refused(f"line {line} is silent already")
        self.silent.add(line)

    def recover(self, line: int) -> None:
        if line not in self.silent:
            raise Refused(f"line {line} has not fallen silent")
        self.silent.remove(line)

    def link_fails(self, line: int) -> None:
        """Calls that are not answered are gone, and nothing reaches the endpoint or comes from it."""
        self.down.add(line)
        self.legs = [leg for leg in self.legs if leg.line != line or leg.state in (TALKS, *CLEARED)]

    def link_is_up(self, line: int) -> None:
        self.down.discard(line)

    def place(self, where: Where) -> Place:
        """The place that sends something."""
        line, channel = place_of(where)
        if line in self.silent:
            raise Refused(f"line {line} has fallen silent: line {line} recovers")
        if line in self.down:
            raise Refused(f"the data link of line {line} is down: the link of line {line} is up")
        return Place(line, channel)

    def find(self, where: Where, states: Collection[str], what: str) -> Leg:
        """The leg on a line, or on a slot, that is in one of these states."""
        line, channel = self.place(where)
        at_hand = [
            leg
            for leg in self.legs
            if leg.line == line and leg.state in states and channel in (None, leg.channel)
        ]
        place = f"line {line}" + ("" if channel is None else f", channel {channel}")
        if not at_hand:
            raise Refused(f"{place} has no call {what}")
        if len(at_hand) > 1:
            slots = ", ".join(f"{line}/{leg.channel}" for leg in at_hand)
            raise Refused(f"{place} has several calls {what}: name one of {slots}")
        return at_hand[0]

    # ---- what a user asks for

    def call(self, where: Where, digits: str | None = None, caller: str | None = None, is_exclusive: bool = True) -> bytes:
        line, channel = self.place(where)
        used = {leg.reference for leg in self.legs if leg.line == line and leg.is_own}
        leg = Leg(line, min(set(range(1, len(used) + 2)) - used), True, CALLS, channel)
        self.legs.append(leg)
        elements = [SPEECH]
        if channel is not None:
            elements.append(channel_identification(channel, is_exclusive))
        if caller is not None:
            elements.append(number(CALLING_PARTY_NUMBER, caller))
        if digits is not None:
            elements.append(number(CALLED_PARTY_NUMBER, digits))
        return leg.message(SETUP, *elements)

    def dial(self, where: Where, digits: str, to_the_end: bool) -> bytes:
        leg = self.find(where, (DIALS,), "to dial on in")
        end = [sending_complete()] if to_the_end else []
        return leg.message(INFORMATION, *end, number(CALLED_PARTY_NUMBER, digits))

    def proceed(self, where: Where) -> bytes:
        return self._advance(where, (IS_CALLED,), PROCEEDS, CALL_PROCEEDING, "to proceed with")

    def alert(self, where: Where) -> bytes:
        return self._advance(where, (IS_CALLED, PROCEEDS), ALERTS, ALERTING, "to alert for")

    def answer(self, where: Where) -> bytes:
        return self._advance(where, UNANSWERED, TALKS, CONNECT, "to answer")

    def hang_up(self, where: Where, value: int) -> bytes:
        return self.clear(self.find(where, (*STANDING, HEARS_TONE), "to hang up"), value)

    @staticmethod
    def clear(leg: Leg, value: int) -> bytes:
        """What the user of a leg sends to clear its call: RELEASE if the other side has cleared already, else DISCONNECT."""
        if leg.state == HEARS_TONE:
            leg.state = RELEASES
            return leg.message(RELEASE)
        leg.state = CLEARS
        return leg.message(DISCONNECT, cause(value))

    def reject(self, where: Where, value: int) -> bytes:
        leg = self.find(where, (IS_CALLED,), "to reject")
        self.legs.remove(leg)
        return leg.message(RELEASE_COMPLETE, cause(value))

    def ask(self, where: Where) -> bytes:
        leg = self.find(where, (*STANDING, *CLEARED), "to ask for")
        return leg.message(STATUS_ENQUIRY)

    def restart(self, where: Where) -> bytes:
        line, channel = self.place(where)
        self.legs = [leg for leg in self.legs if leg.line != line or channel not in (None, leg.channel)]
        elements = [] if channel is None else [channel_identification(channel)]
        return write_message(0, 0, RESTART, *elements, restart_indicator(is_whole_line=channel is None))

    def _advance(self, where: Where, states: Collection[str], state: str, kind: int, what: str) -> bytes:
        leg = self.find(where, states, what)
        leg.state = state
        return leg.message(kind)

    # ---- what the exchange sends

    def receive(self, line: int, octets: bytes) -> bytes | None:
        """What the endpoint on a line answers to a message of the exchange; None where it is nothing."""
        if line in self.down:
            return None
        message = read_message(octets)
        if message is None:
            return None
        leg = self._leg(line, message)
        if message.kind == SETUP and (leg is None or leg.state != IS_CALLED):
            if leg is not None:  # the exchange has given it up, and uses its reference again
                self.legs.remove(leg)
            self.legs.append(Leg(line, message.reference, False, IS_CALLED, message.channel and message.channel.number))
            return None
        if leg is not None and line in self.silent:
            if message.kind == RELEASE_COMPLETE:
                self.legs.remove(leg)
            return None
        return self._take_on_none(line, message) if leg is None else self._take(leg, message)

    def _take_on_none(self, line: int, message: Message) -> bytes | None:
        """A message that is for no call."""
        reply = None
        if message.kind == RESTART and message.reference == 0:
            self.legs = [leg for leg in self.legs if leg.line != line or not message.restarts(leg.channel)]
            reply = restart_acknowledge(message)
        elif message.kind == STATUS_ENQUIRY and message.reference:
            reply = status(1 - message.flag, message.reference, NULL)
        return None if line in self.silent else reply

    def _leg(self, line: int, message: Message) -> Leg | None:
        for leg in self.legs:
            if (leg.line, leg.reference, leg.is_own) == (line, message.reference, message.flag == 1):
                return leg
        return None

    def _take(self, leg: Leg, message: Message) -> bytes | None:
        if message.kind in OF_A_CALLER:
            leg.progress = message.kind
        if message.kind in (CALL_PROCEEDING, SETUP_ACKNOWLEDGE):
            leg.state = DIALS if message.kind == SETUP_ACKNOWLEDGE else CALLS
            leg.channel = message.channel.number if message.channel else leg.channel
        elif message.kind == CONNECT:
            leg.state = TALKS
            return leg.message(CONNECT_ACKNOWLEDGE)
        elif message.kind == STATUS_ENQUIRY:
            return status(0 if leg.is_own else 1, leg.reference, leg.call_state)
        elif message.kind == DISCONNECT and PROGRESS_INDICATOR in message.elements:
            leg.state = HEARS_TONE
        elif message.kind == DISCONNECT:
            leg.state = RELEASES
            return leg.message(RELEASE)
        elif message.kind in (RELEASE, RELEASE_COMPLETE):
            self.legs.remove(leg)
            if message.kind == RELEASE and leg.state != RELEASES:
                return leg.message(RELEASE_COMPLETE)
        return None
