"""Counts the cases of RESTART of the exchange in a trace: repeated until it is acknowledged, and then not."""

from __future__ import annotations

from collections import Counter
from collections.abc import Sequence
from typing import NamedTuple

from nemzhuul.signalling.q931 import CALL_PROCEEDING, RELEASE, RESTART, RESTART_ACKNOWLEDGE, SETUP, SETUP_ACKNOWLEDGE, Message, read_message
from nemzhuul.traces.events import CHANNELS

REPEATED = "RESTART repeated as it was not acknowledged"
CONFIRMED = "RESTART not repeated after RESTART ACKNOWLEDGE"
UNANSWERED = "RESTART after T308 expired twice on a line that is up"
OFFERED = "a call offered on a channel whose RESTART is not acknowledged"
CASES = (REPEATED, CONFIRMED, UNANSWERED, OFFERED)


class Channel(NamedTuple):
    line: int
    number: int


class Leg(NamedTuple):
    """A leg: its line, and the flag and the call reference of its user's messages."""

    line: int
    word: int


class Restarts:
    """The channels that have had no leg since a RESTART of them, as far as the messages of a trace show it."""

    def __init__(self, cases: Counter[str]) -> None:
        self.cases = cases
        self.down: set[int] = set()
        self.owed: set[Channel] = set()  # of lines that were restarted while they were down
        self.unconfirmed: set[Channel] = set()
        self.confirmed: set[Channel] = set()
        self.channels: dict[Leg, Channel] = {}
        self.released: dict[Leg, Channel] = {}  # whose users have not replied to RELEASE on a line that is up

    def add(self, event: str, sent: Sequence[tuple[int, str]]) -> None:
        """An event, and the line and the digits of each message that the exchange sends for it."""
        word, *words = event.split()
        messages = [(line, message) for line, digits in sent for message in [read_message(bytes.fromhex(digits))] if message]
        if word == "M":
            self.arrives(int(words[0]), read_message(bytes.fromhex("".join(words[1:]))))
        elif word == "down":
            self.fails(int(words[0]))
        elif word == "restart":
            self.is_restarted(int(words[0]))
        elif word == "up":
            self.comes_up(int(words[0]), [message for _, message in messages if message.kind == RESTART])
        for line, message in messages:
            self.leaves(line, message)

    def arrives(self, line: int, message: Message | None) -> None:
        """A message of a user."""
        if message is None:
            return
        self.released.pop(Leg(line, int(message.reference_digits, 16)), None)
        if message.reference:
            return
        if message.kind == RESTART:
            self.forget_released(line)
        elif message.kind == RESTART_ACKNOWLEDGE and message.flag and message.restarts_line is not None:
            covered = {channel for channel in self.unconfirmed if channel.line == line and message.restarts(channel.number)}
            self.unconfirmed -= covered
            self.confirmed |= covered

    def forget_released(self, line: int) -> None:
        self.released = {leg: channel for leg, channel in self.released.items() if leg.line != line}

    def fails(self, line: int) -> None:
        self.down.add(line)
        self.forget_released(line)

    def is_restarted(self, line: int) -> None:
        """The exchange restarts a line."""
        channels = {Channel(line, number) for number in CHANNELS}
        for others in (self.owed, self.unconfirmed, self.confirmed):
            others -= channels
        self.forget_released(line)
        if line in self.down:
            self.owed |= channels
        else:
            self.unconfirmed |= channels

    def comes_up(self, line: int, restarts: Sequence[Message]) -> None:
        """The data link of a line is established, for which these RESTARTs are sent."""
        is_whole = any(restart.restarts_line for restart in restarts)
        covered = {Channel(line, number) for number in CHANNELS if any(restart.restarts(number) for restart in restarts)}
        self.cases[REPEATED] += bool(self.unconfirmed & covered)
        self.cases[CONFIRMED] += any(channel.line == line for channel in self.confirmed - covered)
        self.cases[UNANSWERED] += any(channel in covered for channel in self.released.values())
        self.released = {leg: channel for leg, channel in self.released.items() if channel not in covered}
        self.unconfirmed |= {channel for channel in self.owed if channel.line == line} if is_whole else covered
        self.owed = {channel for channel in self.owed if channel.line != line}
        self.down.discard(line)

    def leaves(self, line: int, message: Message) -> None:
        """A message of the exchange, at which a channel may get a leg."""
        leg = Leg(line, int(message.reference_digits, 16) ^ 0x8000)
        if message.kind in (SETUP, SETUP_ACKNOWLEDGE, CALL_PROCEEDING) and message.channel:
            channel = Channel(line, message.channel.number)
            self.cases[OFFERED] += message.kind == SETUP and channel in self.unconfirmed
            for channels in (self.owed, self.unconfirmed, self.confirmed):
                channels.discard(channel)
            self.released = {leg: other for leg, other in self.released.items() if other != channel}
            self.channels[leg] = channel
        elif message.kind == RELEASE and line not in self.down and leg in self.channels:
            self.released[leg] = self.channels[leg]
