"""Follows a running exchange by its replies: its calls, its slots and its data links. A line takes constant work.

Operators and the records of calls see the exchange through it. It decides nothing. The exchange has no data links:
`nemzhuul.live.linked` follows one that has some.
"""

from __future__ import annotations

import re
from collections import deque
from collections.abc import Callable, Sequence
from pathlib import Path
from typing import Protocol

from nemzhuul.command_line import Refused
from nemzhuul.live.clock import WallClock
from nemzhuul.live.processes import Loop
from nemzhuul.traces.events import Arrival, Event, Frame, Link, Moved, Reply, Sent, Sizes, Trace
from nemzhuul.traces.following import Run
from nemzhuul.traces.reading import LineError, TraceReader, read_moved

MAX_ROWS = 40  # messages of a call
CONNECTED = ("granted", "seated")
COMMAND = re.compile(rb"^(?:nail|seat|free|restart) [^\n]*", re.MULTILINE)  # of an operator, and the restarts of a start


class Listener(Protocol):
    """What is informed of each event that is no frame without a message."""

    def take(self, run: Run, reply: Reply) -> None:
        """The run has taken an event."""

    def give_up(self, why: str) -> None:
        """The exchange is followed no more."""


class Follower:
    """The calls, the slots and the data links of a running exchange, as far as its replies show them."""

    def __init__(self, trace: Trace) -> None:
        self.trace = trace
        self.run = Run(trace, MAX_ROWS)
        self.is_up = {line: line not in trace.linked for line in range(trace.sizes.external)}  # by line, its data link
        self.commands: deque[Event] = deque(trace.events)  # of the settings and of operators, without replies so far
        self.listeners: list[Listener] = []
        self.events = self.frames = 0
        self.clocks: list[WallClock] = []
        self.refusal = ""  # why it follows no more

    # ---- the process that it follows by, if it has one

    def begin(self, words: Sequence[str | Path], loop: Loop) -> None:
        """The exchange starts, as a process with these words."""

    @property
    def lags(self) -> bool:
        """Whether the exchange has replied more than is followed."""
        return False

    def is_current(self) -> bool:
        """Whether operators can be shown what is followed."""
        return True

    def pids(self) -> list[int]:
        return []

    def finish(self, is_hurried: Callable[[], bool]) -> None:
        """The exchange has ended. Takes all that it has replied."""

    def kill(self) -> None:
        """Ends the process, if it has not ended."""

    # ---- what the exchange is given, and its replies

    def expect(self, event: Event) -> None:
        """Awaits the reply to a command of an operator, or to a restart."""
        self.commands.append(event)

    def read(self, text: bytes) -> None:
        """Awaits replies to the commands of operators in lines of a log."""
        for line in COMMAND.findall(text):
            self.expect(read_command(line.decode("latin-1"), self.trace.sizes))

    def take(self, words: Sequence[bytes], asked: tuple[int, bytes] | None) -> None:
        """Takes a reply, in words. A message was asked: its line and its digits."""
        self.events += 1
        frame = self.frames
        if len(words) > 1 and words[1] == b"frame":
            self.frames += 1
            if (len(words) == 3 or words[3] != b"send") and not self.run.may_end_leg(frame):
                return
        if self.refusal:
            return
        try:
            self.run.frames = frame
            self._take_reply(words, asked)
        except Refused as refusal:
            self._give_up(str(refusal))
        except LookupError:
            self._give_up(f"event {self.events} does not fit the calls before it")

    def _give_up(self, why: str) -> None:
        """Follows nothing more. The exchange goes on."""
        self.refusal = why
        self.run.calls = [call for call in self.run.calls if call.rows]  # one may just have begun
        for listener in self.listeners:
            listener.give_up(why)

    def _take_reply(self, words: Sequence[bytes], asked: tuple[int, bytes] | None) -> None:
        word = words[1] if len(words) > 1 else b""
        if word == b"frame":
            at = 3
            sent: list[Sent] = []
            while words[at : at + 1] == [b"send"]:
                sent += sent_in(words[at + 1 : at + 3])
                at += 3
            self._take(Frame({}), Reply(self.events, "frame", sent=tuple(sent), frame=self.frames - 1))
        elif asked is not None:
            line, digits = asked
            self._reply(Arrival(line, bytes.fromhex(digits.decode())), "message", words[2:])
        elif self.commands and word.isalpha():
            self._reply(self.commands.popleft(), word.decode(), words[2:])

    def _reply(self, event: Event, word: str, words: Sequence[bytes]) -> None:
        """Takes a reply to an event that is no frame."""
        if word in CONNECTED:
            self._take(event, Reply(self.events, word, moved_in(words[:2])))
            return
        moved = moved_in(words[1:3]) if words[:1] == [b"moved"] else None
        self._take(event, Reply(self.events, word, moved, tuple(sent_in(words[3:] if moved else words))))

    def _take(self, event: Event, reply: Reply) -> None:
        self.run.take(event, reply)
        self.run.on_no_call.clear()
        if isinstance(event, Link):
            self.is_up[event.line] = event.is_up
        for call in self.run.ended:
            self.run.calls.remove(call)
        for listener in self.listeners:
            listener.take(self.run, reply)


def sent_in(words: Sequence[bytes]) -> list[Sent]:
    """The messages in pairs of a line and its octets."""
    return [Sent(int(words[at]), bytes.fromhex(words[at + 1].decode())) for at in range(0, len(words) - 1, 2)]


def moved_in(words: Sequence[bytes]) -> Moved | None:
    return read_moved(*(word.decode() for word in words))


def read_command(line: str, sizes: Sizes) -> Event:
    """The event of a line `nail`, `seat`, `free` or `restart` of an exchange of these sizes."""
    reader = TraceReader(is_followed=True)
    reader.has_header, reader.sizes = True, sizes
    try:
        event = reader.take(line)
    except LineError as error:
        raise Refused(error.said) from None
    if event is None:
        raise Refused(f"{line} is no event")
    return event
