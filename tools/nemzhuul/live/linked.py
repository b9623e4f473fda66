"""Follows a running exchange with data links by another process: the same exchange without data links.

The report of data links does not tell what call control sends. A message can wait for the window of its link, or for a
user who is busy, and be lost before any frame has it. So the other process gets what `tools/plain` writes: the messages
that the links deliver, and their changes. Its replies have each message at the event in which call control sends it.
"""

from __future__ import annotations

import re
import time
from collections import deque
from collections.abc import Callable, Sequence
from pathlib import Path

from nemzhuul.command_line import Refused
from nemzhuul.live.following import Follower
from nemzhuul.live.log import MAX_QUEUED, Writer
from nemzhuul.live.processes import Exchange, Loop
from nemzhuul.live.realtime import as_background
from nemzhuul.outputs import Output
from nemzhuul.traces import plain
from nemzhuul.traces.events import Arrival, Event, Link, Restart, Trace

PATIENCE = 1.0  # seconds that operators wait for what is followed
SETTINGS = ("exchange", "number", "tone", "timer")  # the lines before the first event
QUIET = re.compile(rb"(?:[0-9]+ frame [0-9]+\n)+")
TURNS = {b"up": True, b"down": False}  # of a data link

Asked = tuple[int, bytes]  # a message: its line and its digits


class PlainExchange(Exchange):
    """The process. The loop gives it many lines at once."""

    def __init__(self, words: Sequence[str | Path], loop: Loop, follower: LinkedFollower) -> None:
        super().__init__(words, loop, follower.take_plain, Writer(Output(None), ""))
        self.follower = follower
        as_background(self.process.pid)

    def send(self, text: bytes) -> None:
        if not self.unsent:
            self.loop.watch(self.input, None, self.write)
        self.unsent += text

    def read(self) -> None:
        super().read()
        if self.has_ended:
            self.follower.end()

    def leave(self) -> None:
        """Ends the process, and takes nothing more of it."""
        self.has_ended = True
        if not self.input.closed:
            self.loop.watch(self.input)
        self.loop.watch(self.output)
        self.kill()


class LinkedFollower(Follower):
    """Follows an exchange with data links. What it shows is a moment behind the replies of the exchange."""

    def __init__(self, trace: Trace, settings: bytes) -> None:
        super().__init__(trace)
        lines = settings.decode("latin-1").split("\n")
        said = [line for line in lines if line.lstrip(" ").startswith(SETTINGS) and not plain.is_of_links(line)]
        self.settings = "".join(f"{line}\n" for line in said).encode("latin-1")
        self.expected: deque[Event] = deque(trace.events)  # commands to which the exchange has not replied
        self.commands.clear()  # to which the process has not replied
        self.asked: deque[Asked | None] = deque()  # of the process, for each reply `message`
        self.exchange: PlainExchange | None = None
        self.given = self.replied = 0  # events of the process, and its replies
        self.taken = self.passed = 0  # replies of the exchange, and how many of them are frames
        self.is_ending = False
        self.current_at = 0.0  # when it was last seen not to lag

    # ---- the process

    def begin(self, words: Sequence[str | Path], loop: Loop) -> None:
        self.current_at = time.monotonic()
        self.exchange = PlainExchange(words, loop, self)
        self.exchange.send(self.settings)
        for event in plain.starts(self.trace.linked):
            self._give(event)

    @property
    def lags(self) -> bool:
        return self.replied < self.given and not self.refusal

    def is_current(self) -> bool:
        if not self.lags:
            self.current_at = time.monotonic()
            return True
        return time.monotonic() > self.current_at + PATIENCE

    def pids(self) -> list[int]:
        return [self.exchange.process.pid] if self.exchange and not self.exchange.has_ended else []

    def finish(self, is_hurried: Callable[[], bool]) -> None:
        if self.exchange is not None and not self.refusal:
            self.is_ending = True
            self.exchange.finish(is_hurried)
            if self.lags:
                self._give_up("the process that follows them does not reply")

    def kill(self) -> None:
        if self.exchange is not None:
            self.exchange.kill()

    def end(self) -> None:
        """The process has closed its output."""
        if not (self.is_ending or self.refusal):
            self._give_up("the process that follows them has ended")

    def _give_up(self, why: str) -> None:
        super()._give_up(why)
        self.frames = self.passed
        if self.exchange is not None and not self.exchange.has_ended:
            self.exchange.leave()

    # ---- what the exchange is given, and its replies

    def expect(self, event: Event) -> None:
        self.expected.append(event)

    def take(self, words: Sequence[bytes], asked: Asked | None) -> None:
        word = words[1] if len(words) > 1 else b""
        self.taken += 1
        self.passed += word == b"frame"
        if self.refusal:
            super().take(words, asked)
            return
        try:
            if word == b"frame":
                self._frame(words)
            elif asked is not None:
                self._signal(asked, words[2] if word == b"link" and len(words) > 2 else b"", is_link=word == b"link")
            elif self.expected and word.isalpha():
                self._give(self.expected.popleft())
        except Refused as refusal:
            self._give_up(str(refusal))

    def _frame(self, words: Sequence[bytes]) -> None:
        """Gives a frame without octets, and the change of a data link after it."""
        self._send(b"F\n")
        at = 3
        while words[at : at + 1] == [b"send"]:
            at += 3
        if len(words) > at and words[at] in TURNS:
            self._give(Link(int(words[at + 1]), TURNS[words[at]]))

    def _signal(self, asked: Asked, told: bytes, is_link: bool) -> None:
        """Gives the message of a line without a data link, or what the data link indicates for a frame."""
        line, octets = asked[0], bytes.fromhex(asked[1].decode())
        if not is_link:
            self._give(Arrival(line, octets))
            return
        event = plain.delivered(line, octets, told.decode() if told in (b"took", *TURNS) else None, self.taken)
        if event is not None:
            self._give(event)

    def _give(self, event: Event) -> None:
        if isinstance(event, Arrival):
            self.asked.append((event.line, event.octets.hex().encode()))
        else:
            self.commands.append(event)
            if isinstance(event, (Link, Restart)):
                self.asked.append(None)
        self._send(f"{plain.line_of(event)}\n".encode())

    def _send(self, line: bytes) -> None:
        assert self.exchange is not None
        self.given += 1
        self.exchange.send(line)
        if len(self.exchange.unsent) > MAX_QUEUED:
            raise Refused("the process that follows them takes nothing")

    def take_plain(self, text: bytes) -> None:
        """Takes whole lines of the report of the process. Frames in which nothing can happen are counted together."""
        text, at = text + b"\n", 0
        while at < len(text) and not self.refusal:
            quiet = None if self.run.may_end_legs() else QUIET.match(text, at)
            end = quiet.end() if quiet else text.index(b"\n", at) + 1
            if quiet:
                count = text.count(b"\n", at, end)
                self.events += count
                self.frames += count
                self.replied += count
            else:
                self._take_line(text[at : end - 1].replace(b":", b" ").split(b" "))
            at = end

    def _take_line(self, words: Sequence[bytes]) -> None:
        self.replied += 1
        is_message = len(words) > 1 and words[1] == b"message"
        super().take(words, self.asked.popleft() if is_message and self.asked else None)
