"""Goes on with an exchange that has ended in any way: a new process gets the log, and has the state of the old one.

The exchange still has the octets that slots received in the last frames, and no others. The frames before them are given
without octets, which takes seconds for an hour.
"""

from __future__ import annotations

import os
import re
import time
from collections import deque
from collections.abc import Iterator, Sequence
from pathlib import Path
from typing import TYPE_CHECKING, Callable, Protocol

from nemzhuul.command_line import NAME, Refused, say
from nemzhuul.live.clock import WallClock
from nemzhuul.live.feeding import KEPT_FRAMES, line_starts, pieces_of
from nemzhuul.live.lines import Line, Mark
from nemzhuul.live.log import Writer
from nemzhuul.live.processes import Exchange, Loop
from nemzhuul.outputs import Output

if TYPE_CHECKING:
    from nemzhuul.live.standby import Pair

RETURN_SECONDS = 60  # that endpoints have to come back
SAID_SECONDS = 1  # between two lines on how far it is
SIGNAL = re.compile(rb"^ *(?:[ML] ([0-9]+) ?([0-9A-Fa-f]*)|(?:up|down|restart) .*)$", re.MULTILINE)
CLOCK = re.compile(rb"^# clock: .*$", re.MULTILINE)
OTHER_EVENT = re.compile(rb"\n(?:nail|seat|free|up|down|restart|M|L) ")


class History:
    """The log of an exchange: the settings, and the whole lines below them. A last line without an end is left out."""

    def __init__(self, path: str | Path, settings: bytes) -> None:
        self.path = path
        with open(path, "rb") as log:
            log.seek(0, os.SEEK_END)
            self.end = line_starts(log.fileno(), log.tell(), 0, 1)
            log.seek(0)
            begun = log.read(min(self.end, len(settings)))
            if not settings.startswith(begun):
                raise Refused(f"{path} is not the log of an exchange with these settings")
            self.start = len(settings)  # where the lines below them begin
            self.is_begun = self.end >= self.start
            if self.is_begun:
                self.kept = line_starts(log.fileno(), self.end, self.start, KEPT_FRAMES, b"F")

    def pieces(self) -> Iterator[bytes]:
        """The lines below the settings, with the octets of the last frames only."""
        if not self.is_begun:
            return
        with open(self.path, "rb") as log:
            yield from pieces_of(log.fileno(), self.start, self.kept, self.end)


class Appended(Output):
    """A file to which whole lines are appended."""

    def __init__(self, path: str | Path) -> None:
        super().__init__(path, may_overwrite=True)

    def begin(self) -> None:
        """Removes the part of a line at the end."""
        if self.number is not None and self.path is not None and os.path.isfile(self.path):
            with open(self.path, "rb") as file:
                os.ftruncate(self.number, line_starts(file.fileno(), file.seek(0, os.SEEK_END), 0, 1))
            os.lseek(self.number, 0, os.SEEK_END)


def open_log(path: str | Path) -> Appended:
    """The log of an exchange that has ended, to which one that goes on appends."""
    if not os.path.isfile(path):
        raise Refused(f"{path} is no log of an exchange: it is no file")
    return Appended(path)


class Follower(Protocol):
    """What follows the calls of the log."""

    clocks: list[WallClock]

    def read(self, text: bytes) -> None: ...

    def take(self, words: Sequence[bytes], asked: tuple[int, bytes] | None) -> None: ...

    @property
    def lags(self) -> bool: ...


class Replay:
    """Gives a new process what the old one had, and takes its replies, which nobody gets again."""

    def __init__(self, exchange: Exchange | Pair, loop: Loop, is_interrupted: Callable[[], object], follower: Follower | None) -> None:
        self.exchange = exchange
        self.follower = follower
        self.asked: deque[tuple[int, bytes] | None] = deque()  # if calls are followed; None for an event without a message
        self.loop = loop
        self.is_interrupted = is_interrupted
        self.events = self.frames = self.replied = 0
        self.last = b""  # the last line of its replies
        self.said = time.monotonic()

    def run(self, history: History, settings: bytes, events: int) -> None:
        """Gives it the settings, in which there are some events, and the lines below them."""
        replies, report = self.exchange.replies, self.exchange.report
        self.exchange.replies, self.exchange.report = self.take, Writer(Output(None), "the report")
        self.events = events
        self.await_replies(settings)
        self.send(settings, history)
        for piece in history.pieces():
            text = b"\n" + piece
            frames = text.count(b"\nF")
            self.frames += frames
            if self.follower is not None:
                self.follower.clocks += [clock for clock in map(WallClock.from_comment, CLOCK.findall(piece)) if clock]
                self.await_replies(piece)
                self.follower.read(piece)
            self.events += frames + len(OTHER_EVENT.findall(text))
            self.send(piece, history)
        while self.replied < self.events or self.lags():
            self.wait(history)
        self.exchange.replies, self.exchange.report = replies, report

    def await_replies(self, text: bytes) -> None:
        """Awaits replies `message` and `link` to the events of some lines."""
        if self.follower is not None:
            self.asked += [(int(line), digits) if line else None for line, digits in SIGNAL.findall(text)]

    def send(self, text: bytes, history: History) -> None:
        self.exchange.send(text)
        while self.exchange.unsent or self.lags():
            self.wait(history)

    def lags(self) -> bool:
        """Whether the calls are followed later than the exchange replies."""
        return self.follower is not None and self.follower.lags

    def wait(self, history: History) -> None:
        self.loop.wait(SAID_SECONDS)
        if self.exchange.has_ended:
            raise Refused(f"{history.path} is no log of an exchange: {self.last.decode('latin-1')}")
        if self.is_interrupted():
            raise KeyboardInterrupt
        if os.isatty(2) and time.monotonic() >= self.said + SAID_SECONDS:
            self.said = time.monotonic()
            say(f"{NAME}: {history.path}: {self.frames} frames")

    def take(self, text: bytes) -> None:
        self.replied += text.count(b"\n") + 1
        self.last = text[text.rfind(b"\n") + 1 :]
        if self.follower is None:
            return
        for reply in text.replace(b":", b" ").split(b"\n"):
            words = reply.split(b" ")
            is_signal = len(words) > 1 and words[1] in (b"message", b"link")
            self.follower.take(words, self.asked.popleft() if is_signal and self.asked else None)


class Returns:
    """The lines whose endpoints may come back. After a time, one that has none is restarted, so that its calls end."""

    def __init__(self) -> None:
        self.lines: list[Line] = []
        self.last = 0.0

    def begin(self) -> None:
        self.last = time.monotonic() + RETURN_SECONDS

    def check(self) -> None:
        if not self.lines or time.monotonic() < self.last:
            return
        for line in self.lines:
            if line.endpoint is None:
                line.say(f"its endpoint has not come back in {RETURN_SECONDS} s")
                line.loop.watch(line.listener.sock)
                line.queue.append(Mark.GONE)
        self.lines = []
