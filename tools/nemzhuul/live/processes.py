"""The running exchange, as a process that reads lines of a trace, and the sockets and pipes that are waited for."""

from __future__ import annotations

import contextlib
import os
import selectors
import subprocess
import time
from collections.abc import Callable, Sequence
from pathlib import Path
from typing import NamedTuple, Optional, Protocol

from nemzhuul.live.log import Writer
from nemzhuul.live.wire import PIECE

FINISH_SECONDS = 30  # that the exchange has for its last replies


Act = Callable[[], object]
Replies = Callable[[bytes], None]  # is called with the text of whole lines


class Waitable(Protocol):
    """A socket or a pipe."""

    def fileno(self) -> int: ...


class Acts(NamedTuple):
    """What is called when an end can be read, and when it can be written."""

    reads: Optional[Act] = None
    writes: Optional[Act] = None


class Loop:
    """Waits for sockets, pipes and times."""

    def __init__(self) -> None:
        self.selector = selectors.DefaultSelector()
        self.acts: dict[int, Acts] = {}  # by descriptor
        self.times: dict[Act, float] = {}  # when each of these is called

    def watch(self, end: Waitable, reads: Act | None = None, writes: Act | None = None) -> None:
        """Has these called when an end can be read or written; None for neither."""
        number = end.fileno()
        events = (reads and selectors.EVENT_READ or 0) | (writes and selectors.EVENT_WRITE or 0)
        if self.acts.get(number, Acts()) == Acts(reads, writes):
            return
        if number not in self.acts:
            self.selector.register(end, events)
        elif events:
            self.selector.modify(end, events)
        else:
            self.selector.unregister(end)
        self.acts[number] = Acts(reads, writes)
        if not events:
            del self.acts[number]

    def call_at(self, moment: float, act: Act) -> None:
        """Has this called once at a time, by the monotonic clock."""
        self.times[act] = moment

    def wait(self, seconds: float | None) -> None:
        """Waits for at most this time; None for any time."""
        if self.times:
            left = max(0, min(self.times.values()) - time.monotonic())
            seconds = left if seconds is None else min(seconds, left)
        for key, events in self.selector.select(seconds):
            for at, event in enumerate((selectors.EVENT_READ, selectors.EVENT_WRITE)):
                act = self.acts.get(key.fd, Acts())[at]  # another one may have ended it
                if events & event and act:
                    act()
        for act in [act for act, moment in self.times.items() if moment <= time.monotonic()]:
            del self.times[act]
            act()


class Exchange:
    """The running exchange. It gets lines of a trace, and its replies are taken whole."""

    def __init__(self, words: Sequence[str | Path], loop: Loop, replies: Replies, report: Writer) -> None:
        self.loop = loop
        self.replies = replies
        self.report = report
        self.unsent = bytearray()
        self.begun = b""
        self.has_ended = False
        # An interrupt of the terminal ends the tool, and the tool ends the exchange.
        self.process = subprocess.Popen(words, stdin=subprocess.PIPE, stdout=subprocess.PIPE, start_new_session=True)
        assert self.process.stdin and self.process.stdout
        self.input, self.output = self.process.stdin, self.process.stdout
        os.set_blocking(self.input.fileno(), False)
        os.set_blocking(self.output.fileno(), False)
        loop.watch(self.output, self.read)

    def pids(self) -> list[int]:
        return [self.process.pid]

    def begin(self, given: int) -> None:
        """The clock starts, after this number of events."""

    def send(self, text: bytes) -> None:
        self.unsent += text
        self.write()

    def write(self) -> None:
        try:
            del self.unsent[: os.write(self.input.fileno(), self.unsent)]
        except BlockingIOError:
            pass
        except BrokenPipeError:  # its output says why it has ended
            self.unsent.clear()
        self.loop.watch(self.input, None, self.write if self.unsent else None)

    def read(self) -> None:
        try:
            text = os.read(self.output.fileno(), PIECE)
        except BlockingIOError:
            return
        if not text:
            self.has_ended = True
            self.loop.watch(self.output)
            return
        self.report.write(text)
        whole, end, self.begun = (self.begun + text).rpartition(b"\n")
        if end:
            self.replies(whole)

    def finish(self, is_hurried: Callable[[], bool]) -> int | None:
        """Ends the input, takes what the exchange still replies, and returns its status; None if it does not end in time."""
        last = time.monotonic() + FINISH_SECONDS
        while self.unsent and not self.has_ended and time.monotonic() < last and not is_hurried():
            self.loop.wait(1)
        self.loop.watch(self.input)
        with contextlib.suppress(BrokenPipeError):
            self.input.close()
        while not self.has_ended and time.monotonic() < last and not is_hurried():
            self.loop.wait(1)
        return self.process.wait() if self.has_ended else None

    def kill(self) -> None:
        """Ends the process, if it has not ended."""
        if self.process.poll() is None:
            self.process.kill()
            self.process.wait()
