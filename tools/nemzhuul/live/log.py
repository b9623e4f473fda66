"""The log, the report and the capture of a running exchange. A thread writes each, so that no file delays a frame or ends a call."""

from __future__ import annotations

import contextlib
import os
import threading

from nemzhuul.command_line import NAME, Refused, say
from nemzhuul.outputs import Output

MAX_QUEUED = 1 << 25  # octets that wait for a file, after which it is given up
AHEAD_SECONDS = 0.005  # that the exchange waits until the log has what it is given
END_SECONDS = 2  # that a file has at the end for what waits


class Writer:
    """A file that a thread writes, or nothing if the output has no path.

    If the file cannot be written, or takes nothing until its queue is full, it is given up, and one line says so.
    """

    def __init__(self, output: Output, what: str) -> None:
        self.output = output
        self.what = what
        self.is_given_up = False
        self.end = 0  # the place in the file after all that it was given
        self._queue: list[bytes] = []
        self._waiting = 0  # octets that the file does not have yet
        self._is_behind = False  # the file did not take a text in time, and still has not got all
        self._has_ended = False
        self._changed = threading.Condition()
        self._thread: threading.Thread | None = None

    def begin(self) -> None:
        """Starts to write."""
        self.output.begin()
        if self.output.number is not None:
            with contextlib.suppress(OSError):  # a pipe has no places
                self.end = os.lseek(self.output.number, 0, os.SEEK_CUR)
            self._thread = threading.Thread(target=self._run, name=self.what, daemon=True)
            self._thread.start()

    def write(self, content: bytes) -> None:
        """Has the thread write this, and waits for nothing."""
        if self._thread is None:
            return
        with self._changed:
            if self.is_given_up:
                return
            if self._waiting + len(content) > MAX_QUEUED:
                self._give_up(f"{self.output.path} takes nothing, and {self._waiting} octets wait for it")
                return
            self._queue.append(content)
            self._waiting += len(content)
            self.end += len(content)
            self._changed.notify_all()

    def has_all(self) -> bool:
        """Whether the file has all, or is given up."""
        return not self._waiting

    def settle(self) -> None:
        """Waits some milliseconds until the file has all. It waits no more until the file has caught up."""
        with self._changed:
            if self._waiting and not self._is_behind:
                self._is_behind = not self._changed.wait_for(lambda: not self._waiting, AHEAD_SECONDS)

    def give_up(self, why: str) -> None:
        """Writes nothing more, for a reason that is said."""
        with self._changed:
            if not self.is_given_up:
                self._give_up(why)

    def close(self) -> None:
        """Ends the thread when it has written all. If the file takes too long for that, it is given up."""
        if self._thread is None:
            self.output.close()
            return
        with self._changed:
            self._has_ended = True
            self._changed.notify_all()
        self._thread.join(END_SECONDS)
        with self._changed:
            if self._thread.is_alive() and not self.is_given_up:
                self._give_up(f"{self.output.path} takes nothing, and the last {self._waiting} octets are not written")
        if not self._thread.is_alive():
            self.output.close()

    def _give_up(self, why: str) -> None:
        self.is_given_up = True
        self._queue.clear()
        self._waiting = 0
        self._changed.notify_all()
        say(f"{NAME}: {self.what} is given up, and the calls go on: {why}")

    def _run(self) -> None:
        while True:
            with self._changed:
                self._changed.wait_for(lambda: self._queue or self._has_ended or self.is_given_up)
                if self.is_given_up or not self._queue:
                    return
                content = b"".join(self._queue)
                self._queue.clear()
            try:
                self.output.write(content)
            except Refused as refusal:
                self.give_up(str(refusal))
                return
            with self._changed:
                if self.is_given_up:
                    return
                self._waiting -= len(content)
                if not self._waiting:
                    self._is_behind = False
                    self._changed.notify_all()
