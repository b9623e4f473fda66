"""The records of calls, one line of a file for each call when it ends, with times by the wall clock."""

from __future__ import annotations

import os
import stat
from collections import deque
from collections.abc import Sequence
from pathlib import Path

from nemzhuul.command_line import Refused
from nemzhuul.live.clock import WallClock
from nemzhuul.live.feeding import BLOCK
from nemzhuul.live.log import Writer
from nemzhuul.live.resume import Appended
from nemzhuul.traces.call_records import Record, csv_line, record
from nemzhuul.traces.events import Reply
from nemzhuul.traces.following import Call, Run

HEADER = csv_line(Record._fields).encode()
TIMES = ("setup", "alerting", "answer", "clearing", "release")
MAX_MISSING = 1000  # records that a killed exchange may have left out


def open_records(path: str | Path) -> Appended:
    """The file of records, to which lines are appended. Refuses a file that has other content."""
    if os.path.exists(path) and stat.S_ISREG(os.stat(path).st_mode):
        with open(path, "rb") as file:
            begun = file.read(len(HEADER))
        if not HEADER.startswith(begun):
            raise Refused(f"{path} has no records of calls: its first line is another one")
    return Appended(path)


def last_lines(path: str | Path) -> set[bytes]:
    """The last lines of a file of records."""
    if not os.path.isfile(path):
        return set()
    with open(path, "rb") as file:
        file.seek(max(0, file.seek(0, os.SEEK_END) - BLOCK))
        return set(file.read().splitlines(keepends=True))


class CallRecords:
    """Writes the record of each call of a running exchange that ends."""

    def __init__(self, writer: Writer, clocks: Sequence[WallClock]) -> None:
        self.writer = writer
        self.clocks = clocks
        self.missing: deque[bytes] | None = None  # the last records of a log that is read again

    def begin(self) -> None:
        """Writes the header, if the file has none."""
        path = self.writer.output.path
        if path is None or not os.path.isfile(path) or not os.stat(path).st_size:
            self.writer.write(HEADER)

    def begin_again(self) -> None:
        """What follows is read from a log, and has its records already, or all but the last."""
        self.missing = deque(maxlen=MAX_MISSING)

    def go_on(self) -> None:
        """The log is read. Writes the records that the file lacks."""
        known = last_lines(self.writer.output.path or "")
        missing, self.missing = self.missing or (), None
        for line in missing:
            if line not in known:
                self.writer.write(line)

    def take(self, run: Run, reply: Reply) -> None:
        for call in run.ended:
            line = self._line(call, run)
            if self.missing is None:
                self.writer.write(line)
            else:
                self.missing.append(line)

    def give_up(self, why: str) -> None:
        self.writer.give_up(why)

    def _line(self, call: Call, run: Run) -> bytes:
        fields = record(call, run)
        times = {name: self._time(getattr(fields, name)) for name in TIMES}
        return csv_line(times.get(name, getattr(fields, name)) for name in Record._fields).encode()

    def _time(self, frame: int | None) -> str | None:
        """When a frame began, by the clock that ran then."""
        if frame is None or not self.clocks:
            return None
        clock = next((clock for clock in reversed(self.clocks) if clock.frame <= frame), self.clocks[0])
        return clock.text(frame)
