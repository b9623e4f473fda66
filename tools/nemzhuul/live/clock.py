"""The wall clock of a running exchange: when a frame begins. The log has it in comments, by which it can be read again."""

from __future__ import annotations

import re
import time
from dataclasses import dataclass
from datetime import datetime, timedelta, timezone

from nemzhuul.traces.events import FRAMES_PER_SECOND

MICROSECONDS = 1_000_000
EPOCH = datetime(1970, 1, 1, tzinfo=timezone.utc)
COMMENT = re.compile(rb"# clock: frame ([0-9]{1,15}) begins at ([0-9TZ:.-]{27})")


@dataclass(frozen=True)
class WallClock:
    """A frame, and the microseconds since 1970 at which it begins. The frames after it follow by the clock."""

    frame: int
    time: int

    @staticmethod
    def at_once(frame: int) -> WallClock:
        """The clock by which a frame begins at once."""
        return WallClock(frame, time.time_ns() // 1000)

    @staticmethod
    def from_comment(line: bytes) -> WallClock | None:
        """The clock of a line of a log, or None."""
        match = COMMENT.fullmatch(line)
        if match is None:
            return None
        try:
            then = datetime.strptime(match[2].decode(), "%Y-%m-%dT%H:%M:%S.%fZ").replace(tzinfo=timezone.utc)
        except ValueError:
            return None
        return WallClock(int(match[1]), (then - EPOCH) // timedelta(microseconds=1))

    def microseconds(self, frame: int) -> int:
        """When a frame begins."""
        return self.time + (frame - self.frame) * MICROSECONDS // FRAMES_PER_SECOND

    def text(self, frame: int) -> str:
        """When a frame begins, by ISO 8601 in UTC."""
        then = EPOCH + timedelta(microseconds=self.microseconds(frame))
        return then.strftime("%Y-%m-%dT%H:%M:%S.%fZ")

    def comment(self) -> bytes:
        """The line of a log."""
        return b"# clock: frame %d begins at %s\n" % (self.frame, self.text(self.frame).encode())
