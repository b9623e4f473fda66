"""Reads a log for a process that is brought to its state: the frames before the last ones without their octets.

It imports little, because each new standby has another process that imports it.
"""

from __future__ import annotations

import contextlib
import os
import re
import select
import sys
import time
from collections.abc import Iterator

KEPT_FRAMES = 4  # a room's mix is of four frames before, and every other octet is younger
BLOCK = 1 << 20  # octets of a read
LOG_SECONDS = 10  # in which the log has what it was given
FRAME = re.compile(rb"^F [^\n]*", re.MULTILINE)


def line_starts(number: int, end: int, least: int, count: int, begin: bytes = b"") -> int:
    """Where the last lines before an end begin, as many as the count, of those that begin so; at least this place.

    Without a beginning, it is where the last line that has no end begins, or the end.
    """
    rest = b""  # the part of a line that is known
    while end > least:
        size = min(BLOCK, end - least)
        text = os.pread(number, size, end - size) + rest
        end -= size
        at = len(text)
        while (at := text.rfind(b"\n" + begin, 0, at)) >= 0:
            count -= 1
            if count == 0:
                return end + at + 1
        rest = text[: len(begin)]
    return least


def blocks(number: int, start: int, end: int) -> Iterator[bytes]:
    """A part of a file that is whole lines, in pieces that are whole lines."""
    begun = b""
    while start < end:
        text = os.pread(number, min(BLOCK, end - start), start)
        start += len(text)
        whole, line_end, begun = (begun + text).rpartition(b"\n")
        if line_end:
            yield whole + line_end


def pieces_of(number: int, start: int, kept: int, end: int) -> Iterator[bytes]:
    """Whole lines of a log, in pieces. Only frames from a place on have octets."""
    for piece in blocks(number, start, kept):
        yield FRAME.sub(b"F", piece)
    yield from blocks(number, kept, end)


def feed(place: int) -> None:
    """Writes the lines of the log at descriptor 0 up to a place to descriptor 1, with the octets of the last frames only."""
    parent, last = os.getppid(), time.monotonic() + LOG_SECONDS
    while os.fstat(0).st_size < place:
        if os.getppid() != parent or time.monotonic() > last:
            sys.exit(1)
        time.sleep(0.01)
    kept = line_starts(0, place, 0, KEPT_FRAMES, b"F")
    for piece in pieces_of(0, 0, kept, place):
        left = memoryview(piece)
        while left:
            select.select([], [1], [])
            with contextlib.suppress(BlockingIOError):
                left = left[os.write(1, left) :]
