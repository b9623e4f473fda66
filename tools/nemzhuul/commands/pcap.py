"""Writes the signalling of a run as a capture that Wireshark dissects as Q.931 over LAPD.

The frames of a line with a data link are written as they are in the trace and its report. A line without one has no
layer 2, so its LAPD headers are made up here: each message is an I frame of SAPI 0, with sequence numbers that count the
messages of its line each way, and no frame is acknowledged by itself. The TEI is the number of the line, so that lines
can be distinguished; a primary rate line itself has TEI 0. A message has the time at which its next frame begins, 125
microseconds a frame from the first.
"""

from __future__ import annotations

from collections.abc import Iterable, Iterator
from typing import NamedTuple

from nemzhuul.command_line import WrongWords
from nemzhuul.signalling.captures import CaptureWriter
from nemzhuul.traces.events import Arrival, LinkArrival, Step
from nemzhuul.traces.runs import open_run

USAGE = """usage: tools/pcap TRACE REPORT >CAPTURE
writes the messages of the run as a capture file for Wireshark, Q.931 over LAPD"""


class Passage(NamedTuple):
    """A message of a run, or a frame of a data link."""

    frames: int  # of the exchange, before it
    line: int
    is_sent: bool
    octets: bytes


def main(*words: str) -> bytes:
    if len(words) != 2:
        raise WrongWords
    trace_path, report_path = words
    trace, steps, _ = open_run(trace_path, report_path, has_links=True)
    writer = CaptureWriter(trace.linked)
    return writer.HEADER + b"".join(writer.packet(*passage) for passage in passages(steps))


def passages(steps: Iterable[Step]) -> Iterator[Passage]:
    frames = 0
    for event, reply in steps:
        if reply.frame is not None:
            frames = reply.frame + 1
        if isinstance(event, (Arrival, LinkArrival)):
            yield Passage(frames, event.line, False, event.octets)
        for line, octets in reply.sent:
            yield Passage(frames, line, True, octets)
