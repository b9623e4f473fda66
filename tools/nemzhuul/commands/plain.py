"""Writes a trace with data links as a trace without them, which has the same calls, octets and call records.

A received frame is the message that the data link takes from it, or the change that it makes of the link, or nothing. Both
are in the report. Each event is a segment of its own, so the processors of the exchange cannot change the order.
"""

from __future__ import annotations

from collections.abc import Iterator

from nemzhuul.command_line import WrongWords, write_parts
from nemzhuul.traces import plain, runs
from nemzhuul.traces.events import Link, LinkArrival, Reply
from nemzhuul.traces.reading import is_said

USAGE = """usage: tools/plain TRACE REPORT >TRACE
writes the trace without data links, for `tst run` and the other tools. A frame that arrives becomes a line `M`, `up` or
`down`, by REPORT, or is left out"""


def main(*words: str) -> str:
    if len(words) != 2:
        raise WrongWords
    trace_path, report_path = words
    run = runs.open_run(trace_path, report_path, has_links=True, writes=True)
    return write_parts((f"{line}\n" for line in plain_lines(trace_path, run)), run.is_long)


def plain_lines(path: str, run: runs.Run) -> Iterator[str]:
    """The lines of the trace, where the links are down before the first event."""
    steps = iter(run.steps)
    starts = [plain.line_of(event) for event in plain.starts(run.trace.linked)]
    for text in runs.lines_in(path):
        line = text.removesuffix("\n")
        word = (line.split(maxsplit=1) or [""])[0] if is_said(line) else "#"
        if plain.is_of_links(line):
            continue
        if word in ("#", "exchange", "number", "tone", "timer", "sync", "change"):
            yield line
            continue
        event, reply = next(steps)
        yield from starts
        starts = []
        yield from lines_of_frame(event, reply) if isinstance(event, LinkArrival) else [line]
        yield from [plain.line_of(Link(reply.turned, reply.told == "up"))] if reply.turned is not None else []
        yield "sync"
    yield from starts
    next(steps, None)  # refuses a report that goes on


def lines_of_frame(event: LinkArrival, reply: Reply) -> Iterator[str]:
    """The line for a frame that a data link received, if the link indicates something."""
    found = plain.delivered(event.line, event.octets, reply.told, reply.event)
    if found is not None:
        yield plain.line_of(found)
