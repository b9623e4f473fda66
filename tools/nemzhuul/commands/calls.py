"""Draws each call of a run as a ladder: which message went which way, in the order of the report."""

from __future__ import annotations

from collections.abc import Callable, Iterator, Sequence

from nemzhuul.command_line import WrongWords, write_parts
from nemzhuul.pictures.ladders import frames_text, name, note, place, title
from nemzhuul.traces import runs
from nemzhuul.traces.following import Call, Row, Run, calls_in_order

USAGE = """usage: tools/calls TRACE REPORT
draws each call of the run that REPORT tells of: its messages between the two lines and the exchange"""

WIDTH = 30  # of the way between two rungs
MARGIN = 8  # before the first rung


def main(*words: str) -> str:
    if len(words) != 2:
        raise WrongWords
    trace_path, report_path = words
    opened = runs.open_run(trace_path, report_path, writes=True)
    return write_parts(parts(opened), opened.is_long)


def parts(opened: runs.Run) -> Iterator[str]:
    """The text of each call, when it and those before it have ended, and of the messages on no call."""
    run = Run(opened.trace)
    gap = ""
    for call in calls_in_order(run, opened.steps):
        yield gap + call_text(call, run)
        gap = "\n"
    if run.on_no_call:
        yield gap + no_call_text(run.on_no_call)
    elif not gap:
        yield "no call, and no message\n"


def call_text(call: Call, run: Run) -> str:
    lines = [f"call {call.number}: {title(call, run)}", ""]
    right = call.called
    lines.append(heads(place(call.caller, call.line), place(right) if right else None))
    lines += ladder(call.rows, lambda row: row.leg is not None and row.leg is right, right is not None)
    return "".join(line.rstrip() + "\n" for line in lines)


def no_call_text(rows: Sequence[Row]) -> str:
    lines = ["messages on no call", "", heads("line", None)]
    lines += ladder(rows, lambda row: False, False, with_line=True)
    return "".join(line.rstrip() + "\n" for line in lines)


def heads(left: str, right: str | None) -> str:
    row = f"{'event':>5}" + " " * (MARGIN - 5)
    row += left.ljust(WIDTH - 3) + "exchange"
    if right is not None:
        row = row.ljust(MARGIN + 2 * WIDTH - 5) + right
    return row


def ladder(rows: Sequence[Row], is_right: Callable[[Row], bool], has_right: bool, with_line: bool = False) -> Iterator[str]:
    """The rungs of a ladder: a row for each message, and one for the frames between two of them."""
    event: int | None = None
    frame = rows[0].frame
    for row in rows:
        if row.frame > frame:
            yield rung("", ":", frames_text(frame, row.frame - 1).center(WIDTH), has_right)
        frame = row.frame
        number = "" if row.event == event else str(row.event)
        event = row.event
        way = arrow(row, towards_right=row.is_sent == is_right(row))
        text = rung(number, "|", way, has_right, on_right=is_right(row))
        yield f"{text}  {note(row, with_line)}"


def rung(event: str, mark: str, way: str, has_right: bool, on_right: bool = False) -> str:
    blank = " " * WIDTH
    ways = [blank, way] if on_right else [way, blank]
    row = f"{event:>5}".ljust(MARGIN) + mark + ways[0] + mark
    return row + ways[1] + mark if has_right else row


def arrow(row: Row, towards_right: bool) -> str:
    """The name of a message on its way, as `|--- SETUP 0001 --->|` without the rungs."""
    shaft = f" {name(row)} ".center(WIDTH - 1, "-")
    return f"{shaft}>" if towards_right else f"<{shaft}"
