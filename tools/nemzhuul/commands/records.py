"""Writes a call detail record for each call of a run, as CSV."""

from __future__ import annotations

from collections.abc import Iterator

from nemzhuul.command_line import WrongWords, write_parts
from nemzhuul.traces import runs
from nemzhuul.traces.call_records import Record, csv_line, record
from nemzhuul.traces.following import Run, calls_in_order

USAGE = """usage: tools/records TRACE REPORT >CSV
writes a call detail record for each call of the run, in the order of their SETUPs, as CSV with a header line. It
quotes as RFC 4180 does, and ends each line with a line feed. A field is empty if its event is not in the run.
    caller               the slot of the caller as L/C, or its line only if the call was refused
    called               the slot of the called user, or `room R`
    number               the digits of SETUP and INFORMATION
    setup                the number of the next frame when SETUP arrived
    alerting, answer     .. when ALERTING and CONNECT were sent to the caller
    clearing             .. when the first message of clearing came, or a timer or RESTART cleared the call
    release              .. when the last of its slots was free
    seconds              of conversation, from answer to clearing
    cause, cause_name    of the clearing or the refusal (ITU-T Q.850)
For a call with a called party and a clearing, a meter `CallDetail` records the same. A spreadsheet must import the
first three fields as text, since 1/2 is a date to it."""


def main(*words: str) -> str:
    if len(words) != 2 or any(word.startswith("-") for word in words):
        raise WrongWords
    trace_path, report_path = words
    opened = runs.open_run(trace_path, report_path, writes=True)
    return write_parts(lines(opened), opened.is_long)


def lines(opened: runs.Run) -> Iterator[str]:
    """The lines of the records, each when its call and those before it have ended."""
    run = Run(opened.trace)
    yield csv_line(Record._fields)
    for call in calls_in_order(run, opened.steps):
        run.on_no_call.clear()
        yield csv_line(record(call, run))
