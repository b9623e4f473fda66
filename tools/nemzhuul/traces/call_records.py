"""Call detail records of the calls of a run, and their lines as CSV."""

from __future__ import annotations

from collections.abc import Iterable
from typing import NamedTuple

from nemzhuul.signalling.q931 import cause_name, printable
from nemzhuul.traces.following import Call, Rooms
from nemzhuul.traces.events import FRAMES_PER_SECOND, Slot

MICROSECONDS = 1_000_000


class Record(NamedTuple):
    """The fields of a call, of which those that never came are None. A frame is the next one when something came."""

    caller: Slot | int
    called: Slot | str | None
    number: str | None
    setup: int
    alerting: int | None
    answer: int | None
    clearing: int | None
    release: int | None
    seconds: str | None
    cause: int | None
    cause_name: str | None


def record(call: Call, run: Rooms) -> Record:
    setup = call.rows[0].frame
    clearing, cause = call.cleared or (None, None)
    release = call.released
    if call.refused is not None:
        clearing, release, cause = setup, setup, call.refused
    caller: Slot | int = call.line if call.caller is None else call.caller.slot
    number = None if call.digits is None else printable(call.digits)
    talk = seconds(call.answered, clearing)
    times = (setup, call.alerted, call.answered, clearing, release)
    return Record(caller, called_party(call, run), number, *times, talk, cause, cause_name(cause))


def called_party(call: Call, run: Rooms) -> Slot | str | None:
    """The slot or the room that a call reached."""
    if call.called is not None:
        return call.called.slot
    return None if call.answered is None else f"room {run.room(call)}"


def seconds(first: int | None, end: int | None) -> str | None:
    """How long the frames from one to another take, to the microsecond."""
    if first is None or end is None:
        return None
    whole, rest = divmod((end - first) * MICROSECONDS // FRAMES_PER_SECOND, MICROSECONDS)
    return f"{whole}.{rest:06d}"


def csv_line(fields: Iterable[object]) -> str:
    return ",".join("" if field is None else quote(str(field)) for field in fields) + "\n"


def quote(field: str) -> str:
    """A field as RFC 4180 has it: in quotes if it has a quote, a comma or a line end, with each quote twice."""
    doubled = field.replace('"', '""')
    return f'"{doubled}"' if any(mark in field for mark in '",\r\n') else field
