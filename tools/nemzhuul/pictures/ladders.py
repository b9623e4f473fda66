"""What a ladder of a call says: its title, its ends, and each message in words."""

from __future__ import annotations

from nemzhuul.signalling.q931 import cause_text, contents_text, printable
from nemzhuul.traces.following import Call, Leg, Rooms, Row


def title(call: Call, run: Rooms) -> str:
    """Who calls whom, and how it ends."""
    digits = "no number" if call.digits is None else printable(call.digits)
    if call.caller is None:
        return f"line {call.line} dials {digits}; refused with {cause_text(call.refused)}"
    said = [f"{call.caller.slot} dials {digits} and {target_text(call, run)}"]
    if call.answered is not None:
        said.append(f"answered before frame {call.answered}")
    if call.cleared is not None:
        frame, cause = call.cleared
        said.append(f"cleared before frame {frame} with {cause_text(cause)}")
    return "; ".join(said)


def target_text(call: Call, run: Rooms) -> str:
    if call.called:
        return f"reaches {call.called.slot}"
    if call.answered is None:
        return "is asked for more digits"
    return f"reaches room {run.room(call)}"


def place(leg: Leg | None, line: int | None = None) -> str:
    return f"line {line}" if leg is None else f"line {leg.slot.line}, channel {leg.slot.channel}"


def frames_text(first: int, last: int) -> str:
    return f"frame {first}" if first == last else f"frames {first} to {last}"


def name(row: Row) -> str:
    """The type of a message, and its call reference."""
    message = row.message
    return "ignored octets" if message is None else f"{message.name} {message.reference_digits}"


def note(row: Row, with_line: bool) -> str:
    """What a message says beside its name, and which paths were moved for it."""
    said = [f"line {row.line}"] if with_line else []
    contents = "" if row.message is None else contents_text(row.message)
    if contents:
        said.append(contents)
    if row.moved is not None:
        said.append(f"moved paths: {row.moved[0]} there, {row.moved[1]} back")
    return "; ".join(said)
