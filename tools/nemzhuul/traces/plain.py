"""A trace with data links as one without them: the settings, and what call control gets, which the report has.

A frame that a data link receives is a message that the link delivers, or a change of the link, or nothing. The exchange
with data links and the one without have the same calls, and call control sends the same messages at the same events.
"""

from __future__ import annotations

from collections.abc import Iterable

from nemzhuul.command_line import Refused
from nemzhuul.signalling.lapd import USUAL_TIMERS, read_frame
from nemzhuul.traces.events import Arrival, Event, Free, Link, Nail, Received, Restart, Seat


def is_of_links(line: str) -> bool:
    """Whether a line of a trace is a setting of data links."""
    word, name, *_ = (*line.split(), "", "")
    return word == "link" or word == "timer" and name in USUAL_TIMERS


def starts(linked: Iterable[int]) -> list[Link]:
    """What comes before the first event: the data links are down."""
    return [Link(line, is_up=False) for line in sorted(linked)]


def delivered(line: int, octets: bytes, told: str | None, number: int) -> Event | None:
    """What call control gets of a frame on a data link, of which the report line with this number indicates this."""
    if told == "took":
        frame = read_frame(octets, is_from_user=True)
        if frame is None:
            raise Refused(f"event {number} of the report takes a message from octets that are no frame")
        return Arrival(line, frame.information)
    return Link(line, told == "up") if told else None


def line_of(event: Event) -> str:
    """The line of a trace for an event that is no frame."""
    if isinstance(event, Nail):
        return f"nail {event.first} {event.second}"
    if isinstance(event, Seat):
        return f"seat {event.slot} {event.room}"
    if isinstance(event, Free):
        return f"free {event.slot}"
    if isinstance(event, Restart):
        return f"restart {event.line}"
    if isinstance(event, Link):
        return f"{'up' if event.is_up else 'down'} {event.line}"
    assert isinstance(event, Received)
    return f"M {event.line} {event.octets.hex().upper()}".rstrip()
