"""The parts that pages have in common, as HTML: a call as a ladder."""

from __future__ import annotations

from collections.abc import Callable, Iterable, Iterator, Sequence
from html import escape

from nemzhuul.pictures.ladders import frames_text, name, note, place, title
from nemzhuul.traces.events import FRAMES_PER_SECOND
from nemzhuul.traces.following import Call, Rooms, Row

MAX_ROWS = 200  # of a ladder


def count(number: int, what: str) -> str:
    return f"{number:,} {what}" + ("" if number == 1 else "s")


def span(frames: int) -> str:
    """How long as many frames take."""
    seconds = frames / FRAMES_PER_SECOND
    return f"{seconds:.3g} s" if seconds >= 1 else f"{seconds * 1000:.3g} ms"


def call_part(call: Call, run: Rooms, more: Sequence[str] = (), is_drawn: bool = True) -> str:
    """A call with its title and more facts of it, and with its ladder if it is drawn."""
    right = call.called
    first, *rest = title(call, run).split("; ")
    facts = "".join(f"<li>{escape(text)}</li>" for text in (*rest, *more))
    begin = (f'<article class="call"><h3><span class="number">{call.number}</span> {escape(first)}</h3>'
             f'<ul class="facts">{facts}</ul>')  # fmt: skip
    if not is_drawn:
        return f"{begin}</article>"
    heads = f"<span>{place(call.caller, call.line)}</span><span>exchange</span>" + (f"<span>{place(right)}</span>" if right else "")
    rungs = ladder(call.rows[:MAX_ROWS], lambda row: row.leg is not None and row.leg is right, right is not None)
    rest_text = f"<p>The first {MAX_ROWS} of {len(call.rows):,} messages are drawn.</p>" if len(call.rows) > MAX_ROWS else ""
    return f"{begin}{ladder_part(heads, rungs, right is not None)}{rest_text}</article>"


def ladder_part(heads: str, rungs: Iterable[str], has_right: bool) -> str:
    kind = "ladder" if has_right else "ladder narrow"
    return f'<div class="{kind}"><div class="heads">{heads}</div><ol>{"".join(rungs)}</ol></div>'


def ladder(rows: Sequence[Row], is_right: Callable[[Row], bool], has_right: bool, with_line: bool = False) -> Iterator[str]:
    """The rungs of a ladder: one for each message, and one for the frames between two of them."""
    event: int | None = None
    frame = rows[0].frame
    for row in rows:
        if row.frame > frame:
            text = f"{frames_text(frame, row.frame - 1)} · {span(row.frame - frame)}"
            yield f'<li class="gap"><span></span><div>{text}</div>{"<div></div>" if has_right else ""}</li>'
        way = f"<div>{arrow(row, row.is_sent == is_right(row), with_line)}</div>"
        ways = ["<div></div>", way] if is_right(row) else [way, "<div></div>"]
        number = "" if row.event == event else row.event
        yield f'<li data-event="{row.event}"><span class="event">{number}</span>{"".join(ways[: 1 + has_right])}</li>'
        event, frame = row.event, row.frame


def arrow(row: Row, towards_right: bool, with_line: bool) -> str:
    """A message on its way, with what it says and its octets."""
    kind = f"arrow {'right' if towards_right else 'left'} {'sent' if row.is_sent else 'arrived'}"
    way = "from the exchange" if row.is_sent else "to the exchange"
    said = escape(note(row, with_line))
    octets = "" if row.message is None else f'<code class="octets">{row.message.octets.hex(" ").upper()}</code>'
    return f'<div class="{kind}"><b>{escape(name(row))}</b><i role="img" aria-label="{way}"></i><small>{said}</small>{octets}</div>'
