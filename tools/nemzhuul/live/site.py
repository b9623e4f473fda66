"""What a running exchange serves: a page that updates itself, its calls as JSON, and metrics for Prometheus.

Each part of a document takes at most some milliseconds. After each, `rest` is called.
"""

from __future__ import annotations

import hashlib
import json
from base64 import b64encode
from collections.abc import Iterable, Iterator
from html import escape
from pathlib import Path
from string import Template
from typing import Callable, NamedTuple

from nemzhuul import __version__
from nemzhuul.live.metrics import CONTENT_TYPE, metrics_text
from nemzhuul.live.shows import LETTERS
from nemzhuul.live.snapshots import IDLE, LineState, LinkState, Snapshot
from nemzhuul.pictures import parts
from nemzhuul.pictures.ladders import name, note, title
from nemzhuul.pictures.parts import call_part, count, span
from nemzhuul.traces.call_records import record
from nemzhuul.traces.events import CHANNELS, PLACES, Slot
from nemzhuul.traces.following import Call, Row

FILES = Path(parts.__file__).resolve().parent
STYLE = "".join((FILES / file).read_text("utf-8") for file in ("page.css", "status.css"))
SCRIPT = (FILES / "status.js").read_text("utf-8")
MAX_DRAWN = 30  # calls in progress
MAX_ENDED = 20  # calls that ended, on the page

Rest = Callable[[], None]


def sum_of(text: str) -> str:
    """The source of a policy that allows this text, and no other."""
    return f"'sha256-{b64encode(hashlib.sha256(text.encode()).digest()).decode()}'"


# The page loads nothing, and runs nothing but its own script. That fetches the page again.
POLICY = (
    f"default-src 'none'; style-src {sum_of(STYLE)}; script-src {sum_of(SCRIPT)}; connect-src 'self'; "
    "base-uri 'none'; form-action 'none'; frame-ancestors 'none'"
)


class Document(NamedTuple):
    """A document that is served."""

    content_type: str
    text: str


class Texts:
    """The texts of calls, each made again only if the call has changed."""

    def __init__(self, make: Callable[[Call, Snapshot], str]) -> None:
        self.make = make
        self.known: dict[int, tuple[object, str]] = {}  # by the number of the call

    def of(self, calls: Iterable[Call], state: Snapshot, rest: Rest) -> list[str]:
        """The texts of these calls, which are remembered, and no others."""
        known = {}
        for call in calls:
            version = (len(call.rows), call.left_out, call.cleared, call.released, call.refused)
            found = self.known.get(call.number)
            if found is None or found[0] != version:
                found = (version, self.make(call, state))
                rest()
            known[call.number] = found
        self.known = known
        return [text for _, text in known.values()]


class Site:
    """Makes the documents of a state."""

    def __init__(self, name: str) -> None:
        self.name = name  # of the exchange
        self.articles, self.objects = Texts(article), Texts(json_call)
        self.makers: dict[str, Callable[[Snapshot, Rest], Document]] = {
            "/": self._page, "/calls.json": self._calls, "/metrics": self._metrics,
        }  # fmt: skip

    def _metrics(self, state: Snapshot, rest: Rest) -> Document:
        return Document(CONTENT_TYPE, metrics_text(state, rest))

    def _calls(self, state: Snapshot, rest: Rest) -> Document:
        texts = self.objects.of([*state.calls, *state.ended], state, rest)
        head = json.dumps({"frame": state.frame, "time": state.time, "followed": not state.refusal})
        return Document("application/json", f'{head[:-1]}, "calls": [{", ".join(texts)}]}}\n')

    def _page(self, state: Snapshot, rest: Rest) -> Document:
        drawn = [*reversed(state.calls[-MAX_DRAWN:]), *state.ended[:MAX_ENDED]]
        calls = "".join(self.articles.of(drawn, state, rest)) or "<p>No call so far.</p>"
        left_out = len(state.calls) - MAX_DRAWN
        if left_out > 0:
            calls = f'<p>The last {MAX_DRAWN} of {len(state.calls)} calls in progress are drawn. calls.json has all.</p>{calls}'
        return Document("text/html; charset=utf-8", page(self.name, state, calls, list(line_items(state, rest))))


# ---- JSON


def json_call(call: Call, state: Snapshot) -> str:
    """A call: the fields of its record, its title, its phase, and its messages."""
    fields = record(call, state)
    values = {name: str(value) if isinstance(value, Slot) else value for name, value in fields._asdict().items()}
    phase = state.phases.get(call.number, "ended")
    more = {"call": call.number, "phase": phase, "title": title(call, state), **values, "left_out": call.left_out}
    return json.dumps({**more, "messages": [json_message(row) for row in call.rows]})


def json_message(row: Row) -> dict[str, object]:
    octets = "" if row.message is None else row.message.octets.hex().upper()
    direction = "from exchange" if row.is_sent else "to exchange"
    where = {"event": row.event, "frame": row.frame, "line": row.line, "direction": direction}
    return {**where, "name": name(row), "note": note(row, with_line=False), "octets": octets}


# ---- the page


def article(call: Call, state: Snapshot) -> str:
    facts = [] if not call.left_out else [f"{count(call.left_out, 'message')} left out"]
    text = call_part(call, state, facts)
    return text.replace('class="call"', 'class="call ended"', 1) if call.has_ended else text


def line_items(state: Snapshot, rest: Rest) -> Iterator[str]:
    """A row of 30 lamps for each line."""
    for line in state.lines:
        lamps = "".join(lamp(Slot(line.number, channel), state) for channel in CHANNELS)
        rest()
        yield f'<li><b>line {line.number}</b><span class="lamps">{lamps}</span><small>{escape(line_text(line))}</small></li>'


def lamp(slot: Slot, state: Snapshot) -> str:
    name = state.state(slot)
    if name == IDLE:
        return f"<i>{LETTERS[name]}</i>"
    use = state.uses[slot]
    said = f"{slot} {use}" if use.call is None or str(use) == f"call {use.call}" else f"{slot} {use}, call {use.call}"
    return f'<i class="{name}" title="{said}: {name}">{LETTERS[name]}</i>'


def line_text(line: LineState) -> str:
    if line.place is None:
        return "no socket"
    late = f", {count(line.late, 'late frame')}" if line.late else ""
    endpoint = "endpoint" if line.is_attached else "no endpoint"
    return f"{endpoint} at {line.place}; {count(line.messages, 'message')}, {count(line.frames, 'frame')} with octets{late}"


def link_text(link: LinkState) -> str:
    said = f"line {link.number}: {'up' if link.is_up else 'down'}"
    if link.place is None:
        return said
    endpoint = "endpoint" if link.is_attached else "no endpoint"
    return f"{said}; {endpoint} at {link.place}; {count(link.frames, 'frame')}, {link.cut} cut, {link.lost} lost"


def facts(state: Snapshot) -> Iterator[str]:
    totals = state.totals
    yield f"{state.time} UTC, frame {state.frame:,}" if state.time else f"frame {state.frame:,}"
    yield f"{count(len(state.calls), 'call')} in progress"
    yield f"{totals.offered:,} offered, {totals.answered:,} answered, {sum(totals.refused.values()):,} refused"
    yield f"{count(sum(state.paths().values()), 'live path')}, {totals.moved:,} moved for {count(totals.connected, 'connection')}"
    yield f"{count(sum(line.late for line in state.lines), 'late frame')}"


def clock_items(state: Snapshot) -> Iterator[str]:
    pace = state.pace
    yield f"{count(pace.periods, 'period')} of {pace.period * 1000:.3g} ms; the latest began {pace.latest * 1000:.1f} ms late"
    whole = max(pace.periods * pace.period, pace.period)
    yield f"processor time: {pace.tool / whole:.1%} of a processor for attach, {pace.exchange / whole:.1%} for the exchange"
    yield from (f"{count(line.late, 'late frame')} on line {line.number}" for line in state.lines if line.late)


def warnings(state: Snapshot) -> Iterator[str]:
    if state.refusal:
        yield f"calls are followed no more: {state.refusal}"
    yield from (f"the file of the {file} is given up" for file, is_given_up in state.given_up.items() if is_given_up)


def room_items(state: Snapshot) -> Iterator[str]:
    for room, members in sorted(state.rooms().items()):
        yield f"room {room}: {', '.join(map(str, members))}"
    yield f"{len(state.ports)} of {count(state.sizes.bridges * PLACES, 'port')} taken"


def items(texts: Iterable[str], kind: str = "") -> str:
    mark = f' class="{kind}"' if kind else ""
    return "".join(f"<li{mark}>{escape(text)}</li>" for text in texts)


def page(name: str, state: Snapshot, calls: str, lines: Iterable[str]) -> str:
    """The whole page."""
    return PAGE.substitute(
        name=escape(name),
        style=STYLE,
        script=SCRIPT,
        warnings=items(warnings(state), "warning"),
        facts=items(facts(state)),
        legend=LEGEND,
        lines="".join(lines),
        calls=calls,
        rooms=items(room_items(state)),
        links=items(map(link_text, state.links)) or "<li>none</li>",
        clock=items(clock_items(state)),
        version=__version__,
        frame=span(1),
    )


LEGEND = "".join(f"<li><i{'' if state == IDLE else f' class={state}'}>{letter}</i> {state}</li>" for state, letter in LETTERS.items())

# Each part that changes has a name, by which the script finds it.
PAGE = Template("""<!DOCTYPE html>
<html lang="en">
<head>
<meta charset="utf-8">
<meta name="viewport" content="width=device-width, initial-scale=1">
<noscript><meta http-equiv="refresh" content="2"></noscript>
<title>$name</title>
<style>$style</style>
</head>
<body>
<a class="skip" href="#calls">to the calls</a>
<header>
<h1>$name</h1>
<p class="warning" id="lost" hidden>The exchange does not answer: what follows is old.</p>
<ul class="facts" data-part="warnings">$warnings</ul>
<ul class="facts" data-part="facts">$facts</ul>
<nav><a href="#lines">Lines</a> <a href="#calls">Calls</a> <a href="#rooms">Rooms</a> <a href="#links">Data links</a> <a href="#clock">Clock</a>
<a href="calls.json">calls.json</a> <a href="metrics">metrics</a></nav>
</header>
<main>
<section id="lines">
<h2>Lines</h2>
<ul class="legend">$legend</ul>
<ul class="lines" data-part="lines">$lines</ul>
</section>
<section id="calls">
<h2>Calls</h2>
<div class="calls" data-part="calls">$calls</div>
</section>
<section id="rooms">
<h2>Rooms</h2>
<ul class="table" data-part="rooms">$rooms</ul>
</section>
<section id="links">
<h2>Data links</h2>
<ul class="table" data-part="links">$links</ul>
</section>
<section id="clock">
<h2>Clock</h2>
<ul class="table" data-part="clock">$clock</ul>
<p>Version $version. A frame lasts $frame.</p>
</section>
</main>
<script>$script</script>
</body>
</html>
""")
