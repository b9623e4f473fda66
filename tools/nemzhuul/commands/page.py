"""Writes a run as one HTML file to look at and to listen to, which needs no other file and no network."""

from __future__ import annotations

from base64 import b64encode
from dataclasses import dataclass, field
from html import escape
from pathlib import Path

from nemzhuul.command_line import WrongWords
from nemzhuul.pictures.drawing import Pictures, waveform
from nemzhuul.pictures.matrices import rearrangement_part
from nemzhuul.pictures.parts import call_part, count, ladder, ladder_part, span
from nemzhuul.traces.events import CHANNELS, FRAMES_PER_SECOND, IDLE, PLACES, Reply, Slot, Trace
from nemzhuul.traces.following import Call, Row, Run
from nemzhuul.traces.runs import open_run

USAGE = """usage: tools/page TRACE REPORT >PAGE
writes one HTML file: each call as a ladder, what has each channel, the internal slots of each line, Paull's matrix of each
event that moved live paths, and a player with a waveform for what each channel was sent. It needs no other file, and works
without a network. It can be printed. A long run has only its first calls, events and seconds of sound"""

PARTS = Path(__file__).resolve().parent.parent / "pictures"  # the style and the script of a page
MAX_CALLS = 200  # that are drawn
MAX_LISTED = 2000  # calls with their titles
SEARCHED = 50  # calls from which on they can be searched
MAX_OCTETS = 3_000_000  # of sounds
MAX_PLAYERS = 100
POLICY = "default-src 'none'; style-src 'unsafe-inline'; script-src 'unsafe-inline'; media-src blob:"
SHORT = 0.25  # seconds that are too short to hear
IDLE_ROW = bytes([IDLE]) * PLACES


@dataclass(frozen=True)
class Parts:
    """The parts of a page, as HTML."""

    summary: str
    calls: str
    channels: str
    slots: str
    matrices: str
    sounds: str


def main(*words: str) -> str:
    if len(words) != 2 or any(word.startswith("-") for word in words):
        raise WrongWords
    trace_path, report_path = words
    trace, steps, _ = open_run(trace_path, report_path)
    pictures, calls, heard = Pictures(trace), Calls(), Sounds()
    for event, reply in steps:
        pictures.take(event, reply)
        calls.take(pictures.run, reply)
        heard.take(reply)
    pictures.end()
    calls.end(pictures.run)
    parts = Parts(
        summary=summary(trace, calls, pictures.run.frames),
        calls=calls.text(),
        channels=channels_part(pictures),
        slots=slots_part(pictures),
        matrices=matrices_part(pictures),
        sounds=sounds_part(heard, pictures.run.frames),
    )
    return document(Path(trace_path).name, parts, pictures, calls)


def summary(trace: Trace, calls: Calls, frames: int) -> str:
    said = [
        count(trace.sizes.external, "line"),
        count(trace.sizes.bridges, "bridge"),
        count(calls.events, "event"),
        f"{count(frames, 'frame')}, {span(frames)}",
        f"{count(calls.count, 'call')}, {calls.answered:,} answered",
        f"{count(calls.moved, 'path')} moved",
    ]
    return "".join(f"<li>{text}</li>" for text in said)


# ---- calls


@dataclass
class Calls:
    """The calls of a run as HTML, each when it and those before it have ended, and the numbers of a run."""

    events: int = 0
    moved: int = 0  # paths
    count: int = 0
    answered: int = 0
    parts: list[str] = field(default_factory=list)
    on_no_call: list[Row] = field(default_factory=list)

    def take(self, run: Run, reply: Reply) -> None:
        self.events += 1
        self.moved += sum(reply.moved or ())
        while run.ended and run.calls and run.calls[0].has_ended:
            self._add(run.calls.pop(0), run)
        if run.on_no_call:
            self.on_no_call += run.on_no_call[: 20 * MAX_CALLS - len(self.on_no_call)]
            run.on_no_call.clear()

    def end(self, run: Run) -> None:
        for call in run.calls:
            self._add(call, run)

    def _add(self, call: Call, run: Run) -> None:
        self.count += 1
        self.answered += call.answered is not None
        if self.count <= MAX_LISTED:
            self.parts.append(call_part(call, run, is_drawn=self.count <= MAX_CALLS))

    def text(self) -> str:
        parts = list(self.parts)
        if self.count > MAX_CALLS:
            listed = f", and the first {MAX_LISTED:,} are listed" if self.count > MAX_LISTED else ""
            parts.append(f"<p>The first {MAX_CALLS} of {self.count:,} calls are drawn{listed}.</p>")
        if self.on_no_call:
            heads = "<span>line</span><span>exchange</span>"
            rungs = ladder(self.on_no_call, lambda row: False, False, with_line=True)
            parts.append(f'<article class="call"><h3>Messages on no call</h3>{ladder_part(heads, rungs, False)}</article>')
        return "".join(parts) or "<p>No call, and no message.</p>"


# ---- channels and internal slots


def channels_part(pictures: Pictures) -> str:
    if not pictures.channels():
        return "<p>Nothing has a channel in this run.</p>"
    left_out = f"<p>{pictures.left_out:,} later events are left out.</p>" if pictures.left_out else ""
    return "".join(pictures.timelines()) + left_out


def slots_part(pictures: Pictures) -> str:
    layout = pictures.layout
    if layout is None:
        return "<p>The numbers of moved paths are those of neither fabric, so no internal slots are shown.</p>"
    lines = pictures.lines_with_paths(layout)
    if not lines:
        return "<p>No path was laid in this run.</p>"
    options = ""
    for line in lines:
        bridge, moves = line - layout.fabric.external, pictures.moves_of(layout, line)
        text = f"{line}" + (f" (bridge {bridge})" if bridge >= 0 else "") + (f": {count(moves, 'move')}" if moves else "")
        options += f'<option value="{line}">{text}</option>'
    parts = [f'<p class="control"><label>Line <select id="line">{options}</select></label></p>']
    parts += [f'<div class="line" id="line-{line}">{pictures.internal_slots(layout, line)}</div>' for line in lines]
    return "".join(parts)


def matrices_part(pictures: Pictures) -> str:
    found = pictures.layout.rearrangements if pictures.layout else []
    if not found:
        return "<p>No live path moved in this run.</p>"
    return "".join(map(rearrangement_part, found))


# ---- sounds


class Sounds:
    """What channels were sent, of those that were sent anything but idle octets."""

    def __init__(self) -> None:
        self.octets: dict[Slot, bytearray] = {}
        self.count = 0  # of the channels, some of which have no player
        self._frames = 0  # so far
        self._is_full = False
        self._found: dict[int, set[int]] = {}  # by line, its channels
        self._places: dict[int, list[tuple[int, bytearray]]] = {}  # by line, the places of the channels with a player

    def take(self, reply: Reply) -> None:
        if reply.octets is None:
            return
        for line in reply.octets if self.count < len(self._found) * PLACES or len(self._found) < len(reply.octets) else ():
            self._find(line, reply.octets[line])
        self._is_full |= not self._has_room(len(self.octets))
        if not self._is_full:
            for line, places in self._places.items():
                row = reply.octets.get(line, IDLE_ROW)
                for at, sound in places:
                    sound.append(row[at])
        self._frames += 1

    def _find(self, line: int, row: bytes) -> None:
        """Finds the channels of a line that are sent something for the first time."""
        found = self._found.setdefault(line, set())
        if len(found) == PLACES or row == IDLE_ROW:
            return
        for at, octet in enumerate(row):
            if octet != IDLE and at not in found:
                found.add(at)
                self.count += 1
                if len(self.octets) < MAX_PLAYERS and not self._is_full and self._has_room(len(self.octets) + 1):
                    sound = self.octets[Slot(line, CHANNELS[at])] = bytearray([IDLE]) * self._frames
                    self._places.setdefault(line, []).append((at, sound))

    def _has_room(self, players: int) -> bool:
        return players * (self._frames + 1) <= MAX_OCTETS


def sounds_part(heard: Sounds, frames: int) -> str:
    if not heard.octets:
        return "<p>Every channel was sent idle octets only.</p>"
    parts = [sound_part(slot, bytes(octets)) for slot, octets in sorted(heard.octets.items())]
    length = max(map(len, heard.octets.values()))
    if frames < SHORT * FRAMES_PER_SECOND:
        last = f"{count(frames, 'frame')} last {span(frames)}, which is a click at most"
        parts.insert(0, f"<p>{last}: <em>repeat</em> plays them over and over.</p>")
    if length < frames:
        parts.append(f"<p>Only the first {span(length)} can be played.</p>")
    if len(heard.octets) < heard.count:
        parts.append(f"<p>{len(heard.octets)} of {heard.count} channels have a player, which are the first to be sent a sound.</p>")
    return "".join(parts)


def sound_part(slot: Slot, octets: bytes) -> str:
    length = span(len(octets))
    return (f'<figure class="sound" data-octets="{b64encode(octets).decode()}" data-name="{slot.line}-{slot.channel}">'
            f"<figcaption><b>{slot}</b> line {slot.line}, channel {slot.channel}</figcaption>"
            f'<button type="button" aria-label="play {slot}">Play</button>'
            f'<div class="track">{waveform(octets)}<input type="range" min="0" max="{len(octets)}" value="0" '
            f'aria-label="place in {slot}"></div><output>0 / {length}</output>'
            f'<label><input type="checkbox"> repeat</label><a download="{slot.line}-{slot.channel}.wav">WAV</a></figure>')  # fmt: skip


# ---- the document


def head(file: str) -> str:
    """The head of the page. Its policy lets it load nothing."""
    return f"""<!DOCTYPE html>
<html lang="en">
<head>
<meta charset="utf-8">
<meta name="viewport" content="width=device-width, initial-scale=1">
<meta http-equiv="Content-Security-Policy" content="{POLICY}">
<title>{escape(file)}</title>
<style>
{(PARTS / "page.css").read_text()}</style>
</head>
"""


def calls_section(parts: Parts, calls: Calls) -> str:
    hidden = "" if calls.parts or calls.on_no_call else " hidden"
    search = '<label>search <input type="search" id="find"></label><output id="found" aria-live="polite"></output>'
    return f"""<section id="calls">
<h2>Calls</h2>
<p class="control"{hidden}><label><input type="checkbox" id="octets"> show the octets of each message</label>
{search if calls.count >= SEARCHED else ""}</p>
<div class="calls">{parts.calls}</div>
</section>
"""


def channels_section(parts: Parts, steps: int) -> str:
    return f"""<section id="channels">
<h2>Channels</h2>
<p>What has each channel, event by event. Bars of one colour are connected, a grey bar is a call without a connection,
and a mark above counts the live paths that an event moved: a dot is on each of their channels. A white column is an event.
A shaded column is frames in which nothing changes, and has their numbers in italics.</p>
<div class="control step"><button type="button" id="back" aria-label="one step back">◀</button>
<input type="range" id="step" min="0" max="{max(steps - 1, 0)}" value="0" aria-label="step">
<button type="button" id="on" aria-label="one step on">▶</button><output id="said" aria-live="polite"></output></div>
{parts.channels}
</section>
"""


def fabric_sections(parts: Parts) -> str:
    """The sections on sounds, internal slots and Paull's matrix."""
    return f"""<section id="sounds">
<h2>Sounds</h2>
<p>What each channel was sent: 8,000 octets of A-law a second.</p>
{parts.sounds}
</section>
<section id="slots">
<h2>Internal slots</h2>
<p>In which internal slot of the fabric each channel of a line is carried, event by event, by the rule of the exchange:
the octets that come from the line, and those that go to it. Where a path moves, its colour changes its row.</p>
{parts.slots}
</section>
<section id="matrix">
<h2>Paull's matrix</h2>
<p>How live paths make room for a new one. A row is an incoming line, a column an outgoing line, and an entry has the internal
slots of the paths between them. A slot is free on a line that has it nowhere in its row or column.</p>
{parts.matrices}
</section>
"""


def document(file: str, parts: Parts, pictures: Pictures, calls: Calls) -> str:
    """The whole page."""
    steps = "".join(
        f'<li data-x="{column.x:.1f}" data-w="{column.width:.1f}" data-event="{column.events.first}" data-last="{column.events.last}"'
        f' data-frame="{column.frames.first if column.frames else ""}">{escape(column.title)}</li>'
        for column in pictures.columns
    )
    sections = calls_section(parts, calls) + channels_section(parts, len(pictures.columns)) + fabric_sections(parts)
    return f"""{head(file)}<body>
<a class="skip" href="#calls">to the calls</a>
<header>
<h1>{escape(file)}</h1>
<ul class="facts">{parts.summary}</ul>
<nav><a href="#calls">Calls</a> <a href="#channels">Channels</a> <a href="#sounds">Sounds</a>
<a href="#slots">Internal slots</a> <a href="#matrix">Paull's matrix</a></nav>
</header>
{pictures.axes()}
<main>
{sections}</main>
<ol id="steps" hidden>{steps}</ol>
<script>
{(PARTS / "page.js").read_text()}</script>
</body>
</html>
"""
