"""The pictures of a run, as SVG: what has each channel, the internal slots of a line, and the waveform of a sound.

Channels and internal slots have the same columns from left to right: one for each event, and one for frames in which
nothing changes. More frames have a wider column. A picture has rows for about one line, and is cut into strips that lie side
by side on a screen, and one below the other on paper.
"""

from __future__ import annotations

from collections import defaultdict
from collections.abc import Callable, Iterator, Mapping, Sequence
from dataclasses import dataclass, field
from html import escape
from itertools import groupby
from math import ceil, log2, sqrt
from typing import Generic, NamedTuple, TypeVar

from nemzhuul.pictures.fabric import STRICT_SLOTS, End, Fabric, Path
from nemzhuul.pictures.ladders import frames_text
from nemzhuul.pictures.matrices import Rearrangement, rearrangement
from nemzhuul.signalling.q931 import message_text
from nemzhuul.sound.alaw import value_of
from nemzhuul.traces.events import PLACES, Arrival, Event, Frame, Free, Link, Moved, Nail, Reply, Restart, Seat, Slot, Trace
from nemzhuul.traces.following import Run, Use

COLUMN, WIDER = 18, 9  # the width of a column, and how much wider it is with twice the frames
MAX_COLUMNS = 2000
MAX_BARS = 20_000  # with one for each strip that a bar is in
MAX_REARRANGEMENTS = 12  # that are shown step by step
USUAL_WIDTH = 980  # to which the columns of a short run are widened
MAX_SCALE = 3.5
STRIP = 1000  # the width of a strip, at most about
MAX_ROWS = 30  # of a picture of channels
ROW, HEAD = 24, 46  # the height of a channel, and of the axis above all
CELL = 11  # the height of an internal slot
NAMES = 80  # the width of the names of rows
EVENT_Y, FRAME_Y = 12, 26  # where the axis has the numbers of events and of frames
GOLDEN_ANGLE = 137.5  # between the hues of two connections
WAVE_WIDTH, WAVE_HEIGHT = 800, 128


class Range(NamedTuple):
    """Numbers of events or frames."""

    first: int
    last: int


@dataclass
class Column:
    """One event, or frames in which nothing changes."""

    events: Range
    text: str
    frames: Range | None = None
    moved: Moved | None = None
    x: float = 0
    width: float = COLUMN

    @property
    def title(self) -> str:
        if self.frames is None:
            return f"event {self.events.first}: {self.text}"
        count = self.frames.last - self.frames.first + 1
        text = f": {self.text}" if self.text else ""
        return f"{frames_text(*self.frames)}, {count * 0.125:g} ms{text}"


Row = TypeVar("Row")
Value = TypeVar("Value")


@dataclass(frozen=True)
class Bar(Generic[Row, Value]):
    """The value of a row in some columns."""

    row: Row
    value: Value
    first: int  # column
    end: int  # the column behind the last


@dataclass
class Bars(Generic[Row, Value]):
    """In which columns each row has which value."""

    open: dict[Row, tuple[Value, int]] = field(default_factory=dict)  # the value, and the column in which it began
    closed: list[Bar[Row, Value]] = field(default_factory=list)

    def set(self, values: Mapping[Row, Value], at: int) -> None:
        """From a column on, these rows have these values, and others have none."""
        others = [row for row, (value, _) in self.open.items() if (new := values.get(row)) is not value and new != value]
        for row in others:
            value, first = self.open.pop(row)
            self.closed.append(Bar(row, value, first, at))
        for row, value in values.items():
            self.open.setdefault(row, (value, at))


class Cell(NamedTuple):
    """An internal slot of a line."""

    line: int
    number: int


class Extent(NamedTuple):
    """Where a bar begins, and how wide it is."""

    x: float
    width: float


class Layout:
    """The internal slots of the paths on a fabric, column by column."""

    def __init__(self, fabric: Fabric) -> None:
        self.fabric = fabric
        self.incoming: Bars[Cell, Path] = Bars()
        self.outgoing: Bars[Cell, Path] = Bars()
        self.moved: defaultdict[int, list[Path]] = defaultdict(list)  # by column
        self.rearrangements: list[Rearrangement] = []

    def set(self, at: int) -> None:
        """From a column on, the paths are in the slots of the fabric."""
        for bars, lines in ((self.incoming, self.fabric.incoming), (self.outgoing, self.fabric.outgoing)):
            bars.set({Cell(of, n): path for of, line in enumerate(lines) for n, path in line.items()}, at)

    def note_moves(self, at: int, event: int, text: str) -> None:
        """Records the paths that moved in the event of a column."""
        self.moved[at] += [move.path for laid in self.fabric.laid for move in laid.chain]
        if self.moved[at] and len(self.rearrangements) < MAX_REARRANGEMENTS:
            self.rearrangements.append(rearrangement(event, text, self.fabric.incoming, self.fabric.laid))

    def end(self, at: int) -> None:
        for bars in (self.incoming, self.outgoing):
            bars.set({}, at)


class Pictures:
    """Gathers what the pictures of a run show, event by event."""

    def __init__(self, trace: Trace) -> None:
        self.run = Run(trace)
        self.columns: list[Column] = []
        self.uses: Bars[Slot, Use] = Bars()
        self.left_out = 0
        self.layouts = [Layout(Fabric(trace)), Layout(Fabric(trace, STRICT_SLOTS))]  # by which as many paths move as reported
        self.hues: dict[object, int] = {}  # of a connection, of which each has another
        self.width: float = 0
        self.strips: list[Range] = []  # of columns
        self._bars: float = 0  # that the columns so far have

    @property
    def layout(self) -> Layout | None:
        """The layout on the fabric of the run; None if it is neither of the two."""
        return self.layouts[0] if self.layouts else None

    def take(self, event: Event, reply: Reply) -> None:
        is_quiet = isinstance(event, Frame) and not reply.sent
        if is_quiet and reply.frame is not None and not self.run.may_end_leg(reply.frame):
            self.run.pass_frame(reply.frame)
            is_changed = False
        else:
            before = dict(self.run.uses)
            self.run.take(event, reply)
            is_changed = self.run.uses != before or reply.moved is not None or bool(self.run.left)
            if is_changed:
                self.layouts = [layout for layout in self.layouts if layout.fabric.take(self.run) == reply.moved]
        if is_quiet and not is_changed and self.columns and self.columns[-1].frames and not self.columns[-1].text:
            self._extend(self.columns[-1], reply)
        elif len(self.columns) == MAX_COLUMNS or self._bars > MAX_BARS:
            self.left_out += 1
        else:
            self._add(event, reply, is_changed)

    def _extend(self, column: Column, reply: Reply) -> None:
        column.events = column.events._replace(last=reply.event)
        if column.frames is not None and reply.frame is not None:
            column.frames = column.frames._replace(last=reply.frame)

    def _add(self, event: Event, reply: Reply, is_changed: bool) -> None:
        frames = None if reply.frame is None else Range(reply.frame, reply.frame)
        column = Column(Range(reply.event, reply.event), event_text(event, reply), frames, reply.moved)
        at = len(self.columns)
        self.columns.append(column)
        if is_changed:
            self.uses.set(self.run.uses, at)
            for layout in self.layouts:
                layout.set(at)
                layout.note_moves(at, reply.event, column.text)
        self._bars += 3 * len(self.run.uses) * COLUMN / STRIP + 4 * is_changed

    def end(self) -> None:
        """Ends all bars, and gives each column its place. A short run is drawn wider."""
        self.uses.set({}, len(self.columns))
        for layout in self.layouts:
            layout.end(len(self.columns))
        for column in self.columns:
            if column.frames is not None:
                column.width += WIDER * log2(column.frames.last - column.frames.first + 1)
        scale = max(1, min(MAX_SCALE, USUAL_WIDTH / max(1, sum(column.width for column in self.columns))))
        for column in self.columns:
            column.x, column.width = self.width, column.width * scale
            self.width += column.width
        self._cut()

    def _cut(self) -> None:
        """Cuts the columns into strips of about the same width."""
        count = max(1, ceil(self.width / STRIP))
        first = 0
        for at, column in enumerate(self.columns):
            is_last = at + 1 == len(self.columns)
            if is_last or column.x + column.width >= (len(self.strips) + 1) * self.width / count - COLUMN / 2:
                self.strips.append(Range(first, at))
                first = at + 1

    def hue(self, connection: object) -> int:
        return round(self.hues.setdefault(connection, len(self.hues)) * GOLDEN_ANGLE) % 360

    # ---- what has each channel

    def channels(self) -> list[Slot]:
        """The channels that something has at any time, in order."""
        return sorted({bar.row for bar in self.uses.closed})

    def timelines(self) -> Iterator[str]:
        """The pictures of the channels. One picture has all channels of a line."""
        rows: list[Slot] = []
        for _, of_line in groupby(self.channels(), lambda slot: slot.line):
            more = list(of_line)
            if rows and len(rows) + len(more) > MAX_ROWS:
                yield self.timeline(rows)
                rows = []
            rows += more
        yield self.timeline(rows)

    def timeline(self, channels: Sequence[Slot]) -> str:
        """The picture of some channels."""
        rows = {slot: HEAD + at * ROW for at, slot in enumerate(channels)}
        bars = [bar for bar in self.uses.closed if bar.row in rows]
        moved: defaultdict[int, set[Slot]] = defaultdict(set)  # by column
        for at, paths in self.layout.moved.items() if self.layout else ():
            moved[at] |= {slot_of(end) for path in paths for end in (path.source, path.target) if self.is_slot(end)} & rows.keys()

        def parts(strip: Range) -> Iterator[str]:
            for bar in self.within(bars, strip):
                slot, use = bar.row, bar.value
                hue = self.hue_of(slot, use)
                yield self.bar(bar, strip, rows[slot] + 3, ROW - 6, hue, f"{slot} {use}", str(use))
                if use.partner is not None and slot < use.partner and use.partner in rows and strip.first <= bar.first:
                    top, bottom = rows[slot] + ROW / 2, rows[use.partner] + ROW / 2
                    x = self.columns[bar.first].x + 5
                    yield f'<path class="link" d="M{x:.1f} {top}V{bottom}" style="--h:{hue}"/>'
            for at in range(strip.first, strip.last + 1):
                column = self.columns[at]
                if moved[at] and column.moved:
                    number = sum(column.moved)
                    yield self.mark(column, number, f"{column.title}: {number} paths moved")
                    yield from (self.dot(column, rows[slot] + ROW / 2, f"a path of {slot} moved") for slot in sorted(moved[at]))

        names = [self.name(top + ROW / 2 + 4, slot) for slot, top in rows.items()]
        what = f"what has each channel from {channels[0]} to {channels[-1]}"
        return self.picture("channels", what, HEAD + len(rows) * ROW, names, parts)

    def is_slot(self, end: End) -> bool:
        """Whether an end of a path is a slot, and not a port of a bridge."""
        return self.layout is not None and end.line < self.layout.fabric.external

    def hue_of(self, slot: Slot, use: Use) -> int | None:
        """The hue of a connection; None where a slot is taken and not connected."""
        if use.partner is not None:
            return self.hue(frozenset((slot, use.partner)))
        return None if use.room is None else self.hue(use.room)

    # ---- the internal slots of a line

    def lines_with_paths(self, layout: Layout) -> list[int]:
        return sorted({bar.row.line for bars in (layout.incoming, layout.outgoing) for bar in bars.closed})

    def internal_slots(self, layout: Layout, line: int) -> str:
        """The pictures of the internal slots that carry octets from a line, and of those that carry octets to it."""
        sides = {way: [bar for bar in bars.closed if bar.row.line == line]
                 for way, bars in (("from", layout.incoming), ("to", layout.outgoing))}  # fmt: skip
        count = 1 + max(bar.row.number for bars in sides.values() for bar in bars)
        return "".join(self.one_way(layout, line, way, bars, count) for way, bars in sides.items())

    def one_way(self, layout: Layout, line: int, way: str, bars: Sequence[Bar[Cell, Path]], count: int) -> str:
        """The picture of the internal slots of a line in one direction."""
        height = HEAD + count * CELL

        def ends(path: Path) -> tuple[End, End]:
            return (path.source, path.target) if way == "from" else (path.target, path.source)

        def parts(strip: Range) -> Iterator[str]:
            for bar in self.within(bars, strip):
                near, far = ends(bar.value)
                title = f"internal slot {bar.row.number}: {self.end_text(layout, near)} {'to' if way == 'from' else 'from'} "
                title += self.end_text(layout, far)
                top = HEAD + bar.row.number * CELL
                yield self.bar(bar, strip, top, CELL - 1, self.path_hue(bar.value), title, self.end_text(layout, near))
            for at in range(strip.first, strip.last + 1):
                number = sum(ends(path)[0].line == line for path in layout.moved.get(at, ()))
                if number:
                    column = self.columns[at]
                    yield self.mark(column, number, f"{column.title}: {number} of them {way} line {line}")

        names = [f'<text class="name heading" x="0" y="{HEAD - 6}">{way} line {line}</text>']
        names += [self.name(HEAD + n * CELL + 9, n) for n in range(count)]
        return self.picture("slots", f"the internal slots that carry octets {way} line {line}", height, names, parts, count)

    def path_hue(self, path: Path) -> int:
        """The hue of the connection that a path is of, as in the other picture."""
        return self.hue(frozenset((slot_of(path.source), slot_of(path.target))) if path.room is None else path.room)

    def end_text(self, layout: Layout, end: End) -> str:
        line, place = end
        external = layout.fabric.external
        return str(slot_of(end)) if line < external else f"port {(line - external) * PLACES + place}"

    def moves_of(self, layout: Layout, line: int) -> int:
        """How many paths from or to a line moved."""
        return sum(line in (path.source.line, path.target.line) for paths in layout.moved.values() for path in paths)

    # ---- parts of both

    def within(self, bars: Sequence[Bar[Row, Value]], strip: Range) -> Iterator[Bar[Row, Value]]:
        return (bar for bar in bars if bar.first <= strip.last and bar.end > strip.first)

    def picture(
        self, kind: str, what: str, height: int, names: Sequence[str], parts: Callable[[Range], Iterator[str]], cells: int = 0
    ) -> str:
        """A picture with the names of its rows, strip by strip."""
        axis = f'<text class="name" x="{NAMES - 6}" y="{EVENT_Y}">event</text>'
        axis += f'<text class="name frame" x="{NAMES - 6}" y="{FRAME_Y}">frame</text>'
        label = (f'<svg class="names" aria-hidden="true" viewBox="0 0 {NAMES} {height}" width="{NAMES}" height="{height}">'
                 f'{axis}{"".join(names)}</svg>')  # fmt: skip
        strips = []
        for number, strip in enumerate(self.strips):
            first, last = self.columns[strip.first], self.columns[strip.last]
            width = last.x + last.width - first.x
            columns = f"{what}, events {first.events.first} to {last.events.last}"
            grid = "".join(f'<path class="cell" d="M{first.x:.1f} {HEAD + n * CELL}h{width:.1f}"/>' for n in range(cells + 1) if cells)
            drawn = "".join(parts(strip))
            strips.append(
                f'<div class="strip{"" if drawn else " empty"}">{label if drawn else ""}'
                f'<svg class="steps" role="img" viewBox="{first.x:.1f} 0 {width:.1f} {height}" width="{width:.1f}" height="{height}">'
                f'<title>{columns}</title><use href="#axis-{number}"/>{grid}{drawn}'
                f'<rect class="cursor" y="0" width="{COLUMN}" height="{height}"/></svg></div>'
            )
        return f'<div class="picture {kind}">{label}<div class="scroll" tabindex="0"><div class="strips">{"".join(strips)}</div></div></div>'

    def axes(self) -> str:
        """The axis of each strip, which all pictures use. It is as high as the highest."""
        height = HEAD + max(MAX_ROWS * ROW, STRICT_SLOTS * CELL)
        groups = (f'<g id="axis-{number}">{"".join(self.axis(strip, height))}</g>' for number, strip in enumerate(self.strips))
        return f'<svg width="0" height="0" aria-hidden="true"><defs>{"".join(groups)}</defs></svg>'

    def axis(self, strip: Range, height: int) -> Iterator[str]:
        """Lines and numbers for the columns of a strip: events above, frames below."""
        free = {EVENT_Y: 0.0, FRAME_Y: 0.0}  # by the height of a number, where the next has room
        for column in self.columns[strip.first : strip.last + 1]:
            kind = "frames" if column.frames else "event"
            place = f'x="{column.x:.1f}" y="0" width="{column.width:.1f}" height="{height}"'
            yield f'<rect class="column {kind}" {place}><title>{escape(column.title)}</title></rect>'
            text, y = str(column.events.first), EVENT_Y
            if column.frames is not None:
                first, last = column.frames
                text, y = f"{first}" if first == last else f"{first}–{last}", FRAME_Y
            middle, half = column.x + column.width / 2, 3.5 * len(text)
            if middle - half >= free[y]:
                yield f'<text class="axis{" frame" if column.frames else ""}" x="{middle:.1f}" y="{y}">{text}</text>'
                free[y] = middle + half + 4

    def mark(self, column: Column, number: int, title: str) -> str:
        """A mark below the axis for the paths that moved in a column."""
        x = column.x + column.width / 2
        return (f'<g class="moved"><title>{escape(title)}</title><circle cx="{x:.1f}" cy="37" r="8"/>'
                f'<text x="{x:.1f}" y="40.5">{number}</text></g>')  # fmt: skip

    def dot(self, column: Column, y: float, title: str) -> str:
        """A mark in a row whose path moved in a column."""
        return f'<circle class="dot" cx="{column.x + column.width / 2:.1f}" cy="{y}" r="3.5"><title>{title}</title></circle>'

    def name(self, y: float, text: object) -> str:
        return f'<text class="name" x="{NAMES - 6}" y="{y:g}">{text}</text>'

    def bar(self, bar: Bar[Row, Value], strip: Range, y: float, height: float, hue: int | None, title: str, label: str) -> str:
        """A bar as far as it is in a strip. Beyond it, its ends are not seen."""
        left, right = self.columns[strip.first], self.columns[strip.last]
        x = left.x - 5 if bar.first < strip.first else self.columns[bar.first].x + 0.5
        end = right.x + right.width + 5 if bar.end > strip.last + 1 else self.columns[bar.end - 1].x + self.columns[bar.end - 1].width - 0.5
        kind = "bar idle" if hue is None else "bar"
        style = "" if hue is None else f' style="--h:{hue}"'
        room = min(end, right.x + right.width) - max(x, left.x)
        text = ""
        if room > 7 * len(label) + 14:
            text = f'<text x="{max(x, left.x) + 9.5:.1f}" y="{y + height / 2 + 3.5:g}">{escape(label)}</text>'
        shape = f'<rect x="{x:.1f}" y="{y}" width="{max(end - x, 1):.1f}" height="{height}" rx="3"/>'
        return f'<g class="{kind}"{style}><title>{escape(title)}</title>{shape}{text}</g>'


def slot_of(end: End) -> Slot:
    line, place = end
    return Slot(line, place + 1 if place < 15 else place + 2)


def event_text(event: Event, reply: Reply) -> str:
    """What happens in an event, in words."""
    if isinstance(event, Arrival):
        said = [f"line {event.line} sends {message_text(event.octets)}"]
    elif isinstance(event, Nail):
        said = [f"nail {event.first} to {event.second}: {reply.word}"]
    elif isinstance(event, Free):
        said = [f"free {event.slot}: {reply.word}"]
    elif isinstance(event, Link):
        said = [f"the data link of line {event.line} is {'up' if event.is_up else 'down'}"]
    elif isinstance(event, Restart):
        said = [f"the exchange restarts line {event.line}"]
    elif isinstance(event, Seat):
        said = [f"seat {event.slot} in room {event.room}: {reply.word}"]
    else:
        said = []
    said += [f"line {line} gets {message_text(octets)}" for line, octets in reply.sent]
    if reply.moved and sum(reply.moved):
        said.append(f"{reply.moved[0]} paths moved there, {reply.moved[1]} back")
    return "; ".join(said)


def waveform(octets: bytes) -> str:
    """The picture of a sound: its lowest and its highest sample in each column."""
    count = min(len(octets), WAVE_WIDTH)
    bounds = [len(octets) * at // count for at in range(count + 1)]
    parts = [[HEIGHTS[octet] for octet in set(octets[first:end])] for first, end in zip(bounds, bounds[1:])]
    middle = WAVE_HEIGHT // 2
    upper, lower = [middle - max(heights) for heights in parts], [middle - min(heights) for heights in parts]
    path = f"M0 {middle}{edge(upper, middle, 1)}{edge(lower[::-1], upper[-1], -1)}z"
    return (f'<svg class="wave" viewBox="0 0 {count} {WAVE_HEIGHT}" preserveAspectRatio="none" aria-hidden="true">'
            f'<path class="zero" d="M0 {middle}H{count}"/><path class="form" d="{path}"/></svg>')  # fmt: skip


def edge(heights: Sequence[int], before: int, step: int) -> str:
    """The steps of an edge of a waveform, as parts of a path."""
    parts = []
    wide = 0
    for height in heights:
        if height != before:
            parts.append(f"h{wide}" if wide else "")
            parts.append(f"v{height - before}")
            before, wide = height, 0
        wide += step
    return "".join([*parts, f"h{wide}"])


def scale(value: int) -> int:
    """The height of a sample, which grows more slowly for loud ones, as the octets of A-law do; at least a dot."""
    height = round(sqrt(abs(value) / 4096) * (WAVE_HEIGHT / 2 - 2))
    return max(height, 1) if value > 0 else -max(height, 1)


HEIGHTS = [scale(value_of(octet)) for octet in range(256)]  # by octet
