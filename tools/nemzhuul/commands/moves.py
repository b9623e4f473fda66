"""Plots a run: the taken slots after each event, and the paths that were moved for it.

The events are in the order of the report. A slot is taken while a nail, a seat or a leg of a call
has it. Where there are more events than columns, a column shows the most taken slots of its events,
and the sum of their moved paths.
"""

from __future__ import annotations

import operator
from collections.abc import Callable, Iterable, Iterator, Sequence
from typing import NamedTuple

from nemzhuul.command_line import WrongWords
from nemzhuul.traces.events import PLACES
from nemzhuul.traces.following import Run
from nemzhuul.traces.runs import count_events, open_run

USAGE = """usage: tools/moves [--svg] TRACE REPORT
plots the taken slots and the moved paths of the run, event by event, as text or as SVG"""

TEXT_COLUMNS = 72
TEXT_ROWS = 10

SVG_COLUMNS = 720
SVG_PANEL = 140  # the height of a panel
SVG_LEFT = 60
SVG_TOP = 40
SVG_GAP = 60


class Panel(NamedTuple):
    """A plot: its title, and the heights of its columns."""

    title: str
    heights: Sequence[int]


def main(*words: str) -> str:
    as_svg = words[:1] == ("--svg",)
    files = words[1:] if as_svg else words
    if len(files) != 2 or any(word.startswith("-") for word in files):
        raise WrongWords
    trace_path, report_path = files
    trace, steps, _ = open_run(trace_path, report_path)
    total = count_events(trace_path)
    taken = Columns(total, SVG_COLUMNS if as_svg else TEXT_COLUMNS, max)
    moved = Columns(total, SVG_COLUMNS if as_svg else TEXT_COLUMNS, operator.add)
    run = Run(trace)
    for event, reply in steps:
        run.take(event, reply)
        taken.add(len(run.uses))
        moved.add(sum(reply.moved or ()))
    panels = [
        Panel(f"taken slots: at most {taken.most} of {trace.sizes.external * PLACES}", taken.heights),
        Panel(f"moved paths: {moved.sum} in all, at most {moved.most} for an event", moved.heights),
    ]
    return svg(panels, total) if as_svg else text(panels, total)


class Columns:
    """The values of events, which come one by one, in as many columns as there may be, each with what joins its values."""

    def __init__(self, total: int, most: int, join: Callable[[int, int], int]) -> None:
        width = min(total, most)
        self.join = join
        self.ends = [total * at // width for at in range(1, width + 1)] if width else []
        self.heights: list[int] = []
        self.count = self.most = self.sum = 0

    def add(self, value: int) -> None:
        is_first = self.count == (self.ends[len(self.heights) - 1] if self.heights else 0)
        if is_first:
            self.heights.append(value)
        else:
            self.heights[-1] = self.join(self.heights[-1], value)
        self.count += 1
        self.most = max(self.most, value)
        self.sum += value


# ---- text


def text(panels: Iterable[Panel], events: int) -> str:
    parts = [panel_text(title, heights) for title, heights in panels]
    return "\n".join(parts) + f"\n{'':6}{foot(events, TEXT_COLUMNS)}\n"


def foot(events: int, most: int) -> str:
    if events == 0:
        return "no events"
    said = f"events 1 to {events}, in the order of the report"
    return f"{said}; some {events / most:.1f} events to a column" if events > most else said


def panel_text(title: str, heights: Sequence[int]) -> str:
    top = max(heights, default=0)
    rows = min(top, TEXT_ROWS)
    lines = [f"{'':6}{title}"]
    for row in range(rows, 0, -1):
        # A row is full in a column that reaches its lower end.
        bound = top * (row - 1) // rows
        label = str(-(-top * row // rows))
        bars = "".join("#" if height > bound else " " for height in heights)
        lines.append(f"{label:>5}|{bars}".rstrip())
    lines.append(f"{0:>5}+{'-' * len(heights)}")
    return "\n".join(lines) + "\n"


# ---- SVG


def svg(panels: Iterable[Panel], events: int) -> str:
    height = SVG_TOP + 2 * (SVG_PANEL + SVG_GAP)
    width = SVG_LEFT + SVG_COLUMNS + 20
    parts = [
        f'<svg xmlns="http://www.w3.org/2000/svg" viewBox="0 0 {width} {height}"'
        f' width="{width}" height="{height}" font-family="DejaVu Sans, Arial, sans-serif" font-size="13">',
        f'<rect width="{width}" height="{height}" fill="white"/>',
    ]
    colours = ("#2b6cb0", "#c05621")
    for at, ((title, heights), colour) in enumerate(zip(panels, colours)):
        top = SVG_TOP + at * (SVG_PANEL + SVG_GAP)
        parts += panel_svg(title, heights, top, colour)
    parts.append(f'<text x="{SVG_LEFT}" y="{height - 20}">{foot(events, SVG_COLUMNS)}</text>')
    return "\n".join(parts) + "\n</svg>\n"


def panel_svg(title: str, heights: Sequence[int], top: int, colour: str) -> Iterator[str]:
    most = max(heights, default=0)
    bottom = top + SVG_PANEL
    yield f'<text x="{SVG_LEFT}" y="{top - 10}">{title}</text>'
    yield f'<path d="M{SVG_LEFT} {top}V{bottom}H{SVG_LEFT + SVG_COLUMNS}" fill="none" stroke="black"/>'
    yield f'<text x="{SVG_LEFT - 8}" y="{bottom + 4}" text-anchor="end">0</text>'
    if most == 0:
        return
    yield f'<text x="{SVG_LEFT - 8}" y="{top + 4}" text-anchor="end">{most}</text>'
    step = SVG_COLUMNS / len(heights)
    outline = [f"M{SVG_LEFT} {bottom}"]
    for at, height in enumerate(heights):
        outline.append(f"V{bottom - SVG_PANEL * height / most:.1f}H{SVG_LEFT + (at + 1) * step:.1f}")
    yield f'<path d="{"".join(outline)}V{bottom}Z" fill="{colour}"/>'
