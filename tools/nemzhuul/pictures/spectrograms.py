"""Spectrograms of recordings, as SVG: how loud each pitch is in each window of time."""

from __future__ import annotations

from collections.abc import Iterator, Sequence
from html import escape
from math import cos, log10, pi
from typing import NamedTuple

from nemzhuul.sound.alaw import value_of
from nemzhuul.traces.events import FRAMES_PER_SECOND

WINDOW = 1_024  # samples of a window
HOP = 512  # samples from one window to the next
MAX_SECONDS = 60
LOWEST, HIGHEST, STEP = 150, 850, 10  # hertz
PITCHES = range(LOWEST, HIGHEST, STEP)
SHADE_DECIBELS = 9
SHADES = ("#0b3d66", "#1f6fb2", "#5b9bd0", "#9cc4e4", "#d3e5f3")  # from the loudest on

WIDTH, LEFT, RIGHT = 720, 52, 12
HEIGHT, GAP, BOTTOM = 105, 30, 26  # of a panel, above each, and below the last
MARKS = (200, 400, 600, 800)  # hertz


class Recording(NamedTuple):
    title: str
    octets: bytes  # of A-law


class Run(NamedTuple):
    """Neighbouring windows in which a pitch has one shade."""

    first: int
    end: int
    pitch: int  # number of the pitch, from the lowest on
    shade: int


def powers(octets: bytes) -> list[list[float]]:
    """The power of each pitch in each window, by the formula of Goertzel under a window of Hann."""
    shape = [(1 - cos(2 * pi * at / WINDOW)) / 2 for at in range(WINDOW)]
    factors = [2 * cos(2 * pi * pitch / FRAMES_PER_SECOND) for pitch in PITCHES]
    values = [value_of(octet) for octet in octets]
    found = []
    for first in range(0, len(values) - WINDOW + 1, HOP):
        samples = [weight * value for weight, value in zip(shape, values[first : first + WINDOW])]
        found.append([power(samples, factor) for factor in factors])
    return found


def power(samples: Sequence[float], factor: float) -> float:
    one = two = 0.0
    for sample in samples:
        one, two = sample + factor * one - two, one
    return max(1.0, one * one + two * two - factor * one * two)


def runs(of_windows: Sequence[Sequence[float]], loudest: float) -> Iterator[Run]:
    """The places that are not white."""
    for pitch in range(len(PITCHES)):
        shades = [int(10 * log10(loudest / window[pitch]) / SHADE_DECIBELS) for window in of_windows]
        first = 0
        for at in range(1, len(shades) + 1):
            if at == len(shades) or shades[at] != shades[first]:
                if shades[first] < len(SHADES):
                    yield Run(first, at, pitch, shades[first])
                first = at


def picture(recordings: Sequence[Recording]) -> str:
    """The panels of some recordings, which have one scale of time and of loudness."""
    of_recordings = [powers(recording.octets) for recording in recordings]
    loudest = max(max(window) for windows in of_recordings for window in windows)
    seconds = max(len(recording.octets) for recording in recordings) / FRAMES_PER_SECOND
    height = len(recordings) * (HEIGHT + GAP) + BOTTOM
    parts = [f'<svg xmlns="http://www.w3.org/2000/svg" viewBox="0 0 {WIDTH} {height}" font-family="sans-serif" font-size="12">']
    parts.append(f"<title>{escape('; '.join(recording.title for recording in recordings))}</title>")
    for at, (recording, windows) in enumerate(zip(recordings, of_recordings)):
        parts += panel(recording.title, list(runs(windows, loudest)), at * (HEIGHT + GAP) + GAP, seconds)
    parts += time_axis(height - BOTTOM, seconds)
    return "\n".join([*parts, "</svg>", ""])


def panel(title: str, some: Sequence[Run], top: int, seconds: float) -> Iterator[str]:
    wide, high = (WIDTH - LEFT - RIGHT) * HOP / FRAMES_PER_SECOND / seconds, HEIGHT / len(PITCHES)
    yield f'<text x="{LEFT}" y="{top - 6}" font-weight="bold">{escape(title)}</text>'
    for shade, colour in enumerate(SHADES):
        cells = [
            f"M{LEFT + (run.first + 0.5) * wide:.1f} {top + HEIGHT - (run.pitch + 1) * high:.1f}"
            f"h{(run.end - run.first) * wide:.1f}v{high:.1f}h-{(run.end - run.first) * wide:.1f}z"
            for run in some
            if run.shade == shade
        ]
        if cells:
            yield f'<path fill="{colour}" d="{"".join(cells)}"/>'
    yield f'<rect x="{LEFT}" y="{top}" width="{WIDTH - LEFT - RIGHT}" height="{HEIGHT}" fill="none" stroke="#718096"/>'
    for mark in MARKS:
        y = top + HEIGHT * (HIGHEST - mark) / (HIGHEST - LOWEST)
        yield f'<text x="{LEFT - 5}" y="{y + 4:.1f}" text-anchor="end">{mark} Hz</text>'
        yield f'<path stroke="#718096" stroke-opacity="0.3" d="M{LEFT} {y:.1f}h{WIDTH - LEFT - RIGHT}"/>'


def time_axis(top: int, seconds: float) -> Iterator[str]:
    """Up to ten marks below the last panel."""
    step = max(1, round(seconds / 10))
    for second in range(0, int(seconds) + 1, step):
        x = LEFT + (WIDTH - LEFT - RIGHT) * second / seconds
        yield f'<text x="{x:.1f}" y="{top + 18}" text-anchor="middle">{second} s</text>'
