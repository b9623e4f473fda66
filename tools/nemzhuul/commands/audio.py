"""Writes what slots sent in a run as a WAV file of G.711 A-law, one octet a frame and one channel a slot."""

from __future__ import annotations

from collections.abc import Iterable, Mapping, Sequence
from typing import NamedTuple

from nemzhuul.command_line import NAME, Refused, WrongWords, say
from nemzhuul.sound.wave import a_law_wave
from nemzhuul.traces.events import IDLE, place_of_channel
from nemzhuul.traces.reading import numeral
from nemzhuul.traces.runs import read_report

USAGE = """usage: tools/audio REPORT LINE CHANNEL [LINE CHANNEL ..] >SOUND
writes what a channel (1 to 15, 17 to 31) of a line (0 to 31) was sent, as a WAV file of G.711 A-law;
several slots become the channels of one file, in their order. A line that no frame of the report has is refused"""

LINES = 32


class Place(NamedTuple):
    """A place of a line."""

    line: int
    number: int


def main(report: str = "", *words: str) -> bytes:
    slots = list(zip(words[::2], words[1::2]))
    if not slots or len(words) % 2:
        raise WrongWords
    places = [place(*slot) for slot in slots]
    channels, lines = sent((reply.octets or {} for reply in read_report(report) if reply.frame is not None), places)
    for of_slot in places:
        if of_slot.line not in lines:
            raise Refused(f"{report} has no octets of line {of_slot.line}: it was sent idle octets alone, or there is no such line")
    for (line, channel), octets in zip(slots, channels):
        if octets == bytes([IDLE]) * len(octets):
            say(f"{NAME}: {line}/{channel} was sent idle octets alone")
    return a_law_wave(channels)


def place(line: str, channel: str) -> Place:
    """The place of a channel that two words name."""
    of_line, of_channel = numeral(line), numeral(channel)
    number = None if of_channel is None else place_of_channel(of_channel)
    if of_line is None or of_line >= LINES or number is None:
        raise WrongWords
    return Place(of_line, number)


def sent(frames: Iterable[Mapping[int, bytes]], places: Sequence[Place]) -> tuple[list[bytes], set[int]]:
    """The octet of each frame for each place, and the lines that frames have. Another line was sent idle octets."""
    channels = [bytearray() for _ in places]
    lines: set[int] = set()
    for octets in frames:
        for (line, number), channel in zip(places, channels):
            row = octets.get(line)
            channel.append(IDLE if row is None else row[number])
            if row is not None:
                lines.add(line)
    return list(map(bytes, channels)), lines
