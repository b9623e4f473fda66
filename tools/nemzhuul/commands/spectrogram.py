"""Draws which pitches recordings have, second by second, as SVG: a spectrogram of each."""

from __future__ import annotations

from collections.abc import Sequence

from nemzhuul.command_line import Refused, WrongWords
from nemzhuul.pictures.spectrograms import MAX_SECONDS, WINDOW, Recording, picture
from nemzhuul.sound.wave import read_sound
from nemzhuul.traces.events import FRAMES_PER_SECOND
from nemzhuul.traces.reading import numeral

USAGE = f"""usage: tools/spectrogram [--seconds N] [--title TEXT] SOUND [[--title TEXT] SOUND ..] >PICTURE
draws the pitches from 150 to 850 hertz of WAV files, one below the other, as SVG: A-law or 16 bits, 8,000 samples a
second. The darker a place is, the louder is that pitch, in steps of 9 dB.
    --seconds N      draws the first N seconds, 1 to {MAX_SECONDS} ({MAX_SECONDS})
    --title TEXT     the title of the sound that follows; without one it is the path"""


def main(*words: str) -> str:
    seconds = MAX_SECONDS
    if words[:1] == ("--seconds",):
        seconds = numeral("".join(words[1:2])) or 0
        words = words[2:]
    recordings = read_recordings(words, seconds * FRAMES_PER_SECOND)
    if not recordings or not 1 <= seconds <= MAX_SECONDS:
        raise WrongWords
    return picture(recordings)


def read_recordings(words: Sequence[str], most: int) -> list[Recording]:
    """The first samples of each sound, with its title."""
    found: list[Recording] = []
    left = list(words)
    while left:
        path = left.pop(0)
        title = path
        if path == "--title" and len(left) >= 2:
            title, path = left.pop(0), left.pop(0)
        if path.startswith("--"):
            raise WrongWords
        octets = read_sound(path)
        if len(octets) < WINDOW:
            raise Refused(f"{path} has {len(octets):,} samples, and a picture needs {WINDOW:,}")
        found.append(Recording(title, octets[:most]))
    return found
