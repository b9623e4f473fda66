"""Makes three sounds as WAV files of 16 bits: two notes of a bell, and one that rises. Writes a sound as a tone."""

from __future__ import annotations

from math import exp, pi, sin
from pathlib import Path

from nemzhuul.command_line import Refused, WrongWords
from nemzhuul.outputs import check_output, write_file
from nemzhuul.sound.wave import linear_wave, read_sound
from nemzhuul.traces.events import FRAMES_PER_SECOND, MAX_TONE_DIGITS

USAGE = """usage: tools/sounds [--overwrite] FOLDER [SECONDS]
       tools/sounds --tone ringback|busy SOUND
makes three sounds in a folder, of one second or of SECONDS (0.02 to 8): low.wav, a note of 262 hertz; high.wav,
a note of 392 hertz; and rising.wav, a note that rises from 523 to 659 hertz. A file of one of these names with
other content is refused before anything is written, unless --overwrite is given. With --tone it prints the line `tone`
of a trace or of settings, for a WAV file of at most a second (8,000 samples a second, A-law or 16 bits)"""

TONES = ("ringback", "busy")
LOUDEST = 12_000
SOUNDS = {"low.wav": (262, 262), "high.wav": (392, 392), "rising.wav": (523, 659)}  # first and last pitch
PARTIALS = {1: 0.65, 2: 0.25, 3: 0.1}  # how loud each multiple of the pitch is
DECAY = 2.5  # a second
ATTACK, RELEASE = 0.01, 0.1  # seconds


def main(*words: str) -> str:
    if words[:1] == ("--tone",):
        return tone(*words[1:])
    may_overwrite = words[:1] == ("--overwrite",)
    words = words[may_overwrite:]
    if len(words) not in (1, 2) or words[0].startswith("-"):
        raise WrongWords
    length = seconds(*words[1:])
    sounds = {Path(words[0]) / name: linear_wave(samples(*pitches, length)) for name, pitches in SOUNDS.items()}
    others = {path: sound for path, sound in sounds.items() if not (path.is_file() and path.read_bytes() == sound)}
    for path in others:
        check_output(path, may_overwrite)
    for path, sound in others.items():
        write_file(path, sound, may_overwrite)
    return ""


def tone(kind: str = "", path: str = "", *more: str) -> str:
    """The line that gives a sound as a tone."""
    if kind not in TONES or not path or more:
        raise WrongWords
    octets = read_sound(path)
    if not 0 < 2 * len(octets) <= MAX_TONE_DIGITS:
        raise Refused(f"{path} has {len(octets):,} samples, and a tone has 1 to {MAX_TONE_DIGITS // 2:,}")
    return f"tone {kind} {octets.hex().upper()}\n"


def seconds(word: str = "1") -> float:
    try:
        length = float(word)
    except ValueError:
        raise WrongWords from None
    if not 0.02 <= length <= 8:
        raise WrongWords
    return length


def samples(first: float, last: float, length: float) -> list[int]:
    """A note whose pitch goes from one to another, with a quick attack and a slow decay."""
    made = []
    for at in range(round(length * FRAMES_PER_SECOND)):
        time = at / FRAMES_PER_SECOND
        turns = (first + (last - first) * time / length / 2) * time
        loud = min(1, time / ATTACK, (length - time) / RELEASE) * exp(-DECAY * time)
        made.append(round(LOUDEST * loud * sum(part * sin(2 * pi * n * turns) for n, part in PARTIALS.items())))
    return made
