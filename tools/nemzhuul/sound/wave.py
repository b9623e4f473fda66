"""Reads and writes WAV files of 8,000 samples a second: A-law of G.711, and 16 bits where it reads."""

from __future__ import annotations

import array
import struct
import sys
from collections.abc import Iterator, Sequence
from pathlib import Path
from typing import NamedTuple

from nemzhuul.command_line import Refused
from nemzhuul.sound.alaw import octet_of
from nemzhuul.traces.events import FRAMES_PER_SECOND

LINEAR = 1  # the format tags
A_LAW = 6
EXTENSIBLE = 0xFFFE
TAG_AT = 24  # where the tag of an extensible format is


class Chunk(NamedTuple):
    """A part of a RIFF file."""

    name: bytes
    content: bytes


def read_sound(path: str | Path) -> bytes:
    """The octets of A-law that a WAV file holds, one to a frame."""
    content = Path(path).read_bytes()
    if content[:4] != b"RIFF" or content[8:12] != b"WAVE":
        raise Refused(f"{path} is no WAV file")
    parts = {part.name: part.content for part in chunks(path, content)}
    if len(parts.get(b"fmt ", b"")) < 16 or b"data" not in parts:
        raise Refused(f"{path} has no format or no data")
    tag = format_tag(path, parts[b"fmt "])
    data = parts[b"data"]
    if tag == A_LAW:
        return data
    samples = array.array("h", data[: len(data) // 2 * 2])
    if sys.byteorder == "big":
        samples.byteswap()
    return bytes(map(octet_of, samples))


def chunks(path: str | Path, content: bytes) -> Iterator[Chunk]:
    """Yields the chunks; one has an octet more if its length is odd."""
    at = 12
    while at + 8 <= len(content):
        name, length = struct.unpack_from("<4sI", content, at)
        if at + 8 + length > len(content):
            part = name.decode("latin-1").strip()
            raise Refused(f"{path} is cut short: {len(content) - at - 8} of {length} octets of {part} are there")
        yield Chunk(name, content[at + 8 : at + 8 + length])
        at += 8 + length + length % 2


def format_tag(path: str | Path, layout: bytes) -> int:
    """The tag of a format that is read here: one channel of 8,000 samples a second, A-law or 16 bits."""
    tag: int
    tag, channels, rate, _, _, bits = struct.unpack_from("<HHIIHH", layout)
    if tag == EXTENSIBLE and len(layout) >= TAG_AT + 2:
        (tag,) = struct.unpack_from("<H", layout, TAG_AT)
    if (tag, bits) not in ((A_LAW, 8), (LINEAR, 16)):
        raise Refused(f"{path} has format tag {tag} with {bits} bits, and is neither A-law nor of 16 bits")
    if channels != 1:
        raise Refused(f"{path} has {channels} channels, and not 1")
    if rate != FRAMES_PER_SECOND:
        raise Refused(f"{path} has {rate} samples a second, and not {FRAMES_PER_SECOND}")
    return tag


def a_law_wave(channels: Sequence[bytes]) -> bytes:
    """A WAV file of A-law with these channels, which are equally long."""
    count = len(channels)
    layout = struct.pack("<HHIIHHH", A_LAW, count, FRAMES_PER_SECOND, FRAMES_PER_SECOND * count, count, 8, 0)
    data = bytes(octet for samples in zip(*channels) for octet in samples)
    length = chunk(b"fact", struct.pack("<I", len(channels[0])))
    return riff(chunk(b"fmt ", layout) + length + chunk(b"data", data))


def linear_wave(samples: Sequence[int]) -> bytes:
    """A WAV file of one channel of samples of 16 bits."""
    layout = struct.pack("<HHIIHH", LINEAR, 1, FRAMES_PER_SECOND, FRAMES_PER_SECOND * 2, 2, 16)
    return riff(chunk(b"fmt ", layout) + chunk(b"data", struct.pack(f"<{len(samples)}h", *samples)))


def riff(parts: bytes) -> bytes:
    return chunk(b"RIFF", b"WAVE" + parts)


def chunk(name: bytes, content: bytes) -> bytes:
    """A chunk of a RIFF file: its name, its length, its content, and one octet more where that is odd."""
    return name + struct.pack("<I", len(content)) + content + bytes(len(content) % 2)
