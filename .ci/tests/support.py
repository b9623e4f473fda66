"""What the tests of the tools share: a tool that runs, the examples, captures, sounds, and A-law by its formulas.

A test imports this module first: it finds the package of tools/ and the modules of .ci/. `main` runs the tests of one file.
"""

from __future__ import annotations

import contextlib
import os
import re
import signal
import struct
import subprocess
import sys
import tempfile
import unittest
from collections.abc import Iterable, Iterator, Mapping, Sequence
from pathlib import Path
from typing import IO, AnyStr, NamedTuple, TypeVar
from unittest import mock

TOP = Path(__file__).resolve().parents[2]
sys.path[:0] = [str(TOP / "tools"), str(TOP / ".ci")]
sys.dont_write_bytecode = True
from nemzhuul.programs.program import misfit  # noqa: E402

signal.signal(signal.SIGINT, signal.default_int_handler)  # a shell has its background commands ignore it, and so their tools
signal.signal(signal.SIGHUP, signal.SIG_DFL)  # `nohup` has it ignored, and so the tools

EXAMPLES = TOP / "examples"
WANTED = TOP / "tools" / "wanted"
LACK = misfit()  # why the proved program is not the one of these sources
IDLE = 0xD5
PATIENCE = 30  # seconds until an endpoint gets a line
CONVERSATION_FRAMES = 16004

PAIRED = ("calls", "pcap", "moves", "page", "records")  # the tools that take a trace and its report
TRACES = [trace for trace in sorted(EXAMPLES.glob("*.trace")) if "\nlink " not in trace.read_text()]
LINKED = EXAMPLES / "call_over_a_link.trace"

METERS = re.compile(r"^[^:]*: [0-9]+ lines of meters passed over\n", re.MULTILINE)  # what a tool says of a report with them

Marked = TypeVar("Marked")


def slow(test: Marked) -> Marked:
    """Marks a test, or each test of a class, that takes seconds. The runner begins with these, each in a process."""
    test.is_slow = True  # type: ignore[attr-defined]
    return test


needs_program = unittest.skipIf(LACK, "the program is not built")


def main() -> None:
    """Runs the tests of the file that is the program, or those that its arguments name."""
    unittest.main(verbosity=0)


class InFolder(unittest.TestCase):
    """Tests with a temporary folder."""

    folder: Path

    def setUp(self) -> None:
        folder = tempfile.TemporaryDirectory()
        self.addCleanup(folder.cleanup)
        self.folder = Path(folder.name)


# ---- tools, traces and reports


class Ran(NamedTuple):
    """What a tool did: its exit status, its output, and what it said of its work."""

    status: int
    output: bytes
    said: str


def tool(name: str, *words: object, folder: Path = EXAMPLES) -> Ran:
    """Runs a tool on these words; what it says of lines of meters is left out."""
    done = subprocess.run(
        command(name, *words),
        capture_output=True,
        env=environment(),
        cwd=folder,
        check=False,
    )
    return Ran(done.returncode, done.stdout, METERS.sub("", done.stderr.decode()))


def command(name: str, *words: object) -> list[str]:
    """The command of a tool with these words."""
    return [str(TOP / "tools" / name), *map(str, words)]


def environment() -> Mapping[str, str]:
    """The environment of a tool that leaves no compiled files."""
    return {**os.environ, "PYTHONDONTWRITEBYTECODE": "1"}


def stream(pipe: IO[AnyStr] | None) -> IO[AnyStr]:
    """A stream of a process that was started with a pipe for it."""
    assert pipe is not None
    return pipe


@contextlib.contextmanager
def silence() -> Iterator[None]:
    """Has the package say nothing of lines of meters."""
    with mock.patch("nemzhuul.traces.runs.say"):
        yield


def report_of(trace: Path) -> Path:
    return trace.with_suffix(".report")


def is_refused(trace: Path) -> bool:
    return report_of(trace).read_text().startswith("refused")


class Signal(NamedTuple):
    """A message, or a frame of a data link, of a run."""

    line: int
    is_sent: bool
    octets: bytes


def signals(trace: Path) -> Iterator[Signal]:
    """The messages, and frames of data links, of a run whose report is in the order of the file."""
    events = [
        line
        for line in trace.read_text().splitlines()
        if line.split(" ")[0] in ("nail", "seat", "free", "M", "L", "up", "down", "restart", "F")
    ]
    replies = [line for line in report_of(trace).read_text().splitlines() if line[0].isdigit()]
    for event, reply in zip(events, replies):
        if event.startswith(("M", "L")):
            _, line, *digits = event.split()
            yield Signal(int(line), False, bytes.fromhex("".join(digits)))
        words = reply.split()
        for before, word in zip(words, words[1:]):
            # What a line of a frame's report has without `send` are the octets of slots.
            if ":" in word and (before == "send" or not event.startswith("F")):
                to, octets = word.split(":")
                yield Signal(int(to), True, bytes.fromhex(octets))


# ---- captures


def packets(capture: bytes) -> Iterator[tuple[int, bytes]]:
    """The packets of a capture file: time in microseconds, and octets."""
    magic, major, minor, _, _, _, link_type = struct.unpack(">IHHiIII", capture[:24])
    assert (magic, major, minor, link_type) == (0xA1B2C3D4, 2, 4, 177)
    at = 24
    while at < len(capture):
        seconds, rest, length, whole = struct.unpack(">IIII", capture[at : at + 16])
        assert length == whole
        yield seconds * 1_000_000 + rest, capture[at + 16 : at + 16 + length]
        at += 16 + length


def of_packets(
    some: Iterable[bytes], link: int = 177, order: str = ">", magic: int = 0xA1B2C3D4, times: Sequence[int] = ()
) -> bytes:
    """A capture of these packets, at these times of microseconds."""
    parts = [struct.pack(order + "IHHiIII", magic, 2, 4, 0, 0, 65_535, link)]
    for at, packet in enumerate(some):
        seconds, rest = divmod(times[at] if times else 0, 1_000_000)
        parts.append(struct.pack(order + "IIII", seconds, rest, len(packet), len(packet)) + packet)
    return b"".join(parts)


def block(order: str, kind: int, body: bytes) -> bytes:
    length = len(body) + -len(body) % 4 + 12
    return struct.pack(order + "II", kind, length) + body.ljust(length - 12, b"\0") + struct.pack(order + "I", length)


def of_blocks(
    some: Iterable[tuple[int, int, bytes]],
    link: int = 177,
    order: str = "<",
    resolution: int | None = None,
    is_simple: bool = False,
) -> bytes:
    """A pcapng capture of these packets, each with its time in ticks and its interface."""
    option = b"" if resolution is None else struct.pack(order + "HHBxxxHH", 9, 1, resolution, 0, 0)
    parts = [block(order, 0x0A0D0D0A, struct.pack(order + "IHHq", 0x1A2B3C4D, 1, 0, -1))]
    parts.append(block(order, 1, struct.pack(order + "HHI", link, 0, 0) + option))
    for time, interface, packet in some:
        head = struct.pack(order + "IIIII", interface, time >> 32, time & 0xFFFFFFFF, len(packet), len(packet))
        parts.append(block(order, 3, head[16:] + packet) if is_simple else block(order, 6, head + packet))
    return b"".join([*parts, block(order, 5, bytes(16))])


def sequence_of(octets: bytes) -> bytes:
    """The check sequence of a frame: the remainder by x^16 + x^12 + x^5 + 1 of its bits, the first of which is the lowest
    bit of its first octet. The first 16 bits are inverted, and so is the remainder."""
    bits = [octet >> at & 1 for octet in octets for at in range(8)] + [0] * 16
    bits[:16] = [1 - bit for bit in bits[:16]]
    for at in range(len(bits) - 16):
        if bits[at]:
            for power in (16, 12, 5, 0):
                bits[at + 16 - power] ^= 1
    rest = [1 - bit for bit in bits[-16:]]
    return bytes(sum(bit << at for at, bit in enumerate(rest[first : first + 8])) for first in (0, 8))


# ---- sounds


def octet_of_sample(sample: int) -> int:
    """The octet of A-law for a sample of 16 bits: sign, segment and interval, by the formulas of G.711."""
    magnitude = min(abs(sample) // 8, 4095)
    segment = max(0, magnitude.bit_length() - 5)
    interval = magnitude >> max(1, segment) & 15
    return ((sample >= 0) << 7 | segment << 4 | interval) ^ 0x55


def value_of_octet(octet: int) -> int:
    """The value in the middle of an octet's interval, with its sign."""
    character = octet ^ 0x55
    segment, interval = character >> 4 & 7, character & 15
    size = 2 * interval + 1 if segment == 0 else 2 * interval + 33 << segment - 1
    return size if character & 0x80 else -size


def octet_of_value(value: int) -> int:
    return octet_of_sample(8 * value)


def wav(samples: bytes, tag: int = 1, bits: int = 16, channels: int = 1, rate: int = 8000, more: bytes = b"") -> bytes:
    """A WAV file, with a chunk in front that nobody asked for."""
    layout = struct.pack("<HHIIHH", tag, channels, rate, rate * bits // 8, bits // 8, bits) + more
    parts = b"WAVE" + b"LIST" + struct.pack("<I", 3) + b"abc\0"
    for name, content in ((b"fmt ", layout), (b"data", samples)):
        parts += name + struct.pack("<I", len(content)) + content
    return b"RIFF" + struct.pack("<I", len(parts)) + parts
