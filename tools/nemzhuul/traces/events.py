"""The events of a trace and the replies of a report, and the numbers and limits of the exchange that they share."""

from __future__ import annotations

from collections.abc import Iterator, Mapping
from dataclasses import dataclass
from typing import NamedTuple, Union

IDLE = 0xD5
PLACES = 30
CHANNELS = (*range(1, 16), *range(17, 32))  # of a line, by their places
FRAMES_PER_SECOND = 8000

ROOMS = 64

MAX_BYTES = 67_108_864
MAX_EVENTS = 65_535
MAX_CHANGES = 65_535
MAX_NUMBERS = 256
MAX_MESSAGE_DIGITS = 520
MAX_LINK_DIGITS = 530  # of a frame of a data link
FRAME_DIGITS = 2 * PLACES
MAX_TONE_DIGITS = 16_000


def place_of_channel(channel: int) -> int | None:
    """The place of a bearer channel among the thirty of its line; None for a slot without one."""
    if 1 <= channel <= 15:
        return channel - 1
    if 17 <= channel <= 31:
        return channel - 2
    return None


@dataclass(frozen=True, order=True)
class Slot:
    line: int
    channel: int

    def __str__(self) -> str:
        return f"{self.line}/{self.channel}"


class Nail(NamedTuple):
    first: Slot
    second: Slot


class Free(NamedTuple):
    slot: Slot


class Seat(NamedTuple):
    slot: Slot
    room: int


@dataclass(frozen=True)
class Received:
    """Octets arrive on a line."""

    line: int
    octets: bytes


class Arrival(Received):
    """A message arrives on a line."""


class LinkArrival(Received):
    """A frame arrives on the data link of a line."""


@dataclass(frozen=True)
class Link:
    """The data link of a line goes up or down."""

    line: int
    is_up: bool


@dataclass(frozen=True)
class Restart:
    """The exchange restarts a line."""

    line: int


class Octets(Mapping[int, bytes]):
    """The octets of a frame by line, from a text ` L:HEX ..` that was checked. A row is decoded when it is looked at."""

    __slots__ = ("text", "_names")

    def __init__(self, text: str = "") -> None:
        self.text = text
        self._names: str | None = None

    def __getitem__(self, line: int) -> bytes:
        name = f" {line}:"
        at = self.text.find(name)
        if at < 0:
            raise KeyError(line)
        return bytes.fromhex(self.text[at + len(name) : at + len(name) + FRAME_DIGITS])

    def __iter__(self) -> Iterator[int]:
        return iter(map(int, self.names().split()))

    def __len__(self) -> int:
        return self.text.count(":")

    def names(self) -> str:
        """The lines that have octets, as the words of a text."""
        if self._names is None:
            first, *parts = self.text.split(":")
            self._names = first + "".join([part[FRAME_DIGITS:] for part in parts])
        return self._names


@dataclass(frozen=True)
class Frame:
    """The octets that arrive in a frame, by line."""

    octets: Mapping[int, bytes]


Event = Union[Nail, Seat, Free, Arrival, Link, Restart, LinkArrival, Frame]


class Sizes(NamedTuple):
    """The sizes in the header of a trace."""

    external: int  # lines
    bridges: int
    processors: int


class Target(NamedTuple):
    """What a number leads to: the first of some lines that has an idle channel, or a room."""

    lines: tuple[int, ...] = ()
    room: int | None = None


@dataclass(frozen=True)
class Trace:
    """What a trace has above its first event."""

    sizes: Sizes
    numbers: Mapping[str, Target]  # by the digits
    timers: Mapping[str, int]  # frames by name; a timer that isn't given has its usual value
    linked: tuple[int, ...] = ()  # the lines with a data link
    events: tuple[Event, ...] = ()  # of settings; a run is read event by event


class Moved(NamedTuple):
    """How many live paths an event moved in each direction."""

    there: int
    back: int


class Sent(NamedTuple):
    """A message that is sent on a line, or a frame if the line has a data link."""

    line: int
    octets: bytes


@dataclass(frozen=True)
class Reply:
    """One line of a report; what the word does not have is None or empty."""

    event: int
    word: str
    moved: Moved | None = None
    sent: tuple[Sent, ...] = ()
    frame: int | None = None
    octets: Mapping[int, bytes] | None = None  # the octets sent in a frame, by line
    told: str | None = None  # what a data link indicates: `took`, `up` or `down`
    turned: int | None = None  # the line of a data link that is up or down after its turn in a frame


class Step(NamedTuple):
    """An event, and its line of the report."""

    event: Event
    reply: Reply
