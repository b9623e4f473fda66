"""Reads the lines of traces and of reports, as docs/FORMATS.md says they are written."""

from __future__ import annotations

import re
from collections.abc import Callable, Iterable, Sequence
from pathlib import Path
from typing import NamedTuple, Optional

from nemzhuul.command_line import Refused
from nemzhuul.signalling import lapd, q931
from nemzhuul.traces.events import (
    FRAME_DIGITS,
    MAX_BYTES,
    MAX_CHANGES,
    MAX_EVENTS,
    MAX_LINK_DIGITS,
    MAX_MESSAGE_DIGITS,
    MAX_NUMBERS,
    MAX_TONE_DIGITS,
    ROOMS,
    Arrival,
    Event,
    Frame,
    Free,
    Link,
    LinkArrival,
    Moved,
    Nail,
    Octets,
    Reply,
    Restart,
    Seat,
    Sent,
    Sizes,
    Slot,
    Target,
    place_of_channel,
)

NUMERAL = re.compile(r"0|[1-9][0-9]{0,8}")
DIGITS = re.compile(r"[0-9]{1,20}")
FRAME_LINE = re.compile(rf"F((?: [0-9]{{1,2}}:[0-9A-Fa-f]{{{FRAME_DIGITS}}})*)")  # as most are spelled
MAX_KNOWN = 1024  # rows of lines of frames whose numbers are known to be good


class LineError(Exception):
    """The first check that fails in a line of a trace: its reason, what is wrong, and in which word, 0 being the first."""

    def __init__(self, reason: str, said: str, word: int = 0) -> None:
        super().__init__(reason)
        self.said = said
        self.word = word


def numeral(word: str) -> int | None:
    """The value of a numeral; None for any other word."""
    return int(word) if NUMERAL.fullmatch(word) else None


def below(word: str, bound: int, error: LineError) -> int:
    value = numeral(word)
    if value is None or value >= bound:
        raise error
    return value


def hexadecimal(word: str, least: int, most: int, at: int) -> bytes:
    """The octets of the word at a place, with n digits."""
    if re.search("[^0-9A-Fa-f]", word):
        raise LineError("hex", "octets are hexadecimal digits, 0 to 9 and A to F", at)
    if len(word) % 2:
        raise LineError("hex", f"an octet has two digits, and there are {len(word)}", at)
    if not least <= len(word) <= most:
        wanted = f"{least}" if least == most else f"{least} to {most}"
        raise LineError("length", f"there are {len(word)} digits, and {wanted} may be", at)
    return bytes.fromhex(word)


class Form(NamedTuple):
    """A kind of line of a trace: what is done for it, and how many words come after the first."""

    act: Callable[..., Optional[Event]]
    counts: range


class WrongLine(NamedTuple):
    """The first line of a trace that fails, by its number from 1, and why."""

    number: int
    error: LineError

    def __str__(self) -> str:
        return f"line {self.number}, {self.error}"


class TraceReader:
    """Takes the lines of a trace one by one, and gathers what they say besides events, which it counts.

    Only a trace that is followed has data links.
    """

    def __init__(self, is_followed: bool = False) -> None:
        self.has_header = False
        self.sizes = Sizes(0, 0, 0)
        self.numbers: dict[str, Target] = {}
        self.tones: dict[str, bytes] = {}
        self.timers: dict[str, int] = {}
        self.linked: list[int] = []
        self.known_timers = {**q931.USUAL_TIMERS, **(lapd.USUAL_TIMERS if is_followed else {})}
        self.max_events: float = float("inf") if is_followed else MAX_EVENTS
        self.max_changes: float = float("inf") if is_followed else MAX_CHANGES
        self.count = 0  # of the events so far
        self.frames = 0  # of them
        self.changes = 0
        self._known = {""}  # the numbers of the lines of frames that were checked
        self.kinds = {
            "number": Form(self.number, range(3, MAX_BYTES)),
            "tone": Form(self.tone, range(2, 3)),
            "timer": Form(self.timer, range(2, 3)),
            "nail": Form(self.nail, range(2, 3)),
            "seat": Form(self.seat, range(2, 3)),
            "free": Form(self.free, range(1, 2)),
            "M": Form(self.message, range(1, 3)),
            "up": Form(self.up, range(1, 2)),
            "down": Form(self.down, range(1, 2)),
            "restart": Form(self.restart, range(1, 2)),
            "F": Form(self.frame, range(0, MAX_BYTES)),
            "sync": Form(self.sync, range(0, 1)),
            "change": Form(self.change, range(0, 1)),
        }
        if is_followed:
            self.kinds |= {"link": Form(self.link, range(1, 2)), "L": Form(self.link_frame, range(1, 3))}

    def take(self, line: str) -> Event | None:
        """Takes one line that is neither a comment nor blank. Returns its event, if it has one."""
        if not self.has_header:
            self.sizes = header(line)
            self.has_header = True
            return None
        event = self._known_frame(line) or self._event(line)
        if event is not None:
            if self.count == self.max_events:
                raise LineError("limit", f"a trace has at most {MAX_EVENTS:,} events")
            self.count += 1
            self.frames += isinstance(event, Frame)
        return event

    def _known_frame(self, line: str) -> Frame | None:
        """The frame of a line with octets for the same lines, in their order, as one before."""
        match = FRAME_LINE.fullmatch(line)
        if match is None:
            return None
        octets = Octets(match[1])
        return Frame(octets) if octets.names() in self._known else None

    def _event(self, line: str) -> Event | None:
        if not (line.isascii() and line.isprintable()):
            raise LineError("word", "there is an octet that is no printable character of ASCII")
        first, *words = line.split()
        if first not in self.kinds:
            raise LineError("word", f'no line begins with "{first}"')
        if first in ("number", "tone", "timer", "link") and self.count:
            raise LineError("word", f"a line `{first}` comes before the first event")
        if first in ("M", "up", "down") and words and numeral(words[0]) in self.linked:
            raise LineError("slot", f"line {words[0]} has a data link: its messages come in frames, lines `L`", 1)
        act, counts = self.kinds[first]
        if len(words) not in counts:
            few = len(words) < counts.start
            said = f"`{first}` has {counts.start} to {counts.stop - 1} words after it".replace(" 0 to 0 ", " no ")
            said = said.replace(f" to {MAX_BYTES - 1} ", " or more ")
            raise LineError("word", f"too {'few' if few else 'many'} words: {said}", len(words) if few else counts.stop)
        return act(*words)

    def line(self, word: str, at: int) -> int:
        lines = self.sizes.external
        return below(word, lines, LineError("slot", f"the exchange has lines 0 to {lines - 1}", at))

    def slot(self, word: str, at: int) -> Slot:
        line, slash, channel = word.partition("/")
        number = numeral(channel)
        if not slash or number is None or place_of_channel(number) is None:
            raise LineError("slot", "a slot is a line, / and a channel, 1 to 15 or 17 to 31", at)
        return Slot(self.line(line, at), number)

    def lines(self, words: Sequence[str]) -> tuple[int, ...]:
        """The lines of a list, each once."""
        lines: list[int] = []
        for at, word in enumerate(words, start=3):
            line = self.line(word, at)
            if line in lines:
                raise LineError("slot", f"the list has line {line} before", at)
            lines.append(line)
        return tuple(lines)

    def number(self, digits: str, kind: str, target: str, *others: str) -> None:
        if others and kind != "lines":
            raise LineError("word", "too many words: `number` has 3 words after it, or more if the second is `lines`", 4)
        if not DIGITS.fullmatch(digits):
            raise LineError("number", "a number has 1 to 20 digits 0 to 9", 1)
        if kind == "line":
            leads_to = Target(lines=(self.line(target, 3),))
        elif kind == "room":
            leads_to = Target(room=room(target, 3))
        elif kind == "lines":
            leads_to = Target(lines=self.lines((target, *others)))
        else:
            raise LineError("word", "a number leads to a `line`, to `lines` or to a `room`", 2)
        for held in self.numbers:
            if digits.startswith(held) or held.startswith(digits):
                raise LineError("prefix", f"number {digits} equals, begins or continues number {held}", 1)
        if len(self.numbers) == MAX_NUMBERS:
            raise LineError("limit", f"a trace has at most {MAX_NUMBERS} numbers")
        self.numbers[digits] = leads_to

    def tone(self, kind: str, octets: str) -> None:
        if kind not in ("ringback", "busy"):
            raise LineError("word", "a tone is `ringback` or `busy`", 1)
        if kind in self.tones:
            raise LineError("word", f"the tone `{kind}` is given already", 1)
        self.tones[kind] = hexadecimal(octets, 2, MAX_TONE_DIGITS, 2)

    def timer(self, name: str, frames: str) -> None:
        if name not in self.known_timers:
            raise LineError("word", f"a timer is {', '.join(self.known_timers)}", 1)
        if name in self.timers:
            raise LineError("word", f"the timer {name} is given already", 1)
        count = numeral(frames)
        if not count:
            raise LineError("number", "a timer runs for 1 to 999,999,999 frames", 2)
        self.timers[name] = count

    def nail(self, first: str, second: str) -> Nail:
        nail = Nail(self.slot(first, 1), self.slot(second, 2))
        if nail.first == nail.second:
            raise LineError("slot", "a slot is nailed to another one", 2)
        return nail

    def seat(self, slot: str, number: str) -> Seat:
        return Seat(self.slot(slot, 1), room(number, 2))

    def free(self, slot: str) -> Free:
        return Free(self.slot(slot, 1))

    def link(self, line: str) -> None:
        if self.line(line, 1) in self.linked:
            raise LineError("slot", f"line {line} has a data link already", 1)
        self.linked.append(int(line))

    def link_frame(self, line: str, octets: str = "") -> LinkArrival:
        if self.line(line, 1) not in self.linked:
            raise LineError("slot", f"line {line} has no data link: its messages are lines `M`", 1)
        return LinkArrival(int(line), hexadecimal(octets, 0, MAX_LINK_DIGITS, 2))

    def message(self, line: str, octets: str = "") -> Arrival:
        return Arrival(self.line(line, 1), hexadecimal(octets, 0, MAX_MESSAGE_DIGITS, 2))

    def up(self, line: str) -> Link:
        return Link(self.line(line, 1), is_up=True)

    def down(self, line: str) -> Link:
        return Link(self.line(line, 1), is_up=False)

    def restart(self, line: str) -> Restart:
        return Restart(self.line(line, 1))

    def frame(self, *parts: str) -> Frame:
        lines: set[int] = set()
        for at, part in enumerate(parts, start=1):
            word, colon, digits = part.partition(":")
            if not colon:
                raise LineError("slot", "a line of a frame is its number, : and 60 digits", at)
            line = self.line(word, at)
            if line in lines:
                raise LineError("slot", f"line {line} is in this frame already", at)
            lines.add(line)
            hexadecimal(digits, FRAME_DIGITS, FRAME_DIGITS, at)
        octets = Octets("".join(f" {part}" for part in parts))
        if len(self._known) < MAX_KNOWN:
            self._known.add(octets.names())
        return Frame(octets)

    def sync(self) -> None:
        pass

    def change(self) -> None:
        if self.changes == self.max_changes:
            raise LineError("limit", f"a trace has at most {MAX_CHANGES:,} changes")
        self.changes += 1


def room(word: str, at: int) -> int:
    return below(word, ROOMS, LineError("number", f"rooms are 0 to {ROOMS - 1}", at))


def header(line: str) -> Sizes:
    """The sizes in the header."""
    words = [word for word in line.split(" ") if word]
    if words[:2] != ["exchange", "1"] or len(words) != 5:
        raise LineError("header", "the first line is `exchange 1 LINES BRIDGES PROCESSORS`")
    bounds = (("external lines", 1, 32), ("bridge lines", 0, 2), ("call processors", 1, 8))
    for at, (word, (what, least, most)) in enumerate(zip(words[2:], bounds), start=2):
        if numeral(word) not in range(least, most + 1):
            raise LineError("header", f"an exchange has {least} to {most} {what}", at)
    return Sizes(*map(int, words[2:]))


def lines_of(path: str | Path) -> list[str]:
    """The lines of a text, each octet as a character."""
    content = Path(path).read_bytes()
    if len(content) > MAX_BYTES:
        raise Refused(f"{path} is no trace: line 0, limit: it has over {MAX_BYTES:,} bytes")
    lines = content.decode("latin-1").split("\n")
    if lines[-1] == "":
        lines.pop()
    return lines


def is_said(line: str) -> bool:
    """Whether a line of a trace is neither a comment nor blank."""
    return not line.startswith("#") and bool(line.strip(" "))


def take_lines(reader: TraceReader, lines: Iterable[str], events: list[Event] | None = None) -> WrongLine | None:
    """Has a reader take the lines of a trace, and gathers their events. Returns the first that fails, if any does."""
    number = 0
    for number, line in enumerate(lines, start=1):
        if not is_said(line):
            continue
        try:
            event = reader.take(line)
        except LineError as error:
            return WrongLine(number, error)
        if event is not None and events is not None:
            events.append(event)
    return None if reader.has_header else no_header(number)


def no_header(lines: int) -> WrongLine:
    """What is wrong with a trace of lines that are all comments or blank."""
    return WrongLine(lines + 1, LineError("header", "no line says the sizes of the exchange"))


# ---- reports

COUNT = "(0|[1-9][0-9]{0,9})"
PLAIN = re.compile(f"{COUNT} (busy|noport|freed|notnailed)")
JOINED = re.compile(f"{COUNT} (granted|seated) {COUNT} {COUNT}")
SIGNAL = "[0-9]{1,2}:(?:[0-9A-F]{2})+"
MESSAGE = re.compile(f"{COUNT} message(?: moved {COUNT} {COUNT})?((?: {SIGNAL})*)")
LINK = re.compile(f"{COUNT} link(?: (took|up|down))?(?: moved {COUNT} {COUNT})?((?: {SIGNAL})*)")
METER = re.compile(f"call [0-9/]+ (?:[0-9/]+|room [0-9]+)(?: {COUNT}){{3}}|(?:peg|holding) [0-9]+ [0-9]+")
SENDS = f"((?: send {SIGNAL})*)"
TURN = f"(?: (up|down) ([0-9]{{1,2}}){SENDS})?"  # of a data link
NAMED_ROW = f" (?:0|[1-9][0-9]?):[0-9A-F]{{{FRAME_DIGITS}}}"
FRAME = re.compile(f"{COUNT} frame {COUNT}{SENDS}{TURN}((?:{NAMED_ROW})*)")
REFUSAL = re.compile(r"refused ([0-9]+ [a-z]+|words)")


def read_parts(text: str) -> tuple[Sent, ...]:
    """What is sent by ` L:HEX ..`."""
    words = (word.split(":") for word in text.split())
    return tuple(Sent(int(line), bytes.fromhex(digits)) for line, digits in words)


def read_moved(there: str | None, back: str | None) -> Moved | None:
    """The moved paths of a line of a report, if it has them."""
    return None if there is None or back is None else Moved(int(there), int(back))


def reply(line: str) -> Reply | None:
    """What a line of a report says; None where it is no such line."""
    if match := FRAME.fullmatch(line):
        event, frame, sent, told, turned, more, octets = match.groups(default="")
        signals = read_parts((sent + more).replace(" send ", " ")) if sent or more else ()
        turn = (told, int(turned)) if told else (None, None)
        return Reply(int(event), "frame", None, signals, int(frame), Octets(octets), *turn)
    if match := PLAIN.fullmatch(line):
        event, word = match.groups()
        return Reply(int(event), word)
    if match := JOINED.fullmatch(line):
        event, word, there, back = match.groups()
        return Reply(int(event), word, read_moved(there, back))
    if match := MESSAGE.fullmatch(line):
        event, there, back, sent = match.groups()
        return Reply(int(event), "message", read_moved(there, back), read_parts(sent))
    if match := LINK.fullmatch(line):
        event, told, there, back, sent = match.groups()
        return Reply(int(event), "link", read_moved(there, back), read_parts(sent), told=told)
    return None


WORDS_OF: dict[type, tuple[str, ...]] = {
    Nail: ("granted", "busy"),
    Seat: ("seated", "busy", "noport"),
    Free: ("freed", "notnailed"),
    Arrival: ("message",),
    Link: ("message",),
    Restart: ("message",),
    LinkArrival: ("link",),
    Frame: ("frame",),
}
