"""The lines of a script: which words follow which, and what they name.

A phrase is words in a row. `a|b` is either word; a word in capitals is one of `KINDS`. WHO is a line, or
a channel of one; AT is a channel of a line. Both are spelled as `line 0 channel 1` or `0/1`.
"""

from __future__ import annotations

import re
from collections.abc import Callable, Iterable, Mapping, Sequence
from typing import NamedTuple, Union

from nemzhuul.command_line import Refused
from nemzhuul.signalling.q931 import USUAL_TIMERS
from nemzhuul.traces.events import MAX_MESSAGE_DIGITS, ROOMS, Slot, place_of_channel
from nemzhuul.traces.reading import DIGITS, NUMERAL

MAX_OCTETS = MAX_MESSAGE_DIGITS // 2  # of a message
MAX_CAUSE = 127

Value = Union[int, Slot, str, bytes, list[int]]
Act = Callable[..., None]  # on the values that a line names


class Kind(NamedTuple):
    """What a word of a kind looks like, and what it is called."""

    pattern: re.Pattern[str]
    name: str


class Named(NamedTuple):
    """A word of a line that names a value of a kind."""

    kind: str
    word: str


class Form(NamedTuple):
    """The words of a phrase in one spelling, and what is done for it."""

    words: list[str]
    act: Act


CAPITALS = re.compile(r"[A-Z]+")
SPELLINGS = {
    "WHO": (["line", "LINE"], ["line", "LINE", "channel", "CHANNEL"], ["SLOT"]),
    "AT": (["line", "LINE", "channel", "CHANNEL"], ["SLOT"]),
}

SLOT = re.compile(r"(0|[1-9][0-9]{0,8})/(0|[1-9][0-9]{0,8})")
LIST = re.compile(rf"(?:{NUMERAL.pattern})(?:,(?:{NUMERAL.pattern}))*")
KINDS = {
    "LINE": Kind(NUMERAL, "the number of a line"),
    "LIST": Kind(LIST, "the numbers of lines such as 2,0,1"),
    "CHANNEL": Kind(NUMERAL, "the number of a channel"),
    "SLOT": Kind(SLOT, "a slot such as 0/1"),
    "ROOM": Kind(NUMERAL, "the number of a room"),
    "COUNT": Kind(NUMERAL, "a number"),
    "CAUSE": Kind(NUMERAL, "the value of a cause"),
    "DIGITS": Kind(DIGITS, "1 to 20 digits"),
    "HEX": Kind(re.compile(rf"(?:[0-9A-Fa-f]{{2}}){{0,{MAX_OCTETS}}}"), f"at most {MAX_OCTETS} octets in hexadecimal"),
    "TIMER": Kind(re.compile("|".join(USUAL_TIMERS)), "the name of a timer such as T303"),
    "FILE": Kind(re.compile(r".+"), "the name of a file"),
}


def spellings(phrase: str) -> list[list[str]]:
    """Each row of words that a phrase allows."""
    rows: list[list[str]] = [[]]
    for word in phrase.split():
        rows = [row + more for row in rows for more in SPELLINGS.get(word, ([word],))]
    return rows


def fits(word: str, wanted: str) -> bool:
    if wanted in KINDS:
        return KINDS[wanted].pattern.fullmatch(word) is not None
    return word in wanted.split("|")


def wanted_text(wanted: str) -> str:
    """What a phrase wants at a place, in words."""
    return KINDS[wanted].name if wanted in KINDS else " or ".join(f'"{word}"' for word in wanted.split("|"))


class Phrases:
    """The phrases of a language, each with what is done for it."""

    def __init__(self, acts: Mapping[str, Act]) -> None:
        self.forms = [Form(row, act) for phrase, act in acts.items() for row in spellings(phrase)]

    def read(self, words: Sequence[str]) -> tuple[Act, list[Named]]:
        """The act that the words ask for, and what they name."""
        forms = self.forms
        for at, word in enumerate(words):
            left = [form for form in forms if at < len(form.words) and fits(word, form.words[at])]
            if not left:
                raise Refused(f'"{word}" is no word here: {wanted_at(forms, at)}')
            forms = left
        whole = [form for form in forms if len(form.words) == len(words)]
        if not whole:
            raise Refused(f"the line ends too early: {wanted_at(forms, len(words))}")
        form = whole[0]
        return form.act, [Named(kind, word) for kind, word in zip(form.words, words) if CAPITALS.fullmatch(kind)]


def wanted_at(forms: Iterable[Form], at: int) -> str:
    """Which words may be at a place, in a text."""
    wanted = dict.fromkeys(wanted_text(form.words[at]) if at < len(form.words) else "the end of the line" for form in forms)
    *some, last = wanted
    return ("it may be " + ", ".join(some) + " or " if some else "it has to be ") + last


class Values:
    """What the words of a line name, on an exchange with a number of lines."""

    def __init__(self, lines: int) -> None:
        self.lines = lines
        self.readers: dict[str, Callable[[str], Value]] = {
            "LIST": self.line_list,
            "SLOT": self.slot,
            "ROOM": self.room,
            "CAUSE": self.cause,
            "COUNT": int,
            "HEX": bytes.fromhex,
        }

    def read(self, names: Iterable[Named]) -> list[Value]:
        """The values, in order; a line with a channel behind it is a slot."""
        values: list[Value] = []
        line = 0
        for kind, word in names:
            if kind == "LINE":
                line = self.line(word)
                values.append(line)
            elif kind == "CHANNEL":
                values[-1] = Slot(line, self.channel(word))
            else:
                values.append(self.readers.get(kind, str)(word))
        return values

    def line(self, word: str) -> int:
        if int(word) >= self.lines:
            raise Refused(f"there is no line {word}: the exchange has lines 0 to {self.lines - 1}")
        return int(word)

    def line_list(self, word: str) -> list[int]:
        lines = [self.line(line) for line in word.split(",")]
        if len(set(lines)) < len(lines):
            raise Refused(f"a line is twice in {word}")
        return lines

    def slot(self, word: str) -> Slot:
        line, channel = word.split("/")
        return Slot(self.line(line), self.channel(channel))

    @staticmethod
    def channel(word: str) -> int:
        if place_of_channel(int(word)) is None:
            raise Refused(f"{word} is no bearer channel: those are 1 to 15 and 17 to 31")
        return int(word)

    @staticmethod
    def room(word: str) -> int:
        if int(word) >= ROOMS:
            raise Refused(f"there is no room {word}: rooms are 0 to {ROOMS - 1}")
        return int(word)

    @staticmethod
    def cause(word: str) -> int:
        if not 1 <= int(word) <= MAX_CAUSE:
            raise Refused(f"{word} is no value of a cause: those are 1 to {MAX_CAUSE}")
        return int(word)
