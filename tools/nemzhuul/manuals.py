"""Manual pages and completions of the tools, made from their usage texts."""

from __future__ import annotations

import re
import textwrap
from collections.abc import Iterator, Sequence
from dataclasses import dataclass

from nemzhuul import __version__

USAGE_INDENT = " " * len("usage: ")  # of each further line of a synopsis
ITEM = re.compile(r"(-.*?)  +(.*)")  # an option and its meaning
INLINE = re.compile(r"`([^`]+)`|(?<![\w-])(--[a-z]+)")
ESCAPES = {"\\": r"\e", "-": r"\-", "^": r"\(ha", "~": r"\(ti", "'": r"\(aq"}
WIDTH = 79


@dataclass(frozen=True)
class Manual:
    """The name of a command, what it is in one sentence, and its usage text."""

    name: str
    summary: str
    usage: str

    @property
    def options(self) -> list[str]:
        return sorted({"--help", "--version", *re.findall(r"(?<![\w-])--[a-z][a-z-]*", self.usage)})

    @property
    def _lines(self) -> tuple[list[str], list[str]]:
        """The lines of the synopsis and those after it."""
        first, *rest = self.usage.splitlines()
        count = next((at for at, line in enumerate(rest) if not line.startswith(USAGE_INDENT)), len(rest))
        return [first.removeprefix("usage: "), *(line.strip() for line in rest[:count])], rest[count:]

    def page(self, day: str, others: Sequence[str] = ()) -> str:
        """The manual page, for `man`, with the names of commands to see also."""
        synopsis, body = self._lines
        name = wrapped(f"{escaped(self.name)} \\- {escaped(self.summary)}")
        head = [f".TH {escaped(self.name.upper())} 1 {day} \"Nemzhuul {__version__}\"", ".SH NAME", *name]
        lines = [*head, ".SH SYNOPSIS", *self._synopsis(synopsis), ".SH DESCRIPTION", *description(self.name, body)]
        if others:
            lines += [".SH SEE ALSO", *(f".BR {escaped(other)} (1){',' * (other != others[-1])}" for other in others)]
        return "".join(f"{line}\n" for line in lines)

    def _synopsis(self, lines: Sequence[str]) -> Iterator[str]:
        for at, line in enumerate(lines):
            is_first, rest = line.split(" ")[0] == self.name, line.removeprefix(self.name).strip()
            if is_first and at:
                yield ".YS"
            if is_first:
                yield f".SY {escaped(self.name)}"
            yield from map(guarded, wrapped(escaped(rest)))
        yield ".YS"

    def completion(self) -> str:
        """The completion for bash: options after a hyphen, and files otherwise."""
        function = "_" + self.name.replace("-", "_")
        words = " ".join(self.options)
        return (
            f"{function}() {{\n    [[ $2 == -* ]] && mapfile -t COMPREPLY < <(compgen -W '{words}' -- \"$2\")\n    return 0\n}}\n"
            f"complete -o bashdefault -o default -F {function} {self.name}\n"
        )


def escaped(text: str) -> str:
    """A text with the characters that roff takes for itself, or that it does not have, as escapes."""
    return "".join(ESCAPES.get(sign, sign if sign.isascii() else f"\\[u{ord(sign):04X}]") for sign in text)


def guarded(line: str) -> str:
    """A line that is no request, whatever it begins with."""
    return rf"\&{line}" if line.startswith(".") else line


def prose(text: str) -> list[str]:
    """The lines of a paragraph. Each sentence begins one."""
    return [guarded(line) for sentence in re.split(r"(?<=[.:]) +(?=[A-Z])", text) for line in wrapped(bold(sentence))]


def wrapped(text: str) -> list[str]:
    return textwrap.wrap(text, WIDTH, break_long_words=False, break_on_hyphens=False)


def bold(text: str) -> str:
    """A text with code and options in bold."""
    parts, at = [], 0
    for found in INLINE.finditer(text):
        parts += [escaped(text[at : found.start()]), rf"\fB{escaped(found[1] or found[2])}\fR"]
        at = found.end()
    return "".join([*parts, escaped(text[at:])])


def description(name: str, lines: Sequence[str]) -> Iterator[str]:
    """The requests for the lines of a usage text: paragraphs, lists of options, and tables as they are."""
    is_begun = False
    for block in blocks(lines):
        entries = items(block)
        if not block[0].startswith(" "):
            yield from [".PP"] if is_begun else [f".B {escaped(name)}"]
            yield from prose(" ".join(block))
        elif entries is None:
            yield from [".PP", ".nf", *(guarded(escaped(line)) for line in textwrap.dedent("\n".join(block)).splitlines()), ".fi"]
        else:
            for option, meaning in entries:
                yield from [".TP", rf"\fB{escaped(option)}\fR", *prose(meaning)]
        is_begun = True


def blocks(lines: Sequence[str]) -> Iterator[list[str]]:
    """The lines in parts: those that are indented together, and paragraphs. A line with room for the next word ends one."""
    width = max(map(len, lines), default=0)
    block: list[str] = []
    for line in lines:
        if block and not is_continued(block[-1], line, width):
            yield block
            block = []
        block.append(line)
    if block:
        yield block


def is_continued(line: str, after: str, width: int) -> bool:
    """Whether the line after another one belongs to the same part."""
    if line.startswith(" ") or after.startswith(" "):
        return line.startswith(" ") and after.startswith(" ")
    return not (line.endswith(".") and len(line) + 1 + len(after.split(" ")[0]) <= width)


def items(block: Sequence[str]) -> list[tuple[str, str]] | None:
    """The options of an indented part, each with its meaning; None if it is another table."""
    indent = min(len(line) - len(line.lstrip()) for line in block)
    found: list[tuple[str, str]] = []
    for line in block:
        item = ITEM.fullmatch(line[indent:])
        if item:
            found.append((item[1], item[2]))
        elif found and line[indent:].startswith(" "):
            found[-1] = (found[-1][0], f"{found[-1][1]} {line.strip()}")
        else:
            return None
    return found
