"""The tables of examples/: `inputs`, `worked`, `follows`, `checks` and `commands`, as .ci/tables describes them."""

from __future__ import annotations

import re
from pathlib import Path
from typing import NamedTuple

EXAMPLES = Path(__file__).resolve().parent.parent / "examples"
HEADER = "exchange 1 1 0 1\n"


class Row(NamedTuple):
    """A row of a table: what the program writes, and what it is given, as texts of the table."""

    wanted: str
    given: str


def rows(name: str) -> list[Row]:
    """The rows of a table."""
    joined: list[str] = []
    for line in (EXAMPLES / f"{name}.table").read_text(encoding="ascii").splitlines():
        if line.startswith(" "):
            joined[-1] += line.lstrip(" ")
        elif line and not line.startswith("#"):
            joined.append(line)
    return [Row(*(part.strip(" ") for part in row.split("|", 1))) for row in joined]


def repeated(found: re.Match[str]) -> str:
    """The text of one pair of braces, written out."""
    first, last, text = found.groups()
    if last is None:
        return str(text) * int(first)
    return "".join(text.replace("%", str(number)) for number in range(int(first), int(last) + 1))


def written_out(text: str) -> bytes:
    """The octets that a text of a table means."""
    if text.startswith("@"):
        text = HEADER + text[1:]
    text = text.encode("ascii").decode("unicode_escape")
    before = None
    while before != text:
        before, text = text, re.sub(r"\{(\d+)(?:\.\.(\d+))?\*([^{}]*)\}", repeated, text)
    return text.encode("latin-1")
