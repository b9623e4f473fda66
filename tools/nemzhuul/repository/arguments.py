"""The arguments of the scripts of the repository: the docstring of a script is its help, and states its usage."""

from __future__ import annotations

import argparse


class Parser(argparse.ArgumentParser):
    """A parser whose help is the text of a script. Wrong arguments get the paragraph of the text that begins with `usage:`."""

    def __init__(self, text: str | None) -> None:
        self.text = (text or "").strip()
        usage = next(part for part in self.text.split("\n\n") if part.startswith("usage: "))
        super().__init__(usage=usage.removeprefix("usage: ").replace("%", "%%"), allow_abbrev=False)

    def format_help(self) -> str:
        return f"{self.text}\n"


def count(text: str) -> int:
    """The number of an argument, which is at least 1."""
    if not text.isdecimal() or int(text) == 0:
        raise argparse.ArgumentTypeError(f"{text} is not a number from 1 on")
    return int(text)
