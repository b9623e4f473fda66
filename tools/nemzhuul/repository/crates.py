"""The crates of the repository, by crates.txt."""

from __future__ import annotations

from dataclasses import dataclass
from pathlib import Path

TOP = Path(__file__).resolve().parents[3]
NOT_IN_CODE = "not in code: "


@dataclass(frozen=True)
class Crate:
    """A crate with its line, the heading above it, the libraries that its line states, and those that its code does not
    use, by the comment of the line."""

    name: str
    line: str
    layer: str
    libraries: tuple[str, ...]
    not_in_code: frozenset[str]

    @property
    def folder(self) -> Path:
        return TOP / "crates" / self.name

    @property
    def root(self) -> Path:
        """The file at the root of the crate, which begins with its comment."""
        source = self.folder / "src"
        return next(path for path in (source / "lib.rt", source / "main.rt") if path.exists())


def read_crates() -> list[Crate]:
    """The crates in the order of crates.txt."""
    crates, layer = [], ""
    for line in (TOP / "crates.txt").read_text(encoding="utf-8").splitlines():
        if line.startswith("## "):
            layer = line[3:].strip()
        text, _, comment = (part.strip() for part in line.partition("#"))
        name, colon, libraries = text.partition(":")
        if colon:
            others = comment.removeprefix(NOT_IN_CODE).split() if comment.startswith(NOT_IN_CODE) else []
            crates.append(Crate(name.split()[0], text, layer, tuple(libraries.split()), frozenset(others)))
    return crates
