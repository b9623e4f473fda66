"""What a program or a library was built from: a record of sums beside it, held against the sources that lie there.

Content decides, and not times: a touch, or a checkout of the same content, changes no sum.
"""

from __future__ import annotations

import hashlib
import json
import os
import shutil
from dataclasses import asdict, dataclass
from pathlib import Path
from typing import Callable, Optional

from nemzhuul.repository.crates import TOP, read_crates

HOME = Path(__file__).resolve().parents[2]  # the folder of the package: tools/, or PREFIX/lib/nemzhuul of an installation
PROVED_PARTS = ("src", "specs", "proofs")  # the folders of a crate that a proved program is built from
UNPROVED_PARTS = ("src",)


@dataclass(frozen=True)
class Sources:
    """The kit, and a sum for each crate, that a program or a library is built from."""

    kit: Optional[str]  # None if there is none on the path
    crates: dict[str, str]

    def difference(self, other: Sources) -> Optional[str]:
        """In what the other sources differ, or None. Without a kit on the path any kit will do."""
        if None not in (self.kit, other.kit) and self.kit != other.kit:
            return "with another kit"
        names = sorted(name for name in {*self.crates, *other.crates} if self.crates.get(name) != other.crates.get(name))
        more = f" and {len(names) - 1} more crates" if len(names) > 1 else ""
        return f"from other sources of {names[0]}{more}" if names else None

    def below(self, crate: str) -> Sources:
        """The part that a crate is built from."""
        names = crates_below(crate, listed_crates())
        return Sources(self.kit, {name: total for name, total in self.crates.items() if name in names})

    def sum(self) -> str:
        return hashlib.sha256(json.dumps(asdict(self), sort_keys=True).encode()).hexdigest()


def listed_crates() -> dict[str, str]:
    """The line of each crate in crates.txt, without its comment."""
    return {crate.name: crate.line for crate in read_crates()}


def crates_below(name: str, lines: dict[str, str]) -> set[str]:
    """A crate and all that it uses, directly or through others."""
    found, ahead = set(), {name}
    while ahead:
        crate = ahead.pop()
        found.add(crate)
        ahead |= {used for used in lines[crate].partition(":")[2].split() if used in lines} - found
    return found


def crate_sum(name: str, line: str, parts: tuple[str, ...]) -> str:
    """A sum of a crate's line in crates.txt and of each file in these folders."""
    total = hashlib.sha256(" ".join(line.split()).encode())
    for part in parts:
        for place, folders, files in os.walk(TOP / "crates" / name / part):
            folders.sort()
            for file in sorted(files):
                path = Path(place, file)
                content = path.read_bytes() if path.is_file() else b""
                total.update(f"\n{path.relative_to(TOP)} {len(content)}\n".encode() + content)
    return total.hexdigest()


def kit_on_path() -> Optional[str]:
    """The identity of the kit whose commands are on the path."""
    found = shutil.which("rt")
    text = Path(found).resolve().parent.parent / "KIT-ID" if found else None
    return text.read_text(encoding="utf-8").strip() if text and text.is_file() else None


def sources_of(crate: Optional[str], parts: tuple[str, ...] = PROVED_PARTS) -> Sources:
    """The sources of a crate and of all that it uses, or of all crates."""
    lines = listed_crates()
    names = crates_below(crate, lines) if crate else lines
    return Sources(kit_on_path(), {name: crate_sum(name, lines[name], parts) for name in sorted(names)})


def file_sum(path: Path) -> str:
    return hashlib.sha256(path.read_bytes()).hexdigest()


@dataclass(frozen=True)
class Built:
    """A file that is built, and the record of what it was built from."""

    file: Path
    note: Path

    def record(self, sources: Sources) -> None:
        """Records that the file was built from these sources."""
        text = json.dumps({"sum": file_sum(self.file), **asdict(sources)}, indent=1)
        self.note.write_text(f"{text}\n", encoding="utf-8")

    def misfit(self, find_sources: Optional[Callable[[], Sources]]) -> Optional[str]:
        """Why the file is not the one that was built from these sources, or from any if there are none, or None if it is."""
        if not self.file.is_file():
            return "is not built"
        try:
            said = json.loads(self.note.read_text(encoding="utf-8"))
            total, recorded = said["sum"], Sources(said["kit"], said["crates"])
        except (OSError, ValueError, KeyError, TypeError):
            return "has no record of its sources"
        if total != file_sum(self.file):
            return "is not the file whose sources were recorded"
        difference = recorded.difference(find_sources()) if find_sources else None
        return f"was built {difference}" if difference else None


def program_in(folder: Path, name: str = "tst") -> Built:
    return Built(folder / name, folder / f"{name}.sources")


def program_of(crate: str) -> Built:
    """The program that `rt ci` leaves."""
    return program_in(TOP / "crates" / crate / "out", crate)


def programs() -> list[str]:
    """The crates that are programs."""
    return [crate.name for crate in read_crates() if (TOP / "crates" / crate.name / "src" / "main.rt").is_file()]


INSTALLED = Built(HOME.parent.parent / "bin" / "tst", HOME / "tst.sources")  # which tools/install has copied
IS_INSTALLED = INSTALLED.note.is_file()  # whether this package is part of an installation, where no sources lie


def library(crate: str) -> Built:
    """The library that `rt ci` leaves. The file `format` in it has a sum of all its files."""
    folder = TOP / "crates" / crate / "out"
    return Built(folder / "rlib" / f"{crate}.rlib" / "format", folder / f"{crate}.sources")


def is_of_check(crate: str) -> bool:
    """Whether the library is one of `rt check`, which stamps it. `rt ci` gives these back when it ends."""
    return (TOP / "crates" / crate / "out" / "rlib" / "stamp").exists()
