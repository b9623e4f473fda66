"""Copies the proved program and the tools to a folder, with manual pages and completion for bash."""

from __future__ import annotations

import contextlib
import hashlib
import importlib
import os
import re
import stat
import tempfile
import time
from collections import defaultdict
from collections.abc import Sequence
from dataclasses import dataclass
from pathlib import Path

from nemzhuul.command_line import Refused, WrongWords
from nemzhuul.manuals import Manual
from nemzhuul.outputs import check_output, refused
from nemzhuul.programs.built import HOME, Built
from nemzhuul.programs.program import BUILT, proved_program

USAGE = """usage: tools/install [--overwrite] PREFIX
copies the proved program and the tools to the folder PREFIX. It refuses a program that does not fit the sources.
    PREFIX/bin              tst, which is the program, and each tools/NAME as nemzhuul-NAME
    PREFIX/lib/nemzhuul     the package of the tools with the sums of all files
    PREFIX/share            manual pages and completion for bash
The copies need no repository, and PREFIX can be moved. `build`, `install` and `run` are not copied. Files of an earlier
installation are replaced if they are unchanged. If another file with content is in the place of one, nothing is copied,
unless --overwrite is given."""

OF_REPOSITORY = ("build", "install", "run")  # the tools that need the sources
LIBRARY = "lib/nemzhuul"
SUMS = f"{LIBRARY}/SHA256SUMS"
SUFFIXES = (".py", ".css", ".js", ".typed")
FIND_PACKAGE = 'import sys\n\nsys.path[0] += "/../lib/nemzhuul"\n'


@dataclass(frozen=True)
class File:
    """A file to be installed, by its path below the prefix."""

    path: str
    content: bytes
    mode: int = 0o644

    @property
    def sum(self) -> str:
        return hashlib.sha256(self.content).hexdigest()


def main(*words: str) -> str:
    may_overwrite = words[:1] == ("--overwrite",)
    words = words[may_overwrite:]
    if len(words) != 1 or words[0].startswith("-"):
        raise WrongWords
    proved_program()
    files = files_of(BUILT, time.strftime("%Y-%m-%d"))
    Installation(Path(words[0]), may_overwrite).install(files)
    count = sum(file.mode == 0o755 for file in files) - 1
    return f"the proved program and {count} tools are in {words[0]}/bin\n"


# ---- what is installed


def tool_names() -> list[str]:
    """The tools that are installed."""
    names = (path.stem for path in (HOME / "nemzhuul" / "commands").glob("*.py"))
    return sorted(name for name in names if name not in OF_REPOSITORY and (HOME / name).is_file())


def installed_text(text: str) -> str:
    """A text in which the tools and the program have the names under which they are installed."""
    names = "|".join(tool_names())
    return re.sub(rf"\btools/({names})\b", r"nemzhuul-\1", text).replace("crates/tst/out/tst", "tst")


def files_of(program: Built, day: str) -> list[File]:
    """All files of an installation of a program. A manual page has a day."""
    files = [File("bin/tst", program.file.read_bytes(), 0o755), File(f"{LIBRARY}/tst.sources", program.note.read_bytes())]
    for path in sorted((HOME / "nemzhuul").rglob("*")):
        if path.suffix in SUFFIXES and not (path.parent.name == "commands" and path.stem in OF_REPOSITORY):
            files.append(File(f"{LIBRARY}/{path.relative_to(HOME)}", installed_text(path.read_text("utf-8")).encode()))
    manuals = [manual_of(name) for name in tool_names()]
    names = [manual.name for manual in manuals]
    for name, manual in zip(tool_names(), manuals):
        others = [other for other in names if other != manual.name]
        files += [
            File(f"bin/{manual.name}", command_text((HOME / name).read_text("utf-8")).encode(), 0o755),
            File(f"share/man/man1/{manual.name}.1", manual.page(day, others).encode()),
            File(f"share/bash-completion/completions/{manual.name}", manual.completion().encode()),
        ]
    return files


def manual_of(name: str) -> Manual:
    """The manual of a tool: its summary is the first sentence of its module."""
    module = importlib.import_module(f"nemzhuul.commands.{name}")
    summary = " ".join((module.__doc__ or "").partition("\n\n")[0].split()).partition(". ")[0].rstrip(".").replace("`", "")
    return Manual(f"nemzhuul-{name}", summary[:1].lower() + summary[1:], installed_text(module.USAGE))


def command_text(text: str) -> str:
    """The text of a command that finds the package below its prefix."""
    first, _, rest = text.partition("\n")
    return f"{first}\n{FIND_PACKAGE}\n{rest}"


# ---- where it is installed


class Installation:
    """The files below a prefix, of which earlier installations recorded sums."""

    def __init__(self, prefix: Path, may_overwrite: bool = False) -> None:
        self.prefix = prefix
        self.may_overwrite = may_overwrite
        self.sums: defaultdict[str, set[str]] = defaultdict(set)
        with contextlib.suppress(FileNotFoundError, NotADirectoryError):
            for line in (prefix / SUMS).read_text("utf-8").splitlines():
                total, _, path = line.partition("  ")
                self.sums[path].add(total)

    def install(self, files: Sequence[File]) -> None:
        """Writes all files, or none if one of them cannot be replaced. Files of an earlier installation are removed."""
        for file in files:
            self._check(file)
        new = [f"{file.sum}  {file.path}" for file in files]
        old = [f"{total}  {path}" for path, totals in self.sums.items() for total in totals]
        self._write(sums_file([*new, *old]))  # so that an installation that is interrupted can be repeated
        for file in files:
            self._write(file)
        for path in self.sums.keys() - {file.path for file in files}:
            if self._is_own(path):
                (self.prefix / path).unlink()
        self._write(sums_file(new))

    def _check(self, file: File) -> None:
        """Refuses to replace a file that is not of an installation, and has other content."""
        path = self.prefix / file.path
        for folder in path.parents[: len(Path(file.path).parts)]:
            if os.path.lexists(folder) and not folder.is_dir():
                raise Refused(f"{path} cannot be written: {folder} is not a folder")
        if not os.path.lexists(path) or self._is_own(file.path):
            return
        if not stat.S_ISREG(os.lstat(path).st_mode):
            raise Refused(f"{path} cannot be written: it is not a regular file")
        if self._sum(path) != file.sum:
            check_output(path, self.may_overwrite)

    def _is_own(self, path: str) -> bool:
        """Whether an installation has written this file, and it is unchanged."""
        there = self.prefix / path
        return not there.is_symlink() and there.is_file() and self._sum(there) in self.sums.get(path, ())

    @staticmethod
    def _sum(path: Path) -> str:
        return hashlib.sha256(path.read_bytes()).hexdigest()

    def _write(self, file: File) -> None:
        """Writes a file beside its place, and moves it there: a program that runs keeps its text."""
        path = self.prefix / file.path
        try:
            path.parent.mkdir(parents=True, exist_ok=True)
            number, new = tempfile.mkstemp(prefix=".", dir=path.parent)
            try:
                with open(number, "wb") as output:
                    output.write(file.content)
                os.chmod(new, file.mode)
                os.replace(new, path)
            except OSError:
                os.unlink(new)
                raise
        except OSError as error:
            raise refused(path, error) from None


def sums_file(lines: Sequence[str]) -> File:
    """The sums as `sha256sum -c` reads them."""
    return File(SUMS, "".join(f"{line}\n" for line in dict.fromkeys(lines)).encode())
