"""The frame of each tool: its arguments, what it writes, and how it ends.

`command` runs a tool. It prints the usage for `-h` and `--help`, the version for `--version`, the usage and status 2 for
wrong arguments, one line and status 1 for a file that cannot be read or an output that cannot be written, and one line and
status 130 for an interrupt. `Progress` shows on a terminal how far a tool is.
"""

from __future__ import annotations

import contextlib
import errno
import os
import sys
import time
from collections.abc import Callable, Iterable, Iterator, Sequence
from pathlib import Path
from typing import NoReturn, TypeVar

from nemzhuul import __version__

NAME = Path(sys.argv[0]).name
PROGRESS_SECONDS = 2  # until it is shown how far a tool is
REPEAT_SECONDS = 0.2
BAR = 30  # characters
INTERRUPTED = 130  # the status that a shell gives a program that SIGINT ended; tools/NAME have it too

Item = TypeVar("Item")


class Refused(Exception):
    """A tool cannot do its work; the text says in one line why."""


class WrongWords(Exception):
    """The arguments of a command are none of its own."""


def command(usage: str, work: Callable[..., str | bytes]) -> NoReturn:
    """Runs a tool on its arguments, and ends with its status. What `work` returns is the tool's output."""
    try:
        words = sys.argv[1:]
        write_output(asked(usage, words) or work(*words))
        status = 0
    except WrongWords:
        say(usage)
        status = 2
    except Refused as refusal:
        status = fail(refusal)
    except OSError as error:
        status = fail(f"{error.filename or 'a file'} cannot be read: {error.strerror}")
    except MemoryError:
        status = fail("there is not enough memory")
    except KeyboardInterrupt:
        fail("interrupted")
        status = INTERRUPTED
    sys.exit(status)


def asked(usage: str, words: Sequence[str]) -> str:
    """The usage or the version, if an argument asks for it; otherwise nothing."""
    if not {"-h", "--help"}.isdisjoint(words):
        return f"{usage}\n"
    return f"{NAME} (Nemzhuul) {__version__}\n" if "--version" in words else ""


def fail(reason: object) -> int:
    """Says why a tool ends, and returns the status."""
    say(f"{NAME}: {reason}")
    return 1


def say(text: str) -> None:
    """Writes a line to standard error, if that takes it."""
    try:
        rest = "\x1b[K" if os.isatty(2) else ""  # of what `Progress` has shown
        os.write(2, f"{text}{rest}\n".encode(errors="backslashreplace"))
    except OSError:
        pass


def write_output(output: str | bytes) -> None:
    """Writes a text or octets to standard output, without a buffer, so that nothing is left to fail afterwards."""
    left = memoryview(output if isinstance(output, bytes) else output.encode())
    try:
        if sys.stdout is None:  # it was closed, and another file may have its number
            raise OSError(errno.EBADF, os.strerror(errno.EBADF))
        while left:
            left = left[os.write(1, left) :]
    except OSError as error:
        raise Refused(f"standard output cannot be written: {error.strerror}") from None


def write_parts(parts: Iterable[str], is_long: bool) -> str:
    """Writes the parts of a long output as they come, and returns the rest, which is all of another one."""
    if not is_long:
        return "".join(parts)
    for part in parts:
        write_output(part)
    return ""


class Progress:
    """Shows on a terminal how far a tool is in what takes it more than two seconds, and nothing elsewhere.

    A tool that writes to the same terminal meanwhile shows nothing.
    """

    def __init__(self, what: object, total: int, writes: bool = False) -> None:
        self.what = what
        self.total = total
        self._is_on = total > 0 and os.isatty(2) and not (writes and os.isatty(1))
        self._next = time.monotonic() + PROGRESS_SECONDS
        self._is_shown = False

    def show(self, done: int) -> None:
        """Shows that so much is done, if it is time."""
        if self._is_on and time.monotonic() >= self._next:
            self._next = time.monotonic() + REPEAT_SECONDS
            self._is_shown = True
            full = BAR * min(done, self.total) // self.total
            bar = f"[{'#' * full}{' ' * (BAR - full)}]"
            write_line(f"{NAME}: {self.what} {bar} {100 * min(done, self.total) // self.total}%")

    def end(self) -> None:
        """Removes what is shown."""
        if self._is_shown:
            write_line("")
        self._is_on = self._is_shown = False


def write_line(text: str) -> None:
    """Replaces the line of a terminal on standard error, if that takes it. What comes next replaces it too."""
    with contextlib.suppress(OSError):
        os.write(2, f"\r{text}\x1b[K\r".encode(errors="backslashreplace"))


def watch(items: Sequence[Item], what: object) -> Iterator[Item]:
    """Yields the items, and shows on a terminal how many were taken."""
    progress = Progress(what, len(items))
    try:
        for number, item in enumerate(items):
            progress.show(number)
            yield item
    finally:
        progress.end()
