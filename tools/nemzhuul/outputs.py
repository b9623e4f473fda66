"""Files that a tool writes. One with content is lost only if the user says so."""

from __future__ import annotations

import contextlib
import fcntl
import os
import stat
from pathlib import Path
from typing import NamedTuple

from nemzhuul.command_line import Refused

NO_FILES = {stat.S_IFSOCK: "a socket", stat.S_IFDIR: "a folder", stat.S_IFBLK: "a block device"}


class Identity(NamedTuple):
    """What distinguishes a file: its device, its number and its kind."""

    device: int
    number: int
    kind: int


def is_same_file(one: str | Path, other: str | Path) -> bool:
    """Whether two paths lead to one file, or would if it were there."""
    if os.path.realpath(one) == os.path.realpath(other):
        return True
    try:
        return os.path.samefile(one, other)
    except OSError:
        return False


def identity(path: str | Path) -> Identity | None:
    """The identity of a file, not of the target of a symbolic link; None if there is no file."""
    try:
        state = os.lstat(path)
    except OSError:
        return None
    return Identity(state.st_dev, state.st_ino, stat.S_IFMT(state.st_mode))


def refused(path: str | Path, error: OSError) -> Refused:
    return Refused(f"{path} cannot be written: {error.strerror}")


def check_output(path: str | Path, may_overwrite: bool = False) -> None:
    """Refuses a path that no tool writes to: a socket, a folder, a block device, or a file with content."""
    try:
        state = os.stat(path)
    except FileNotFoundError:
        return
    except OSError as error:
        raise refused(path, error) from None
    if kind := NO_FILES.get(stat.S_IFMT(state.st_mode)):
        raise Refused(f"{path} cannot be written: it is {kind}")
    if stat.S_ISREG(state.st_mode) and state.st_size and not may_overwrite:
        raise Refused(f"{path} is there already: --overwrite replaces it")


class Output:
    """A file that a tool writes, or nothing if it has no path.

    It is opened at once, so that it can be refused. What it had is lost when `begin` is called. If it was not there, and
    nothing is written to it, it is removed again.
    """

    def __init__(self, path: str | Path | None, may_overwrite: bool = False) -> None:
        self.path = path
        self.number: int | None = None  # of the open file
        self.is_new = False
        if path is not None:
            check_output(path, may_overwrite)
            self._open(path, may_overwrite)

    def _open(self, path: str | Path, may_overwrite: bool) -> None:
        self.is_new = not os.path.lexists(path)
        try:
            self.number = os.open(path, os.O_WRONLY | os.O_CREAT | os.O_NOCTTY, 0o666)
            os.write(self.number, b"")  # a device that is full refuses even this
            self._lock(self.number)
            check_output(path, may_overwrite)  # another process may have written it meanwhile
        except OSError as error:
            self.close()
            raise refused(path, error) from None
        except Refused:
            self.close()
            raise

    def _lock(self, number: int) -> None:
        """Refuses a file that another output is written to, in this process or in another one."""
        if not self._is_regular(number):
            return
        try:
            fcntl.flock(number, fcntl.LOCK_EX | fcntl.LOCK_NB)
        except BlockingIOError:
            self.is_new = False
            raise Refused(f"{self.path} is being written already") from None
        except OSError:
            pass  # a file system without locks

    @staticmethod
    def _is_regular(number: int) -> bool:
        return stat.S_ISREG(os.fstat(number).st_mode)

    def begin(self) -> None:
        """Removes the content that the file had."""
        if self.number is not None and self._is_regular(self.number):
            os.ftruncate(self.number, 0)

    def write(self, content: bytes) -> None:
        if self.number is None:
            return
        left = memoryview(content)
        try:
            while left:
                left = left[os.write(self.number, left) :]
        except OSError as error:
            raise refused(str(self.path), error) from None

    def close(self) -> None:
        if self.number is None:
            return
        state = os.fstat(self.number)
        if self.is_new and not state.st_size and self.path is not None:
            if identity(self.path) == (state.st_dev, state.st_ino, stat.S_IFREG):
                with contextlib.suppress(OSError):
                    os.unlink(self.path)
        os.close(self.number)
        self.number = None


def write_file(path: str | Path, content: bytes, may_overwrite: bool = False) -> None:
    """Writes a whole file."""
    output = Output(path, may_overwrite)
    try:
        output.begin()
        output.write(content)
    finally:
        output.close()
