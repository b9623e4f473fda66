"""Runs the exchange: the proved program if it fits the sources, and otherwise an unproved one, which is built once."""

from __future__ import annotations

import os
import stat
import subprocess
import sys
import time
from typing import NoReturn

from nemzhuul.command_line import NAME, PROGRESS_SECONDS, WrongWords, say, write_line
from nemzhuul.programs.program import UNPROVED, program_at

USAGE = """usage: tools/run COMMAND.. <TRACE >REPORT
runs the exchange with the arguments of a command: `run`, `follow`, `check`, `gen SEED CALLS`. It runs the proved
program, crates/tst/out/tst, if that was built from the sources that lie there (`tools/build`). Otherwise it runs an
unproved one, which `rt try` builds once, in about two minutes. Standard error says which was run, how long it took, and
how a status other than 0 is explained (`tools/explain`). On a terminal it shows after two seconds how far it is."""

COMMANDS = ("run", "follow", "check", "gen")
REFUSED = 1
MEGABYTE = 1_000_000


def main(*words: str) -> NoReturn:
    if not is_command(*words):
        raise WrongWords
    program = program_at()
    begun = time.monotonic()
    with subprocess.Popen([program, *words]) as child:
        try:
            status = waited(child)
        except BaseException:
            child.kill()
            raise
    kind = "an unproved" if program == UNPROVED else "the proved"
    say(f"{NAME}: {kind} program ran for {time.monotonic() - begun:.2f} s and ended with status {status}")
    if status:
        say(f"{NAME}: {remedy(words[0], status)}")
    sys.exit(status)


def is_command(command: str = "", *words: str) -> bool:
    """Whether the arguments can be a command of the exchange. It is found before a program is built for them."""
    flags = [word for word in words if word not in ("--", "--strict")]
    return command in COMMANDS and (len(flags) == 2 if command == "gen" else not flags)


def waited(child: subprocess.Popen[bytes]) -> int:
    """Waits for the exchange. Where it takes long, a line on a terminal shows how far it is."""
    if not os.isatty(2) or os.isatty(1):
        return child.wait()
    begun, was_shown = time.monotonic(), False
    while True:
        try:
            status = child.wait(PROGRESS_SECONDS)
            break
        except subprocess.TimeoutExpired:
            write_line(f"{NAME}: {progress()}, {time.monotonic() - begun:.0f} s")
            was_shown = True
    if was_shown:
        write_line("")
    return status


def progress() -> str:
    """How far the exchange is in the files that it shares with this process."""
    done, taken = position(0), position(1)
    read = "is running" if done is None else f"has read {done / MEGABYTE:.1f} of {os.fstat(0).st_size / MEGABYTE:.1f} MB"
    return read if taken is None else f"{read} and written {taken / MEGABYTE:.1f} MB"


def position(number: int) -> int | None:
    """The place in an open file; None if it is no file."""
    try:
        return os.lseek(number, 0, os.SEEK_CUR) if stat.S_ISREG(os.fstat(number).st_mode) else None
    except OSError:
        return None


def remedy(command: str, status: int) -> str:
    """Where a user finds out why the exchange ended with this status, of which it says nothing on standard error."""
    meaning = f"`tools/explain --status {status}` says what this means"
    if status == REFUSED and command != "gen":
        return f"{meaning}, and `tools/explain TRACE` which line is wrong and why"
    return meaning
