"""A trace that is being written, and the program, proved or not, that runs it."""

from __future__ import annotations

import contextlib
import functools
import os
import shutil
import subprocess
import sys
import tempfile
import time
from pathlib import Path
from typing import Optional

from nemzhuul.command_line import NAME, Refused, say
from nemzhuul.programs.built import INSTALLED, IS_INSTALLED, PROVED_PARTS, UNPROVED_PARTS, Sources, program_in, program_of, sources_of
from nemzhuul.repository.crates import TOP
from nemzhuul.traces.events import MAX_BYTES, MAX_EVENTS, Reply, Sent
from nemzhuul.traces.reading import METER, reply

BUILT = INSTALLED if IS_INSTALLED else program_of("tst")  # proved
BUILT_UNPROVED = program_in(TOP / "tools" / "out")
PROGRAM, UNPROVED = BUILT.file, BUILT_UNPROVED.file
NAMED = PROGRAM if IS_INSTALLED else PROGRAM.relative_to(TOP)  # in a text
REMEDY = "`tools/install` copies it again" if IS_INSTALLED else "`tools/build` proves and builds it"
BUILD_SECONDS = 10  # between two lines on how long a build takes
TEXT = ("utf-8", "surrogateescape")  # how octets of scripts and comments are read and written: none is lost


def program_at(path: Optional[str] = None) -> Path:
    """The program to run: the one that is named, or else one that was built from the sources that lie there."""
    if path is None:
        return fitting_program()
    if not is_program(Path(path)):
        raise Refused(f"{path} is no program")
    return Path(path).resolve()


def is_program(path: Path) -> bool:
    return path.is_file() and os.access(path, os.X_OK)


def misfit() -> Optional[str]:
    """Why the proved program is not the one of the sources that lie there, or None if it is."""
    return BUILT.misfit(None if IS_INSTALLED else functools.partial(sources_of, "tst", PROVED_PARTS))


def proved_program() -> Path:
    """The proved program of the sources that lie there. No other is run where only the proved one will do."""
    why = misfit()
    if why:
        raise Refused(f"{NAMED} {why}: {REMEDY}")
    return PROGRAM


def program_or_exit() -> Path:
    """The proved program for a script, which ends with status 2 and one line where there is none."""
    try:
        return proved_program()
    except Refused as why:
        say(f"{NAME}: {why}")
        sys.exit(2)


@functools.lru_cache(maxsize=None)
def fitting_program() -> Path:
    """The proved program, or else the unproved one, which is built if it does not fit the sources either."""
    why = misfit()
    if why is None:
        return PROGRAM
    if IS_INSTALLED:
        raise Refused(f"{NAMED} {why}: {REMEDY}")
    if BUILT_UNPROVED.misfit(unproved_sources):
        build_unproved(why)
    elif PROGRAM.exists():
        say(f"{NAMED} {why}: {REMEDY}")
    return UNPROVED


def unproved_sources() -> Sources:
    return sources_of("tst", UNPROVED_PARTS)


def build_unproved(why: str) -> None:
    """Keeps the program that `rt try` builds without a proof, which `rt` removes when it ends."""
    if shutil.which("rt") is None:
        raise Refused(f"{NAMED} {why}, and the commands of the Rattle kit are not on the path")
    say(f"{NAMED} {why}: `rt try` builds an unproved program, which takes about two minutes")
    sources = unproved_sources()
    UNPROVED.parent.mkdir(exist_ok=True)
    UNPROVED.unlink(missing_ok=True)
    with tempfile.TemporaryDirectory(dir=UNPROVED.parent) as folder:
        words = ["rt", "try", "--seconds", "600", "--", "gen", "1", "200"]  # long enough for the program to be found
        none = subprocess.DEVNULL
        environment = {**os.environ, "TMPDIR": folder}
        begun = said = time.monotonic()
        build = subprocess.Popen(words, cwd=PROGRAM.parent.parent, env=environment, stdin=none, stdout=none, stderr=none)
        while build.poll() is None:
            if time.monotonic() - said >= BUILD_SECONDS:
                said = time.monotonic()
                say(f"{NAME}: `rt try` has been building for {said - begun:.0f} s")
            keep_program(folder)
            time.sleep(0.05)
    if build.returncode or not is_program(UNPROVED):
        UNPROVED.unlink(missing_ok=True)
        raise Refused(f"`rt try` built no program: {REMEDY}, or says why not")
    if unproved_sources() != sources:
        raise Refused("a source changed while `rt try` built the program: run this again")
    BUILT_UNPROVED.record(sources)


def keep_program(folder: str) -> None:
    """Links the program that a build left in a folder. Meanwhile `rt` may remove any file or folder in it."""
    for place, _, files in os.walk(folder):  # a folder that is gone has no files
        if "program" in files:
            with contextlib.suppress(FileExistsError, FileNotFoundError):
                os.link(Path(place) / "program", UNPROVED)


def replies_of(program: Path, trace: bytes, first: int) -> list[Reply]:
    """What the program answers to the events of a trace from one on, counted from 0, in the order of its report."""
    done = subprocess.run([program, "run"], input=trace, stdout=subprocess.PIPE, check=False)
    lines = done.stdout.decode("latin-1").splitlines()
    if done.returncode != 0:
        said = f": {lines[0][:80]}" if lines else ""
        raise Refused(f"{program} ended with status {done.returncode}{said}")
    replies = []
    for line in lines:
        if not METER.fullmatch(line):
            answer = reply(line)
            if answer is None:
                raise Refused(f"{program} printed what is no report")
            replies.append(answer)
    return replies[first:]


class Trace:
    """The lines of a trace so far, and what of them decides which messages are sent."""

    def __init__(self, program: str | None = None) -> None:
        self.program = program
        self.lines: list[str] = []
        self.bytes = 0
        self.asked: list[str] = []  # the lines without comments, and without the octets of frames
        self.events = 0
        self.answered = 0  # the events whose replies were looked at
        self.has_messages = False

    def note(self, text: str) -> None:
        self.add(f"# {text}")

    def header(self, text: str) -> None:
        self.add(text)
        self.asked.append(text)

    def event(self, text: str, asked: str | None = None) -> None:
        self.check_room(1)
        self.events += 1
        self.has_messages |= text.startswith("M")
        self.add(text)
        self.asked.append(text if asked is None else asked)

    def check_room(self, count: int) -> None:
        """Refuses as many more events where the trace would have too many."""
        if self.events + count > MAX_EVENTS:
            raise Refused(f"the trace has more than {MAX_EVENTS} events")

    def segment(self) -> None:
        self.header("sync")

    def add(self, line: str) -> None:
        self.bytes += len(line.encode(*TEXT)) + 1
        if self.bytes > MAX_BYTES:
            raise Refused(f"the trace has more than {MAX_BYTES} bytes")
        self.lines.append(line)

    def pass_over(self) -> None:
        """Leaves out what the exchange sends for the events so far."""
        self.answered = self.events

    def sent(self) -> list[Sent]:
        """What the exchange sends for the events that were added last."""
        trace = "".join(line + "\n" for line in self.asked).encode()
        first, self.answered = self.answered, self.events
        return [sent for reply in replies_of(program_at(self.program), trace, first) for sent in reply.sent]

    def quiet_frames(self, count: int) -> int:
        """How many of the next n frames pass before the exchange is heard: up to the first that sends something."""
        if not self.has_messages:
            return count
        trace = "".join(line + "\n" for line in [*self.asked, *["F"] * count]).encode()
        replies = replies_of(program_at(self.program), trace, self.events)
        return next((at for at, frame in enumerate(replies, start=1) if frame.sent), count)

    def text(self) -> bytes:
        return "".join(line + "\n" for line in self.lines).encode(*TEXT)
