"""What a run of a program takes of the processor and of memory."""

from __future__ import annotations

import os
import subprocess
import time
from collections.abc import Mapping, Sequence
from dataclasses import dataclass
from pathlib import Path
from types import MappingProxyType


@dataclass(frozen=True)
class Usage:
    """The processor seconds of a run, over all threads, the peak of its memory in MB, and its seconds by the wall. What Python
    holds at the start of a program counts as the program's."""

    seconds: float
    peak: float
    wall: float


class Failed(Exception):
    """A program ended with a status that it must not have."""


def measure(
    command: Sequence[str | Path],
    source: Path | str,
    sink: Path | str,
    may_end: Sequence[int] = (0,),
    more: Mapping[str, str] = MappingProxyType({}),
) -> Usage:
    """What a command takes that reads one file and writes another, with more variables in its environment."""
    begun = time.monotonic()
    with open(source, "rb") as given, open(sink, "wb") as said:
        child = subprocess.Popen(command, stdin=given, stdout=said, env={**os.environ, **more})
    return waited(child, Path(source).name, may_end, begun)


def waited(child: subprocess.Popen[bytes], what: str, may_end: Sequence[int] = (0,), begun: float | None = None) -> Usage:
    """What a child took, from a time or from now on, until it ended."""
    begun = time.monotonic() if begun is None else begun
    _, raw, used = os.wait4(child.pid, 0)
    status = child.returncode = os.waitstatus_to_exitcode(raw)
    if status not in may_end:
        command = child.args if isinstance(child.args, list) else [child.args]
        raise Failed(f"{' '.join(map(str, command))} ended with {status} over {what}")
    return Usage(used.ru_utime + used.ru_stime, used.ru_maxrss / 1024, time.monotonic() - begun)
