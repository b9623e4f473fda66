"""Runs a program whose requests for memory or threads, or whose reads or writes, are refused by .ci/failing.c."""

from __future__ import annotations

import os
import subprocess
import tempfile
from collections.abc import Sequence
from dataclasses import dataclass
from pathlib import Path

SOURCE = Path(__file__).resolve().with_suffix(".c")
MANY = 1 << 62


@dataclass(frozen=True)
class Refusal:
    """The calls of a kind that are refused: `memory`, `threads`, `reads` or `writes`, from one on up to the last. Reads and
    writes take at most as many octets at once as the piece has."""

    what: str
    first: int
    last: int
    read_piece: int = 0
    write_piece: int = 0

    @property
    def environment(self) -> dict[str, str]:
        pieces = {"READ_PIECE": self.read_piece, "WRITE_PIECE": self.write_piece}
        most = {name: str(size) for name, size in pieces.items() if size}
        return {"FAIL_WHAT": self.what, "FAIL_FIRST": str(self.first), "FAIL_LAST": str(self.last), **most}


@dataclass(frozen=True)
class End:
    """How a run ended: its status, what it wrote, what it said on standard error, and whether it made a refused call."""

    status: int
    written: bytes
    said: bytes
    is_refused: bool


def shim_in(folder: Path | str) -> Path | None:
    """The library that refuses calls, compiled into a folder, or None where there is no C compiler."""
    shim = Path(folder) / "failing.so"
    done = subprocess.run(["cc", "-O2", "-shared", "-fPIC", "-o", shim, SOURCE, "-ldl"], check=False)
    return shim if done.returncode == 0 else None


def run_refused(shim: Path, refusal: Refusal, command: Sequence[str | Path], given: bytes) -> End:
    """Runs a command with this input while calls are refused."""
    with tempfile.TemporaryFile() as told:
        done = subprocess.run(
            command,
            input=given,
            capture_output=True,
            env={"LD_PRELOAD": str(shim), "FAIL_TELL": str(told.fileno()), **refusal.environment},
            pass_fds=[told.fileno()],
            timeout=60,
            check=False,
        )
        return End(done.returncode, done.stdout, done.stderr, told.seek(0, os.SEEK_END) > 0)
