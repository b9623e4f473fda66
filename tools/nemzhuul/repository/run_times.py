"""When the parts of the full check end, and how much is left of it if it takes as long as the last whole run.

`.ci/run` names the file of its times in an environment variable. It keeps the file of the last run without a failure.
A line has the seconds since the machine started, and the part that ended then: `begun` is the first, and `end` the last.
"""

from __future__ import annotations

import os
from pathlib import Path

VARIABLE = "RUN_TIMES"  # the file of this run
LAST = "last_run"  # the file of the last whole run, in the same folder


def now() -> float:
    """The seconds since the machine started."""
    return float(Path("/proc/uptime").read_text(encoding="utf-8").split()[0])


def times_in(path: Path) -> dict[str, float]:
    """When each part of a run ended, in their order. Nothing if there is no such file."""
    try:
        lines = [line.partition(" ") for line in path.read_text(encoding="utf-8").splitlines()]
        return {part: float(seconds) for seconds, _, part in lines}
    except (OSError, ValueError):
        return {}


def ended(part: str) -> None:
    """Records that a part of the full check has ended, if this is one."""
    if VARIABLE in os.environ:
        with open(os.environ[VARIABLE], "a", encoding="utf-8") as file:
            file.write(f"{now()} {part}\n")


def left() -> str:
    """How much is left of the full check, as the end of a sentence. Nothing if that is unknown, or it takes longer."""
    if VARIABLE not in os.environ:
        return ""
    path = Path(os.environ[VARIABLE])
    last, parts = times_in(path.with_name(LAST)), times_in(path)
    known = [part for part in parts if part in last]
    if not known or "end" not in last:
        return ""
    minutes = (last["end"] - last[known[-1]] - (now() - parts[known[-1]])) / 60
    return f"; {minutes:.0f} min are left if it takes as long as the last run" if minutes > 0 else ""
