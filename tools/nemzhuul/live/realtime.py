"""What an exchange asks of the system to keep time: a scheduling class, and memory that is not written to a disk."""

from __future__ import annotations

import contextlib
import ctypes
import os
import resource

from nemzhuul.command_line import NAME, say

PRIORITY = 10  # of 1 to 99
MCL_CURRENT, MCL_FUTURE = 1, 2


def ask_for_realtime() -> None:
    """Asks for SCHED_RR, which processes that are started later have too, and for locked memory. Says what is refused."""
    try:
        os.sched_setscheduler(0, os.SCHED_RR, os.sched_param(PRIORITY))
    except OSError as error:
        say_refused("SCHED_RR", os.strerror(error.errno or 0))
    why = lock_memory()
    if why is not None:
        say_refused("locked memory", why)


def as_background(process: int) -> None:
    """Has a process that was started take no time of those that have SCHED_RR."""
    if os.sched_getscheduler(0) == os.SCHED_RR:
        set_scheduler(process, os.SCHED_OTHER, os.sched_param(0))


def as_foreground(process: int) -> None:
    """Has a process the scheduling class of this one."""
    if os.sched_getscheduler(0) == os.SCHED_RR:
        set_scheduler(process, os.SCHED_RR, os.sched_getparam(0))


def set_scheduler(process: int, policy: int, parameter: os.sched_param) -> None:
    with contextlib.suppress(OSError):
        os.sched_setscheduler(process, policy, parameter)


def say_refused(what: str, why: str) -> None:
    say(f"{NAME}: {what} is refused, and the exchange goes on without it: {why}")


def lock_memory() -> str | None:
    """Locks the memory of this process. Returns why not: with a limit, a later allocation would fail."""
    most, _ = resource.getrlimit(resource.RLIMIT_MEMLOCK)
    if most != resource.RLIM_INFINITY and os.geteuid() != 0:
        return f"at most {most // 1024} KiB can be locked"
    if ctypes.CDLL(None, use_errno=True).mlockall(MCL_CURRENT | MCL_FUTURE) == 0:
        return None
    return os.strerror(ctypes.get_errno())
