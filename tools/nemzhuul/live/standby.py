"""Two processes that run one exchange. If one of them fails, the other goes on at the very octet.

Both get each line. What they reply is taken when both have replied it, octet for octet: the program is deterministic. A
third process, the reserve, is fed from the log, and then follows the two by frames without octets, which takes little
time. It takes the place of one that fails, and says which of two that differ has replied as the log has it.
"""

from __future__ import annotations

import contextlib
import os
import select
import signal
import subprocess
import sys
import time
from collections import deque
from collections.abc import Callable, Sequence
from itertools import islice
from pathlib import Path
from typing import BinaryIO, NamedTuple

from nemzhuul.command_line import NAME, Refused, say
from nemzhuul.live.feeding import KEPT_FRAMES
from nemzhuul.live.log import Writer
from nemzhuul.live.processes import Exchange, Loop, Replies
from nemzhuul.live.realtime import as_background, as_foreground
from nemzhuul.outputs import Output

PATIENCE_PERIODS = 5  # in which a process has to reply what the other one has replied
RETRY_SECONDS = 1  # after a reserve that failed
END_SECONDS = 0.05  # in which a process that has closed its output has a status

PACKAGES = Path(__file__).resolve().parents[2]
FEED = "import sys; sys.path.insert(0, sys.argv[1]); from nemzhuul.live.feeding import feed; feed(*map(int, sys.argv[2:]))"


def check_log(path: str | None) -> None:
    """Refuses a log that cannot be read again."""
    if path is None or os.path.exists(path) and not os.path.isfile(path):
        raise Refused("a standby needs a log that is a file: --log FILE")


class Kept(NamedTuple):
    """Lines that were given to the two processes, and not to the reserve yet."""

    text: bytes
    bare: bytes  # without the octets of frames
    place: int  # in the log, where they begin
    frames: int
    end: int  # how many replies there are to them and to all lines before them


def bare_lines(text: bytes) -> tuple[bytes, int, int]:
    """Whole lines of a trace without the octets of frames; how many of them are frames; and how many are events."""
    rows = [b"F" if row.startswith(b"F") else row for row in text.split(b"\n")[:-1]]
    comments = sum(row.startswith(b"#") for row in rows)
    return b"".join(row + b"\n" for row in rows), rows.count(b"F"), len(rows) - comments


def equal_lines(one: bytes, other: bytes) -> bytes:
    """The lines with which both begin."""
    size = 0
    for line, same in zip(one.split(b"\n"), other.split(b"\n")):
        if line != same:
            break
        size += len(line) + 1
    return one[:size]


class Member(Exchange):
    """A process of the exchange: one of the two, or the reserve."""

    def __init__(self, words: Sequence[str | Path], loop: Loop, pair: Pair) -> None:
        super().__init__(words, loop, self.take, Writer(Output(None), ""))
        self.pair = pair
        self.out = b""  # whole lines of its replies that are not taken yet
        self.count = 0  # how many they are
        self.lines = 0  # replies that were passed over
        self.due: int | None = 0  # replies that are passed over before any is taken; None for all
        self.silent = 0  # periods in which it has replied nothing, and another one has replied more

    @property
    def name(self) -> str:
        return f"process {self.process.pid}"

    def read(self) -> None:
        self.silent = 0
        super().read()
        if self.has_ended:
            self.pair.end_of(self)

    def take(self, text: bytes) -> None:
        text += b"\n"
        if self.due is None:
            self.lines += text.count(b"\n")
            return
        if self.due:
            *passed, text = text.split(b"\n", self.due)
            self.due -= len(passed)
        self.out += text
        self.count += text.count(b"\n")
        self.pair.advance()

    def is_stopped(self) -> bool:
        """Whether a signal has stopped it, so that it waits for another one."""
        with contextlib.suppress(ChildProcessError):
            return os.waitid(os.P_PID, self.process.pid, os.WSTOPPED | os.WNOHANG | os.WNOWAIT) is not None
        return False

    def has_replied(self) -> bool:
        """Whether it has replied something that is not read yet."""
        poll = select.poll()
        poll.register(self.output, select.POLLIN)
        return bool(poll.poll(0))

    def status_text(self) -> str:
        """How it has ended."""
        try:
            status = self.process.wait(END_SECONDS)
        except subprocess.TimeoutExpired:
            return "has ended"
        if status >= 0:
            return f"has ended with status {status}"
        return f"was ended by {signal.Signals(-status).name}"

    def leave(self) -> None:
        """Ends the process, and takes nothing more of it. It is not waited for: it may hang."""
        self.has_ended = True
        self.loop.watch(self.output)
        self.loop.watch(self.input)
        self.process.kill()

    def is_over(self) -> bool:
        return self.process.poll() is not None

    def close(self) -> None:
        self.output.close()
        with contextlib.suppress(BrokenPipeError):
            self.input.close()


class Reserve(Member):
    """A process that another one, the feeder, brings to the state of the log up to a place, while the exchange goes on."""

    def __init__(self, words: Sequence[str | Path], loop: Loop, pair: Pair, log: BinaryIO, place: int) -> None:
        super().__init__(words, loop, pair)
        self.due = None
        self.waiting: list[bytes] = []  # lines that it gets after the feeder's
        leaves = ["-B"] if sys.dont_write_bytecode else []
        command = [sys.executable, "-I", "-S", *leaves, "-c", FEED, str(PACKAGES), str(place)]
        self.feeder = subprocess.Popen(command, stdin=log, stdout=self.input, start_new_session=True)
        for number in (self.process.pid, self.feeder.pid):
            as_background(number)

    def is_ready(self) -> bool:
        """Whether it has got all that it was given."""
        return self.feeder.poll() == 0

    def follow(self, bare: bytes) -> None:
        self.waiting.append(bare)
        if self.is_ready():
            self.send(b"".join(self.waiting))
            self.waiting.clear()

    def leave(self) -> None:
        self.feeder.kill()
        super().leave()

    def is_over(self) -> bool:
        return self.feeder.poll() is not None and super().is_over()

    def kill(self) -> None:
        self.feeder.kill()
        self.feeder.wait()
        super().kill()


class Pair:
    """Two processes that behave as one exchange. It begins with one, and gets a standby as it gets each later one."""

    def __init__(
        self, words: Sequence[str | Path], loop: Loop, replies: Replies, report: Writer, log: Writer, period: float
    ) -> None:
        self.words, self.loop, self.replies, self.report = words, loop, replies, report
        self.log, self.period = log, period
        self.log_file = open(log.output.path or "", "rb")  # which the reserve is fed from
        self.members = [Member(words, loop, self)]
        self.reserve: Reserve | None = None
        self.kept: deque[Kept] = deque()
        self.given: int | None = None  # events, from the beginning on
        self.base = 0  # events before the first lines that are kept
        self.replied = 0  # replies that were taken
        self.is_disputed = False  # the two have replied different lines
        self.is_doubted = False  # a third process agreed with neither
        self.is_ending = self.has_ended = self.is_warned = False
        self.lost_at = -1  # replies that were taken when no process was left, and a new one was made
        self.retry = 0.0  # when the next reserve may be made
        self.said: list[int] = []  # the processes that were said
        self.gone: list[Member] = []  # processes that are ended, and may still have to end
        self.last = self.members[0]  # the last one of them
        self.differing: list[Writer] = []  # files with replies that differ

    @property
    def unsent(self) -> bytearray:
        return next((member.unsent for member in self.members if member.unsent), bytearray())

    def pids(self) -> list[int]:
        reserves = [self.reserve] if self.reserve else []
        return [member.process.pid for member in [*self.members, *reserves]] + [reserve.feeder.pid for reserve in reserves]

    def begin(self, given: int) -> None:
        """The clock starts, after this number of events, which the log has: from now on there is a standby."""
        self.given = self.base = given
        self.check()

    def send(self, text: bytes) -> None:
        """Gives lines that the log has just got."""
        for member in list(self.members):
            member.send(text)
        if self.given is not None:
            bare, frames, events = bare_lines(text)
            self.given += events
            self.kept.append(Kept(text, bare, self.log.end - len(text), frames, self.given))
            self.release()

    def finish(self, is_hurried: Callable[[], bool]) -> int | None:
        """Ends the input, takes what the exchange still replies, and returns its status; None if it does not end in time."""
        self.is_ending = True
        self.discard_reserve()
        found = {member: member.finish(is_hurried) for member in list(self.members)}
        self.members = [member for member in self.members if found[member] == 0] or self.members[:1]
        self.advance()
        for member in self.members:
            if member.out and not self.is_disputed:
                say(f"{NAME}: {member.name} has replied more than the other one, from line {self.replied + 1} of the report on")
        if self.is_disputed:
            self.keep_reports()
        return found[self.members[0]] if self.members else self.last.process.wait()

    def kill(self) -> None:
        """Ends all processes."""
        self.discard_reserve()
        for member in [*self.members, *self.gone]:
            member.kill()
            member.close()
        for writer in self.differing:
            writer.close()
        self.log_file.close()

    # ---- replies

    def advance(self) -> None:
        """Takes the lines that all members have replied. With a standby, it waits for all of a period: each turn costs time."""
        if self.is_disputed:
            self.decide()
            return
        outs = [member.out for member in self.members]
        shortest = min(outs, key=len, default=b"")
        if not all(out.startswith(shortest) for out in outs):
            self.deliver(equal_lines(*outs))
            self.dispute()
            self.recover()
        elif self.is_ending or len(outs) == 1:
            self.deliver(shortest)
        elif all(map(self.is_complete, self.members)):
            self.deliver(shortest)
            over = [member for member in self.members if member.out]
            if over:
                self.dispute()
                self.drop(over, "has replied to a line that it was not given")

    def is_complete(self, member: Member) -> bool:
        """Whether a process has replied to all that it was given."""
        return self.given is None or self.replied + member.count >= self.given

    def deliver(self, text: bytes) -> None:
        if not text:
            return
        count = text.count(b"\n")
        for member in self.members:
            member.out = member.out[len(text) :]
            member.count -= count
        self.replied += count
        self.report.write(text)
        self.replies(text[:-1])

    def dispute(self) -> None:
        """The two have replied different lines. Neither is taken before a third process has replied to it."""
        self.is_disputed = True
        names = " and ".join(member.name for member in self.members)
        say(f"{NAME}: {names} differ at line {self.replied + 1} of the report")

    def decide(self) -> None:
        """Ends a dispute, if the third process has replied."""
        lines = [member.out.partition(b"\n")[0] for member in self.members]
        if len(lines) < 3 or not all(lines):
            return
        wrong = [member for member, line in zip(self.members, lines) if line != lines[2]]
        is_lonely = len(wrong) == 2 and not self.is_doubted
        self.is_doubted = is_lonely  # the next one, which reads the whole log, decides in any case
        if is_lonely:
            self.drop(self.members[2:], "agrees with neither")
        else:
            self.drop(wrong, "differs from the log")

    def keep_reports(self) -> None:
        """Writes what the two have replied from the line on at which they differ."""
        for member in self.members[:2]:
            path = f"{self.log.output.path}.{self.replied + 1}.{member.process.pid}"
            try:
                writer = Writer(Output(path), "a report that differs")
            except Refused as refusal:
                say(f"{NAME}: {refusal}")
                continue
            self.differing.append(writer)
            writer.begin()
            writer.write(member.out)
            say(f"{NAME}: {path} has what {member.name} replied from there on")

    # ---- processes that fail

    def check(self) -> None:
        """Looks at the processes, once a period."""
        now = time.monotonic()
        self.loop.call_at(now + self.period, self.check)
        for member in list(self.members):
            if member not in self.members or member.has_ended:
                continue
            if member.is_stopped():
                self.drop([member], "is stopped")
            elif self.is_late(member):
                self.drop([member], f"has not replied for {PATIENCE_PERIODS * self.period * 1000:.0f} ms")
        if not self.is_ending:
            self.check_reserve(now)
            while self.gone and self.gone[0].is_over():
                self.gone.pop(0).close()
            while self.differing and self.differing[0].has_all():
                self.differing.pop(0).close()

    def is_late(self, member: Member) -> bool:
        """Whether it has replied nothing for too long, and another one more. The periods are those in which this tool ran."""
        is_behind = not self.is_complete(member) and member.count < max(other.count for other in self.members)
        member.silent = member.silent + 1 if is_behind else 0
        return member.silent > PATIENCE_PERIODS and not member.has_replied()

    def end_of(self, member: Member) -> None:
        """A process has closed its output."""
        if member is self.reserve:
            self.fail_reserve(member.status_text())
        elif member in self.members and not self.is_ending:
            self.drop([member], member.status_text())

    def drop(self, members: Sequence[Member], why: str) -> None:
        """Goes on without these processes."""
        if self.is_disputed and self.members[2:] != members:
            self.keep_reports()
            self.is_disputed = self.is_doubted = False
        for member in members:
            self.members.remove(member)
            member.leave()
            self.gone.append(member)
            self.last = member
            say(f"{NAME}: {member.name} {why}")
        self.recover()
        self.advance()

    def recover(self) -> None:
        """Has the reserve join the others if it is needed and ready."""
        if self.is_ending:
            return
        is_needed = len(self.members) < (3 if self.is_disputed else 2)
        if is_needed and self.reserve is not None and self.reserve.is_ready():
            self.join(self.reserve)
        elif is_needed and self.reserve is None and self.log.is_given_up:
            self.go_on_without_log()
        self.has_ended |= not self.members and self.given is None
        self.say_members()

    def go_on_without_log(self) -> None:
        """No reserve is ready, and none can be made."""
        if not self.is_warned:
            self.is_warned = True
            say(f"{NAME}: no new standby can be made, because the log is given up")
        self.has_ended = not self.members
        if self.is_disputed:
            self.drop(self.members[1:], "is ended, because no log says which one is right")

    def say_members(self) -> None:
        """Says which processes run the exchange, if these are others now."""
        pids = [member.process.pid for member in self.members]
        if self.is_disputed or pids == self.said or self.has_ended:
            return
        self.said = pids
        alone, standby = (f"runs the exchange{way}, from line {self.replied + 1} of the report on" for way in (" alone", ""))
        if len(pids) == 1:
            say(f"{NAME}: process {pids[0]} {alone}")
        elif pids:
            say(f"{NAME}: process {pids[0]} {standby}, and process {pids[1]} stands by")
        else:
            say(f"{NAME}: no process is left, and no frame passes until a new one has read the log")

    # ---- the reserve

    def release(self) -> None:
        """Gives the reserve the lines that it gets without octets. The octets of the last frames are kept for it."""
        settled = sum(kept.end <= self.replied for kept in self.kept)
        needed = KEPT_FRAMES if self.reserve else 0
        while settled and sum(kept.frames for kept in islice(self.kept, 1, settled)) >= needed:
            settled -= 1
            bare = self.kept.popleft().bare
            if self.reserve:
                self.reserve.follow(bare)

    def check_reserve(self, now: float) -> None:
        """Makes a reserve if there is none, and gives up one that fails."""
        is_due = now >= self.retry if self.members else self.lost_at != self.replied
        if not self.members and self.reserve is None:
            self.has_ended = not is_due  # the last process that read the log has brought it no further
            self.lost_at = self.replied
        if self.reserve is None and is_due and self.replied >= self.base and not self.log.is_given_up:
            self.make_reserve()
        elif self.reserve is not None and self.reserve.is_stopped():
            self.fail_reserve("is stopped")
        elif self.reserve is not None and self.reserve.feeder.poll():
            self.fail_reserve("cannot be fed from the log")
        self.recover()

    def make_reserve(self) -> None:
        """Has a new process read the log in the background, up to the lines that are not replied to."""
        self.retry = time.monotonic() + RETRY_SECONDS
        self.release()
        place = self.kept[0].place if self.kept else self.log.end
        self.reserve = Reserve(self.words, self.loop, self, self.log_file, place)

    def fail_reserve(self, why: str) -> None:
        if self.reserve is not None:
            say(f"{NAME}: {self.reserve.name}, which was to be a standby, {why}")
            self.discard_reserve()

    def discard_reserve(self) -> None:
        if self.reserve is not None:
            self.reserve.leave()
            self.gone.append(self.reserve)
            self.reserve = None

    def join(self, reserve: Reserve) -> None:
        """The reserve is one of the processes whose replies are compared."""
        if reserve.lines > self.replied:
            self.fail_reserve("has replied more than the exchange")
            return
        self.reserve = None
        self.retry = 0.0
        reserve.follow(b"")
        reserve.send(b"".join(kept.text for kept in self.kept))
        reserve.due = self.replied - reserve.lines
        as_foreground(reserve.process.pid)
        self.members.append(reserve)
