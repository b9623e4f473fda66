"""Two processes that run one exchange: each way in which one of them fails, with a substitute and with the program."""

from __future__ import annotations

import contextlib
import os
import random
import re
import signal
import socket
import subprocess
import sys
import threading
import time
import zlib
from collections import deque
from collections.abc import Callable, Iterator, Sequence
from pathlib import Path
from unittest import mock

import support
from attached import Attached
from support import PATIENCE, InFolder, needs_program, slow, stream, tool
from test_data_links import LinkUser

from nemzhuul.live import realtime, standby
from nemzhuul.live.log import Writer
from nemzhuul.live.processes import Loop
from nemzhuul.live.standby import Pair
from nemzhuul.outputs import Output
from nemzhuul.traces.events import CHANNELS

PERIOD = 0.02  # seconds
FRAMES = 10  # of a period of the substitute

# It replies to a frame with the octets of four frames before, and to a message with a sum over all messages.
SUBSTITUTE = """#!/usr/bin/env -S python3 -I -S
import os, sys, time, zlib
from collections import deque
count, total, frames, begun = 0, 0, deque([b""] * 4, 4), b""
while text := os.read(0, 1 << 16):
    *lines, begun = (begun + text).split(b"\\n")
    for line in lines:
        if line[:1] == b"?":
            os.write(1, b"refused %d word\\n" % count)
            sys.exit(1)
        while line[:1] == b"~":
            time.sleep(1)
        if line[:1] == b"#":
            continue
        count += 1
        if line[:1] == b"F":
            reply = b"frame" + frames[0]
            frames.append(line[1:])
        else:
            total = zlib.crc32(line, total)
            reply = b"message %08x" % total
        os.write(1, b"%d %s\\n" % (count, reply))
"""


def replies(text: bytes) -> Iterator[bytes]:
    """What the substitute replies to these lines."""
    total, frames = 0, deque([b""] * 4, 4)
    lines = [line for line in text.splitlines() if line[:1] != b"#"]
    for count, line in enumerate(lines, start=1):
        if line[:1] == b"F":
            yield b"%d frame%s\n" % (count, frames[0])
            frames.append(line[1:])
        else:
            total = zlib.crc32(line, total)
            yield b"%d message %08x\n" % (count, total)


def corrupt(process: int, text: bytes) -> None:
    """Has a process get some more octets."""
    with open(f"/proc/{process}/fd/0", "wb", buffering=0) as pipe:
        pipe.write(text)


CORRUPTED: dict[str, Callable[[int], None]] = {
    "another line": lambda process: corrupt(process, b"M 0 0802000175\n"),
    "another frame": lambda process: corrupt(process, b"F\n"),
    "no line": lambda process: corrupt(process, b"?\n"),
    "part of a line": lambda process: corrupt(process, b"?"),
    "a line instead of the next": lambda process: corrupt(process, b"M 0 0802000175\n#"),
}
FAULTS: dict[str, Callable[[int], None]] = {
    "killed": lambda process: os.kill(process, signal.SIGKILL),
    "stopped": lambda process: os.kill(process, signal.SIGSTOP),
    **CORRUPTED,
    "silent": lambda process: corrupt(process, b"~\n"),
}


class Pairs(InFolder):
    """A pair of substitutes."""

    SETTINGS = b"nail 0/1 1/1\nnail 0/2 1/2\n"

    def setUp(self) -> None:
        super().setUp()
        (self.folder / "program").write_text(SUBSTITUTE)
        (self.folder / "program").chmod(0o755)
        self.said: list[str] = []
        for place in ("nemzhuul.live.standby.say", "nemzhuul.live.log.say"):
            patch = mock.patch(place, self.said.append)
            patch.start()
            self.addCleanup(patch.stop)
        self.loop = Loop()
        self.log, self.report = (Writer(Output(self.folder / name), f"the {name}") for name in ("log", "report"))
        for writer in (self.log, self.report):
            writer.begin()
            self.addCleanup(writer.close)
        self.given = self.got = b""
        self.period = 0

    def begin(self, history: bytes = b"") -> None:
        self.pair = Pair([self.folder / "program"], self.loop, self.take, self.report, self.log, PERIOD)
        self.addCleanup(self.pair.kill)
        self.give(self.SETTINGS + history)
        self.until(self.is_replied)
        self.pair.begin(self.events())

    def take(self, text: bytes) -> None:
        self.got += text + b"\n"

    def give(self, text: bytes) -> None:
        self.given += text
        self.log.write(text)
        self.log.settle()
        self.pair.send(text)

    def pids(self) -> list[int]:
        """The two processes."""
        return [member.process.pid for member in self.pair.members]

    def lines(self) -> bytes:
        """The lines of a period."""
        self.period += 1
        rows = [f"F 0:{self.period:04X}{at:02X}" for at in range(FRAMES)]
        return "\n".join([f"M 0 {self.period:08X}", "# a comment", *rows, ""]).encode()

    def events(self) -> int:
        return self.given.count(b"\n") - self.given.count(b"#")

    def is_replied(self) -> bool:
        return self.got.count(b"\n") == self.events()

    def until(self, is_done: Callable[[], bool]) -> None:
        last = time.monotonic() + PATIENCE
        while not is_done():
            self.assertFalse(self.pair.has_ended, self.said)
            self.assertLess(time.monotonic(), last, self.said)
            self.loop.wait(PERIOD)

    def periods(self, count: int) -> None:
        for _ in range(count):
            self.give(self.lines())
            self.until(self.is_replied)

    def loses(self, processes: Sequence[int], number: signal.Signals) -> None:
        """These processes get a signal. The others reply in their place."""
        for process in processes:
            os.kill(process, number)
        self.until(lambda: not set(processes) & set(self.pair.pids()))
        self.until(self.is_replied)

    def is_whole(self) -> bool:
        """Whether there are two processes, and a reserve that is ready."""
        return len(self.pair.members) == 2 and self.pair.reserve is not None and self.pair.reserve.is_ready()

    def ends_well(self) -> None:
        self.periods(3)
        self.assertEqual(self.pair.finish(lambda: False), 0)
        self.assertEqual(self.got, b"".join(replies(self.given)))
        self.report.close()
        self.assertEqual((self.folder / "report").read_bytes(), self.got)

    def test_both_at_once(self) -> None:
        """The reserve goes on, and then the new one goes on with the log alone."""
        self.begin()
        for _ in range(2):
            self.until(self.is_whole)
            self.periods(2)
            self.give(self.lines())
            self.loses(self.pids(), signal.SIGKILL)
        self.until(lambda: len(self.pids()) == 2)
        self.pair.discard_reserve()
        self.pair.retry = time.monotonic() + PATIENCE
        self.periods(1)
        self.give(self.lines())
        self.loses(self.pids(), signal.SIGKILL)
        self.assertTrue(any("no frame passes until a new one has read the log" in line for line in self.said))
        self.ends_well()

    def test_all_at_once(self) -> None:
        """With the reserve: a new process reads the log."""
        self.begin()
        for number in (signal.SIGKILL, signal.SIGSTOP):
            self.until(self.is_whole)
            self.periods(2)
            self.give(self.lines())
            self.loses(self.pair.pids()[:3], number)
        self.ends_well()

    def test_lines_that_each_process_refuses(self) -> None:
        """The exchange ends, with their status."""
        self.begin()
        self.until(self.is_whole)
        self.give(b"?\n")
        last = time.monotonic() + PATIENCE
        while not self.pair.has_ended and time.monotonic() < last:
            self.loop.wait(PERIOD)
        self.assertEqual(self.pair.finish(lambda: False), 1)
        self.assertEqual(self.got.splitlines()[-1], b"refused 2 word")

    def test_reserves_that_fail(self) -> None:
        """Another one is made, and none if the log cannot be written."""
        self.begin(b"".join(self.lines() for _ in range(300)))
        with mock.patch.object(standby, "RETRY_SECONDS", 0):
            for number in (signal.SIGKILL, signal.SIGSTOP):
                self.until(self.is_whole)
                reserve = self.pair.pids()[2]
                os.kill(reserve, number)
                self.periods(2)
                self.until(lambda: self.is_whole() and reserve not in self.pair.pids())
                if self.pair.reserve:
                    self.pair.reserve.feeder.kill()
        self.until(self.is_whole)
        self.log.give_up("")
        for _ in range(2):
            self.periods(1)
            corrupt(self.pids()[-1], b"F\n")
            self.periods(2)
        self.assertEqual(len(self.pair.pids()), 1)
        self.assertEqual(sum("no new standby can be made" in line for line in self.said), 1)
        self.ends_well()

    def test_reports_that_differ(self) -> None:
        """They are kept, each from the line on that is said."""
        self.begin()
        self.until(self.is_whole)
        self.periods(2)
        right, wrong = self.pids()
        corrupt(wrong, b"M 0 0802000175\n")
        self.periods(1)
        line = self.period * (FRAMES + 1) - FRAMES + self.SETTINGS.count(b"\n")
        self.assertTrue(self.said[-5].endswith(f"process {right} and process {wrong} differ at line {line} of the report"), self.said)
        self.ends_well()
        self.pair.kill()
        given = self.got.splitlines()
        kept = [(self.folder / f"log.{line}.{process}").read_bytes().splitlines() for process in (right, wrong)]
        self.assertEqual(kept[0], given[line - 1 :][: len(kept[0])])
        self.assertEqual([row.split()[0] for row in (kept[0][0], kept[1][0])], [b"%d" % line] * 2)
        self.assertNotEqual(kept[0][0], kept[1][0])

    def test_wrong_reserves(self) -> None:
        """One that differs is ended when it has joined. If it agrees with neither of two that differ, the next one decides."""
        self.begin()
        self.until(self.is_whole)
        self.periods(3)
        first, second, reserve = self.pair.pids()[:3]
        corrupt(reserve, b"M 0 0802000175\n")
        os.kill(first, signal.SIGKILL)
        self.periods(2)
        self.until(lambda: self.is_whole() and self.pids()[0] == second)
        self.assertNotIn(reserve, self.pair.pids())
        self.periods(3)
        _, third, reserve = self.pair.pids()[:3]
        corrupt(reserve, b"M 0 0802000175\n")
        corrupt(third, b"M 0 0802000176\n")
        self.periods(2)
        self.until(lambda: len(self.pids()) == 2)
        self.assertEqual((self.pids()[0], {third, reserve} & {*self.pids()}), (second, set()))
        self.assertEqual(sum("agrees with neither" in line for line in self.said), 1, self.said)
        self.until(self.is_whole)
        first, second, reserve = self.pair.pids()[:3]
        corrupt(reserve, b"M 0 0802000175\n" * 1000)
        self.until(lambda: self.pair.reserve is not None and self.pair.reserve.lines > self.pair.replied)
        os.kill(first, signal.SIGKILL)
        self.until(lambda: self.is_whole() and self.pids()[0] == second)
        self.assertNotIn(reserve, self.pair.pids())
        self.ends_well()

    def test_a_difference_that_no_log_decides(self) -> None:
        self.begin()
        self.until(self.is_whole)
        self.pair.discard_reserve()
        self.log.give_up("")
        first = self.pids()[0]
        corrupt(self.pids()[1], b"F\n")
        self.periods(2)
        self.assertEqual(self.pids(), [first])
        self.ends_well()

    @slow
    def test_each_fault(self) -> None:
        """Of either process, before it gets the lines of a period and after that; the new standby takes over the next time."""
        self.begin()
        for name, fault in FAULTS.items():
            for which in (0, 1):
                for is_before in (True, False):
                    with self.subTest(fault=name, which=which, is_before=is_before):
                        self.until(self.is_whole)
                        self.periods(3)
                        before = self.pids()
                        if is_before:
                            fault(before[which])
                        self.give(self.lines())
                        if not is_before:
                            fault(before[which])
                        self.until(self.is_replied)
                        self.periods(2)
                        self.until(lambda: len(self.pair.members) == 2 and before[which] not in self.pair.pids())
                        self.assertIn(before[1 - which], self.pair.pids())
        self.ends_well()


class FullLine(threading.Thread):
    """An endpoint that sends numbered frames with a lead, one for each that it gets, and keeps what it gets."""

    LEAD = 1600  # frames

    def __init__(self, path: Path) -> None:
        super().__init__(daemon=True)
        self.connection = socket.socket(socket.AF_UNIX)
        self.connection.settimeout(PATIENCE)
        self.connection.connect(str(path))
        self.heard = bytearray()
        self.frames = self.sent = 0

    def speak(self, count: int) -> None:
        rows = [f"F {at:06X}".ljust(20, "5") + "6" * 42 for at in range(self.sent, self.sent + count)]
        self.sent += count
        self.connection.sendall(("\n".join(rows) + "\n").encode())

    def run(self) -> None:
        self.speak(self.LEAD)
        with contextlib.suppress(OSError), self.connection.makefile("rb") as lines:
            for line in lines:
                if line.startswith(b"F"):
                    self.heard += bytes.fromhex(line[2:].decode())
                    self.frames += 1
                    if self.frames % 80 == 0:
                        with contextlib.suppress(OSError):  # the exchange has ended, and the last frames are still to be read
                            self.speak(80)


@needs_program
class Standby(Attached):
    """Full lines, of which each two are nailed to each other, and a data link. The exchange has a standby."""

    LINES, SEED, MOMENTS = 2, 1, 14

    def setUp(self) -> None:
        pairs = [(line, channel) for line in range(0, self.LINES, 2) for channel in CHANNELS]
        self.SETTINGS = f"exchange 1 {self.LINES + 1} 0 1\n"
        self.SETTINGS += "".join(f"nail {line}/{channel} {line + 1}/{channel}\n" for line, channel in pairs)
        super().setUp()
        self.attach("--standby", lines=range(self.LINES), linked=(self.LINES,))
        self.endpoints = [FullLine(self.folder / f"line{line}") for line in range(self.LINES)]
        for endpoint in self.endpoints:
            self.addCleanup(endpoint.connection.close)
            endpoint.start()
        self.user = LinkUser(self.folder / f"link{self.LINES}")
        self.addCleanup(self.user.connection.close)
        self.user.establish()
        self.user.gotten.clear()
        self.pair = self.processes()

    def processes(self) -> tuple[int, int]:
        """Waits until there is a standby. Returns the two processes."""
        for line in self.errors:
            self.said.append(line)
            if match := re.match("attach: process ([0-9]+) runs the exchange, .* and process ([0-9]+) stands by$", line):
                return int(match[1]), int(match[2])
        self.fail("".join(self.said))

    def enquire(self) -> None:
        """A message and its reply pass over the data link."""
        self.user.submit(bytes.fromhex("0802000175"))
        self.user.gets("080280017D0802829E140100")

    def ends_well(self) -> None:
        """The log runs again to what was sent: no octet is missing, doubled or changed, and the data link was not reset."""
        self.enquire()
        self.assertEqual([octets.hex() for octets in self.user.gotten if octets[2] & 0xEF in (0x6F, 0x0F)], [], "SABME or DM")
        self.end()
        for line, endpoint in enumerate(self.endpoints):
            endpoint.join(PATIENCE)
            sent = b"".join(self.octets("live.report", line, " frame "))
            self.assertGreater(endpoint.frames, 800)
            self.assertEqual(sent.endswith(endpoint.heard), True)
            numbers = [int.from_bytes(row[:3], "big") for row in self.octets("live.trace", line, " F ") if row[3] == 0x55]
            self.assertEqual(numbers, sorted(set(numbers)))

    def fault(self, name: str, which: int) -> None:
        """A process of the pair fails. On a busy machine the tool may have dropped it already, and others after it."""
        self.enquire()
        lost = self.pair[which]
        with contextlib.suppress(OSError):
            FAULTS[name](lost)
        while lost in self.pair:
            self.pair = self.processes()

    @slow
    def test_random_moments(self) -> None:
        """Each of the two fails in each way; the next one fails when there is a standby again."""
        chance = random.Random(self.SEED)
        cases = [(name, which) for name in ("killed", "stopped", *CORRUPTED) for which in (0, 1)]
        moments = cases * -(-self.MOMENTS // len(cases))
        chance.shuffle(moments)
        for name, which in moments[: self.MOMENTS]:
            time.sleep(chance.uniform(0.05, 0.3))
            with self.subTest(name=name, which=which):
                self.fault(name, which)
        self.ends_well()


class Words(InFolder):
    """What the standby reads."""

    def test_what_is_fed(self) -> None:
        """The log, as soon as it has all. Only the frames at its end have octets, as many as matter."""
        frames = [f"F 0:{at:060X}\n".encode() for at in range(9)]
        content = b"nail 0/1 1/1\n" + b"".join(frames[:6]) + b"M 0 0802000175\n# a comment\n" + b"".join(frames[6:])
        wanted = b"nail 0/1 1/1\n" + b"F\n" * 5 + frames[5] + b"M 0 0802000175\n# a comment\n" + b"".join(frames[6:])
        path = self.folder / "log"
        path.write_bytes(content[:100])
        words = [sys.executable, "-B", "-c", standby.FEED, str(standby.PACKAGES), str(len(content))]
        with open(path, "rb") as log, subprocess.Popen(words, stdin=log, stdout=subprocess.PIPE) as feeder:
            with open(path, "ab") as more:
                more.write(content[100:] + b"F\n")
            self.assertEqual(stream(feeder.stdout).read(), wanted)
        self.assertEqual(feeder.returncode, 0)

    def test_scheduling(self) -> None:
        """A process that reads the log takes no time of those with SCHED_RR, until its replies are taken."""
        cases: tuple[tuple[int, list[int]], ...] = ((os.SCHED_OTHER, []), (os.SCHED_RR, [os.SCHED_OTHER, os.SCHED_RR]))
        for policy, wanted in cases:
            found: list[Sequence[int]] = []
            with mock.patch.object(os, "sched_getscheduler", lambda _, policy=policy: policy):
                with mock.patch.object(os, "sched_setscheduler", lambda *words: found.append(words[:2])):
                    realtime.as_background(7)
                    realtime.as_foreground(7)
            self.assertEqual(found, [(7, number) for number in wanted])

    def test_logs_that_cannot_be_read_again(self) -> None:
        (self.folder / "settings").write_text("exchange 1 3 0 1\n")
        os.mkfifo(self.folder / "pipe")
        for options in ((), ("--log", "pipe")):
            found = tool("attach", "--standby", *options, "--line", "0", "unix:line0", "settings", folder=self.folder)
            self.assertEqual(found, (1, b"", "attach: a standby needs a log that is a file: --log FILE\n"))


if __name__ == "__main__":
    support.main()
