"""Files of a running exchange that are full or take nothing: no call ends, and a signal always ends the tool."""

from __future__ import annotations

import os
import re
import resource
import signal
import subprocess
import time
from pathlib import Path
from unittest import mock

import support
from attached import Attached
from support import PATIENCE, InFolder, needs_program, slow

from nemzhuul.live import log
from nemzhuul.live.log import Writer
from nemzhuul.live.records import HEADER
from nemzhuul.outputs import Output
from nemzhuul.programs.program import PROGRAM

REFUSED_SETUP = "M 080200020504038090A3700480393939"  # to the number 999, which has no line
STATUS_ENQUIRY, STATUS = "M 0802000175", "M 080280017D0802829E140100"
GIVEN_UP = re.compile("^attach: (the [a-z]+) is given up, and the calls go on: (.*)$")
ENDS = 15  # seconds in which the tool ends after a signal


@needs_program
class FullFiles(Attached):
    """Files that take no octet more from some length on."""

    LENGTH = 60_000

    def attach_with_limit(self, *options: str) -> None:
        before = resource.getrlimit(resource.RLIMIT_FSIZE)
        resource.setrlimit(resource.RLIMIT_FSIZE, (self.LENGTH, before[1]))
        try:
            self.attach(*options)
        finally:
            resource.setrlimit(resource.RLIMIT_FSIZE, before)

    def fill(self) -> None:
        """Sends messages and frames, so that each file grows."""
        speaker = self.attached(0)
        for _ in range(8):
            speaker.send(*[STATUS_ENQUIRY] * 100, *["F " + "11" * 30] * 400)
        speaker.send("F none")

    def test_each_is_given_up(self) -> None:
        self.attach_with_limit()
        self.fill()
        given_up: dict[str, str] = {}
        for line in self.errors:
            if match := GIVEN_UP.match(line):
                given_up[match[1]] = match[2]
            if len(given_up) == 3:
                break
        names = {"the log": "live.trace", "the report": "live.report", "the capture": "capture"}
        self.assertEqual(given_up, {what: f"{name} cannot be written: File too large" for what, name in names.items()})
        other = self.attached(1)
        other.send(STATUS_ENQUIRY)
        self.assertEqual(other.gets("M"), STATUS)
        self.work.send_signal(signal.SIGTERM)
        said = self.errors.read()
        self.assertEqual((self.work.wait(), "given up" in said), (0, False), "each is said once")

    def test_an_exchange_that_needs_its_log(self) -> None:
        self.attach_with_limit("--needs-log")
        self.fill()
        said = self.errors.read()
        self.assertEqual(self.work.wait(), 1)
        self.assertEqual(said.splitlines()[-1], "attach: the exchange needs its log, and has ended without it")


@needs_program
class FullDisk(Attached):
    """A disk on which no octet more fits. Only root can mount one."""

    SIZE = 65_536

    def setUp(self) -> None:
        super().setUp()
        disk = self.folder / "disk"
        disk.mkdir()
        words = ["mount", "-t", "tmpfs", "-o", f"size={self.SIZE}", "tmpfs", str(disk)]
        done = subprocess.run(words, capture_output=True, text=True, check=False)
        if done.returncode:
            self.skipTest(f"no disk can be mounted: {done.stderr.strip()}")
        self.addCleanup(lambda: subprocess.run(["umount", "-l", str(disk)], check=True))

    @slow
    def test_each_file(self) -> None:
        """It is given up, the others have everything, and the calls go on."""
        files = {"the log": "live.trace", "the report": "live.report", "the capture": "capture", "the records": "records"}
        for what, name in files.items():
            with self.subTest(name=name):
                content = HEADER.ljust(self.SIZE, b"\n") if name == "records" else b""
                (self.folder / "disk" / name).write_bytes(content)
                (self.folder / name).symlink_to(f"disk/{name}")
                self.attach("--records", "records")
                speaker = self.attached(0)
                for _ in range(8):
                    speaker.send(*[STATUS_ENQUIRY] * 100, *["F " + "11" * 30] * 400, REFUSED_SETUP)
                for _ in range(8 * 101):
                    speaker.gets("M")
                self.until(f"attach: {what} is given up, and the calls go on: {name} cannot be written: No space left on device")
                other = self.attached(1)
                other.send(STATUS_ENQUIRY)
                self.assertEqual(other.gets("M"), STATUS)
                self.work.send_signal(signal.SIGTERM)
                self.said += self.errors.readlines()
                self.assertEqual((self.work.wait(), "".join(self.said).count("given up")), (0, 1), self.said)
                self.check_others(name)
                for file in files.values():
                    (self.folder / file).unlink()
                (self.folder / "disk" / name).unlink()
                self.said.clear()

    def check_others(self, full: str) -> None:
        """The report and the log fit each other, if both are whole, and the records have each call."""
        trace, report = self.folder / "live.trace", self.folder / "live.report"
        if full not in (trace.name, report.name):
            done = subprocess.run([PROGRAM, "follow"], input=trace.read_bytes(), capture_output=True, check=True)
            self.assertEqual(done.stdout, report.read_bytes())
        calls = (self.folder / "records").read_text().splitlines()
        self.assertEqual(sum(",999," in call for call in calls), 0 if full == "records" else 8)


@needs_program
class BlockedFiles(Attached):
    """Files that take nothing: pipes that nobody reads."""

    def block(self, *names: str) -> None:
        for name in names:
            os.mkfifo(self.folder / name)
            self.addCleanup(os.close, os.open(self.folder / name, os.O_RDWR))

    def is_answered(self) -> None:
        """Frames and messages pass, longer than a pipe takes."""
        speaker = self.attached(0)
        for _ in range(4):
            speaker.send(*["F " + "11" * 30] * 2000, REFUSED_SETUP, STATUS_ENQUIRY)
            self.assertEqual((speaker.gets("M")[:14], speaker.gets("M")), ("M 080280025A08", STATUS))
            for _ in range(2000):
                speaker.gets("F")
        speaker.close()

    def ends(self, number: int) -> str:
        begun = time.monotonic()
        self.work.send_signal(number)
        said = self.errors.read()
        self.assertEqual(self.work.wait(), 0, said)
        self.assertLess(time.monotonic() - begun, ENDS)
        return said

    def test_all_files(self) -> None:
        for number in (signal.SIGINT, signal.SIGTERM):
            with self.subTest(number=number):
                self.block("live.trace", "live.report", "capture", "records")
                self.attach("--records", "records")
                self.is_answered()
                said = self.ends(number)
                for what, name in (("the log", "live.trace"), ("the report", "live.report")):
                    line = f"attach: {what} is given up, and the calls go on: {name} takes nothing, and the last [0-9]+ octets"
                    self.assertRegex(said, line)
                for name in ("live.trace", "live.report", "capture", "records"):
                    self.assertTrue((self.folder / name).is_fifo())
                    (self.folder / name).unlink()

    def test_an_exchange_that_is_stopped(self) -> None:
        """A second signal ends the tool at once."""
        self.attach()
        self.attached(0)  # so it has begun
        (exchange,) = map(int, Path(f"/proc/{self.work.pid}/task/{self.work.pid}/children").read_text().split())
        os.kill(exchange, signal.SIGSTOP)
        self.work.send_signal(signal.SIGTERM)
        time.sleep(0.2)
        self.work.send_signal(signal.SIGTERM)
        begun = time.monotonic()
        said = self.errors.read()
        self.assertEqual((self.work.wait(), said.splitlines()[-1]), (1, "attach: the exchange does not end"))
        self.assertLess(time.monotonic() - begun, ENDS)


class Writers(InFolder):
    """A file that a thread writes."""

    def setUp(self) -> None:
        super().setUp()
        self.said: list[str] = []
        patch = mock.patch("nemzhuul.live.log.say", self.said.append)
        patch.start()
        self.addCleanup(patch.stop)

    def writer(self, name: str = "log") -> Writer:
        writer = Writer(Output(self.folder / name), "the log")
        writer.begin()
        return writer

    def pipe(self) -> int:
        os.mkfifo(self.folder / "pipe")
        return os.open(self.folder / "pipe", os.O_RDWR)

    def test_what_is_written(self) -> None:
        """It is in the file in order, and after the wait at once."""
        writer = self.writer()
        for at in range(100):
            writer.write(b"%d\n" % at)
        with mock.patch.object(log, "AHEAD_SECONDS", PATIENCE):
            writer.settle()
        self.assertEqual((self.folder / "log").read_text().split(), [str(at) for at in range(100)])
        writer.write(b"end")
        writer.close()
        self.assertEqual((self.folder / "log").read_text()[-6:], "99\nend")
        self.assertEqual(self.said, [])

    def test_a_file_that_blocks(self) -> None:
        """It is waited for once, and then not until it has caught up."""
        reader = self.pipe()
        writer = self.writer("pipe")
        content = bytes(1 << 20)
        writer.write(content)
        begun = time.monotonic()
        for _ in range(1000):
            writer.settle()
        self.assertLess(time.monotonic() - begun, 1)
        left = len(content)
        while left:
            left -= len(os.read(reader, left))
        with mock.patch.object(log, "AHEAD_SECONDS", PATIENCE):
            writer.settle()
        writer.write(b"more")
        writer.close()
        self.assertEqual((os.read(reader, 10), self.said), (b"more", []))
        os.close(reader)

    def test_a_full_queue(self) -> None:
        reader = self.pipe()
        writer = self.writer("pipe")
        with mock.patch.object(log, "MAX_QUEUED", 1 << 18):
            for _ in range(5):
                writer.write(bytes(1 << 16))
        self.assertTrue(writer.is_given_up)
        path = self.folder / "pipe"
        said = f"the log is given up, and the calls go on: {path} takes nothing, and {1 << 18} octets wait for it"
        self.assertEqual([line.partition(": ")[2] for line in self.said], [said])
        writer.write(b"nothing more")
        writer.settle()
        writer.close()
        self.assertEqual(len(self.said), 1)
        os.close(reader)

    def test_no_file(self) -> None:
        writer = Writer(Output(None), "the log")
        writer.begin()
        writer.write(b"nothing")
        writer.settle()
        writer.close()
        self.assertEqual((writer.is_given_up, self.said), (False, []))


if __name__ == "__main__":
    support.main()
