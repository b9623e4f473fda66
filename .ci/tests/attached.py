"""A running exchange to which the endpoints of a test attach."""

from __future__ import annotations

import re
import signal
import socket
import subprocess
from collections.abc import Sequence
from pathlib import Path

from support import IDLE, PATIENCE, InFolder, command, environment, packets, report_of, signals, stream
from nemzhuul.programs.program import PROGRAM


RESTART = "0802000046790186"  # of the interface


class Raw:
    """An endpoint on a Unix socket that sends lines as they are."""

    def __init__(self, path: Path) -> None:
        self.connection = socket.socket(socket.AF_UNIX)
        self.connection.settimeout(PATIENCE)
        self.connection.connect(str(path))
        self.lines = self.connection.makefile("rb")

    def send(self, *lines: str) -> None:
        self.connection.sendall("".join(f"{line}\n" for line in lines).encode())

    def gets(self, begin: str) -> str:
        """The next line that begins so."""
        for line in self.lines:
            if line.startswith(begin.encode()):
                return line.decode().removesuffix("\n")
        raise AssertionError(f"{begin} does not come")

    def close(self) -> None:
        self.lines.close()
        self.connection.close()


class Attached(InFolder):
    """A running exchange, to which endpoints attach."""

    SETTINGS = "exchange 1 3 0 1\nnumber 100 line 0\nnumber 101 line 1\nnail 0/31 1/31\n"

    def setUp(self) -> None:
        super().setUp()
        (self.folder / "settings").write_text(self.SETTINGS)
        self.said: list[str] = []
        self.new: set[int] = set()  # the lines whose users are still to be sent RESTART

    def attach(self, *options: str, lines: Sequence[int] = (0, 1), linked: Sequence[int] = ()) -> None:
        """Starts the exchange, and waits until its lines listen."""
        self.new = {*lines} - {*linked}
        words = command("attach", *options)
        for line in lines:
            words += ["--line", str(line), f"unix:line{line}"]
        for line in linked:
            words += ["--link", str(line), f"unix:link{line}"]
        words += ["--log", "live.trace", "--report", "live.report", "--pcap", "capture", "settings"]
        self.work = subprocess.Popen(words, cwd=self.folder, env=environment(), stderr=subprocess.PIPE, text=True)
        self.errors = stream(self.work.stderr)
        self.addCleanup(self.errors.close)
        self.addCleanup(self.work.wait)
        self.addCleanup(self.work.kill)
        self.until(f"attach: line {linked[-1]}: its data link listens" if linked else f"attach: line {lines[-1]}: listens")

    def until(self, begin: str) -> None:
        for line in self.errors:
            self.said.append(line)
            if line.startswith(begin):
                return
        self.fail("".join(self.said))

    def kill(self) -> None:
        """Ends the exchange without a word."""
        self.work.kill()
        self.work.wait()
        self.errors.close()

    def raw(self, line: int) -> Raw:
        endpoint = Raw(self.folder / f"line{line}")
        self.addCleanup(endpoint.close)
        return endpoint

    def attached(self, line: int) -> Raw:
        endpoint = self.raw(line)
        endpoint.gets(f"line {line}")
        if line in self.new:
            self.new.remove(line)
            self.assertEqual(endpoint.gets(""), f"M {RESTART}")
        return endpoint

    def end(self) -> None:
        """Ends the exchange. Its log runs again to its report, and its capture has its messages."""
        self.work.send_signal(signal.SIGTERM)
        self.said += self.errors.readlines()
        self.assertEqual(self.work.wait(), 0, self.said)
        trace = self.folder / "live.trace"
        report = report_of(trace).read_bytes()
        done = subprocess.run([PROGRAM, "follow"], input=trace.read_bytes(), capture_output=True, check=False)
        self.assertEqual((done.returncode, done.stdout == report, done.stderr), (0, True, b""))
        linked = re.findall("^link ([0-9]+)$", trace.read_text(), re.MULTILINE)
        captured = [packet for _, packet in packets((self.folder / "capture").read_bytes())]
        read = [(packet[7], packet[1] == 4, packet[16:] if str(packet[7]) in linked else packet[20:]) for packet in captured]
        self.assertEqual(read, list(signals(trace)))

    def octets(self, path: str, line: int, mark: str) -> list[bytes]:
        """The octets of a line in each frame of a trace or a report."""
        frames = [text for text in (self.folder / path).read_text().splitlines() if mark in f" {text} "]
        parts = [re.search(f" {line}:([0-9A-F]{{60}})", text) for text in frames]
        return [bytes.fromhex(part.group(1)) if part else bytes([IDLE]) * 30 for part in parts]
