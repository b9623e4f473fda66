"""How a running exchange ends, what it says of its data links, its clock, and what it asks of the system."""

from __future__ import annotations

import os
import signal
import time
from unittest import mock

import support
from attached import Attached
from support import needs_program, packets, sequence_of, slow, tool
from test_data_links import LinkUser

from nemzhuul.live import realtime
from nemzhuul.live.clock import WallClock
from nemzhuul.live.states import WRONG_SIDE

DISC = bytes.fromhex("020153")
SABME = bytes.fromhex("02017F")  # with C/R 1, as the network sends it
SECOND = 1_000_000  # microseconds


@needs_program
class Ends(Attached):
    """An exchange with an endpoint on line 1 and a data link on line 0."""

    def ends(self, number: int) -> None:
        self.attach("--burst", "5", lines=(1,), linked=(0,))
        user = LinkUser(self.folder / "link0")
        self.addCleanup(user.connection.close)
        user.establish()
        self.until("attach: line 0: its data link is up")
        endpoint = self.attached(1)
        endpoint.send("M 0802000175")
        endpoint.gets("M")
        with mock.patch.object(signal, "SIGTERM", number):
            self.end()
        self.assertEqual(endpoint.lines.readlines()[-1], b"refused the exchange ends\n")
        datagrams = [user.connection.recv(1000)]
        while datagrams[-1]:
            datagrams.append(user.connection.recv(1000))
        self.assertEqual(datagrams[-2], DISC + sequence_of(DISC))
        self.assertEqual((self.folder / "live.trace").read_text().splitlines()[-1], "# line 0 gets DISC, P=1")

    @slow
    def test_signals(self) -> None:
        """Each ends it in the same way."""
        for number in (signal.SIGINT, signal.SIGTERM, signal.SIGHUP):
            with self.subTest(number=number):
                self.ends(number)
                for path in self.folder.glob("live.*"):
                    path.unlink()
                (self.folder / "capture").unlink()

    def test_a_hangup_that_is_ignored(self) -> None:
        """As `nohup` has it."""
        before = signal.signal(signal.SIGHUP, signal.SIG_IGN)
        try:
            self.attach()
        finally:
            signal.signal(signal.SIGHUP, before)
        endpoint = self.attached(0)
        self.work.send_signal(signal.SIGHUP)
        endpoint.send("F none", "M 0802000175")
        endpoint.gets("M")
        self.end()

    def test_states_of_a_link(self) -> None:
        """Each change is said, once. The endpoint of the wrong side is said once too."""
        self.attach("--burst", "5", lines=(), linked=(0,))
        wrong = LinkUser(self.folder / "link0")
        for _ in range(3):
            wrong.send(SABME)
        self.until(f"attach: line 0: {WRONG_SIDE}")
        wrong.connection.close()
        self.until("attach: line 0: the endpoint of its data link has gone")
        user = LinkUser(self.folder / "link0")
        self.addCleanup(user.connection.close)
        user.establish()
        self.until("attach: line 0: its data link is up")
        user.act(lambda link, now: link.release(now))
        self.until("attach: line 0: its data link is down")
        self.end()
        said = "".join(self.said)
        self.assertEqual((said.count(WRONG_SIDE), said.count("link is up"), said.count("link is down")), (1, 1, 1), said)

    def test_the_wall_clock(self) -> None:
        """The log and the capture have it."""
        begun = time.time() * SECOND
        self.attach()
        endpoint = self.attached(0)
        endpoint.send("M 0802000175")
        endpoint.gets("M")
        self.end()
        ended = time.time() * SECOND
        lines = (self.folder / "live.trace").read_bytes().splitlines()
        clocks = [clock for clock in map(WallClock.from_comment, lines) if clock is not None]
        self.assertEqual([clock.frame for clock in clocks], [0])
        for at in (clocks[0].time, *(moment for moment, _ in packets((self.folder / "capture").read_bytes()))):
            self.assertTrue(begun <= at <= ended, (begun, at, ended))
        status, output, said = tool("unpcap", "--replay", "capture", folder=self.folder)
        self.assertEqual((status, said), (0, ""))
        self.assertLess(output.count(b"\nF"), 8000 * 60)

    def test_realtime(self) -> None:
        """It is had, or said to be refused."""
        self.attach("--realtime", "--seconds", "2")
        self.attached(0)  # so it has begun
        is_had = os.sched_getscheduler(self.work.pid) == os.SCHED_RR
        said = "".join(self.said) + self.errors.read()
        self.assertEqual(self.work.wait(), 0)
        self.assertEqual("SCHED_RR is refused, and the exchange goes on without it: " in said, not is_had)


class Clocks(support.InFolder):
    def test_comments(self) -> None:
        clock = WallClock(16_000, 1_796_083_200_000_125)
        line = b"# clock: frame 16000 begins at 2026-12-01T00:00:00.000125Z\n"
        self.assertEqual(clock.comment(), line)
        self.assertEqual(WallClock.from_comment(line.rstrip()), clock)
        self.assertEqual(clock.text(8_000), "2026-11-30T23:59:59.000125Z")
        self.assertEqual(clock.text(16_001), "2026-12-01T00:00:00.000250Z")
        for other in (b"# clock: frame 1 begins at 2026-13-01T00:00:00.000125Z", b"F", b"# clock: frame", line):
            self.assertIsNone(WallClock.from_comment(other))

    def test_what_is_refused(self) -> None:
        said: list[str] = []
        with mock.patch.object(realtime, "say", said.append), mock.patch.object(realtime, "lock_memory", lambda: "no"):
            with mock.patch.object(os, "sched_setscheduler", side_effect=PermissionError(1, "")):
                realtime.ask_for_realtime()
        goes_on = "is refused, and the exchange goes on without it"
        wanted = [f"SCHED_RR {goes_on}: Operation not permitted", f"locked memory {goes_on}: no"]
        self.assertEqual([line.partition(": ")[2] for line in said], wanted)


if __name__ == "__main__":
    support.main()
