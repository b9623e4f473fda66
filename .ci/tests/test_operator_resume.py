"""Exchanges that go on with the log of one that has ended in any way."""

from __future__ import annotations

import os
import signal
import subprocess
from collections.abc import Iterable
from pathlib import Path
from unittest import mock

import support
from attached import Attached
from support import InFolder, command, environment, needs_program, report_of, slow, stream, tool
from test_data_links import SETUP, LinkUser

from nemzhuul.live import feeding
from nemzhuul.live.feeding import line_starts
from nemzhuul.live.resume import History
from nemzhuul.programs.program import NAMED, PROGRAM

SETTINGS = "exchange 1 3 1 1\nnumber 100 line 0\nnumber 101 line 1\nnumber 30 room 0\nseat 2/1 0\nnail 0/31 1/31\n"
CUTS = 200  # octets


def octets(line: int, value: int) -> str:
    return f" {line}:" + f"{value:02X}" * 30


def story() -> list[str]:
    """The lines of a log: an answered call of two lines that speak, one that rings, and one to a room."""
    setup = "0504038090A3"
    lines = ["# clock: frame 0 begins at 2026-12-01T00:00:00.000000Z"]
    lines += ["F"] * 5 + [f"M 0 08020001{setup}700480313031", "M 1 0802800107", "F" + octets(0, 1)]
    lines += [f"F{octets(0, at)}{octets(1, at + 1)}{octets(2, at + 2)}" for at in range(2, 40)]
    lines += [f"M 0 08020002{setup}700480313031", "# a comment", "M 1 0802800201", f"M 2 08020001{setup}7003803330", "F", "F"]
    lines += [f"F{octets(0, at)}{octets(2, at)}" for at in range(40, 43)] + ["M 0 0802000175", "F" + octets(1, 7), "F"]
    return lines


def follow(pieces: Iterable[bytes]) -> list[bytes]:
    """The report of these lines."""
    done = subprocess.run([PROGRAM, "follow"], input=b"".join(pieces), capture_output=True, check=False)
    assert done.returncode == 0, done.stdout[-200:]
    return done.stdout.splitlines()


class Logs(InFolder):
    """What is read of a log, and from where on."""

    def history(self, content: bytes) -> History:
        (self.folder / "log").write_bytes(content)
        return History(self.folder / "log", SETTINGS.encode())

    def test_octets_of_the_last_frames(self) -> None:
        rows = [f"F{octets(0, at)}\n".encode() for at in range(7)]
        content = SETTINGS.encode() + b"".join(rows[:3]) + b"M 0 0802000175\n" + b"".join(rows[3:]) + b"# end\n"
        history = self.history(content)
        wanted = b"F\n" * 3 + b"M 0 0802000175\n" + b"".join(rows[3:]) + b"# end\n"
        self.assertEqual(b"".join(history.pieces()), wanted)
        for cut in range(1, len(content) - len(SETTINGS)):
            text = content[:-cut]
            history = self.history(text)
            self.assertEqual(history.end, text.rindex(b"\n") + 1)
            given = b"".join(history.pieces())
            whole = text[len(SETTINGS) : history.end]
            self.assertEqual(given.count(b"\n"), whole.count(b"\n"))
            self.assertEqual([row for row in given.splitlines() if row[:1] == b"F"][-4:], [row for row in whole.splitlines() if row[:1] == b"F"][-4:])

    def test_small_blocks(self) -> None:
        """The lines are found across the blocks that are read."""
        content = SETTINGS.encode() + "".join(f"{line}\n" for line in story()).encode()
        wanted = b"".join(self.history(content).pieces())
        for size in range(1, 70):
            with mock.patch.object(feeding, "BLOCK", size), open(self.folder / "log", "rb") as log:
                history = self.history(content)
                self.assertEqual(b"".join(history.pieces()), wanted)
                self.assertEqual(line_starts(log.fileno(), len(content) - 1, 0, 1), content.rindex(b"\n", 0, -1) + 1)

    def test_a_log_that_ends_in_its_settings(self) -> None:
        for length in range(len(SETTINGS)):
            history = self.history(SETTINGS.encode()[:length])
            self.assertEqual(b"".join(history.pieces()), b"")
            self.assertEqual(history.end, SETTINGS.encode().rfind(b"\n", 0, length) + 1)

    @needs_program
    def test_each_cut(self) -> None:
        """A log that is cut at each of its last octets has the state of its whole lines."""
        content = SETTINGS.encode() + "".join(f"{line}\n" for line in story()).encode()
        rest = [f"F{octets(0, at)}{octets(1, at)}{octets(2, at)}\n".encode() for at in range(60, 66)]
        rest += [b"M 1 0802800207\n", *rest, b"M 2 080200014508028090\n", b"M 0 080200014508028090\n", *rest]
        given: dict[bytes, list[bytes]] = {}
        for cut in range(CUTS):
            history = self.history(content[: len(content) - cut])
            pieces = b"".join(history.pieces())
            if pieces not in given:
                whole = follow([content[: history.end], *rest])
                given[pieces] = whole
                self.assertEqual(follow([SETTINGS.encode(), pieces, *rest])[-len(rest) :], whole[-len(rest) :], cut)
        self.assertGreater(len(given), 3)


@needs_program
class Resumed(Attached):
    """An exchange that was killed, and one that goes on with its log."""

    def resume(self, *words: str) -> None:
        """Starts the exchange that goes on."""
        self.new.clear()
        words = (*words, "--resume", "live.trace", "--report", "rest.report", "--pcap", "rest.capture", "settings")
        self.work = subprocess.Popen(command("attach", *words), cwd=self.folder, env=environment(), stderr=subprocess.PIPE, text=True)
        self.errors = stream(self.work.stderr)
        self.addCleanup(self.errors.close)
        self.addCleanup(self.work.wait)
        self.addCleanup(self.work.kill)
        self.until("attach: goes on with live.trace at frame ")

    def ends_well(self) -> None:
        """The log runs as a whole, and the end of its report is what the exchange wrote that went on."""
        self.work.terminate()
        said = self.errors.read()
        self.assertEqual(self.work.wait(), 0, said)
        report = follow([(self.folder / "live.trace").read_bytes()])
        rest = (self.folder / "rest.report").read_bytes().splitlines()
        self.assertEqual((len(rest) > 10, rest), (True, report[-len(rest) :]))
        self.assertEqual((self.folder / "live.trace").read_text().count("# clock: frame "), 2)

    def test_calls_go_on(self) -> None:
        """An answered call has speech both ways, and one that rings can be answered."""
        lines = ("--line", "0", "unix:line0", "--line", "1", "unix:line1")
        self.attach()
        caller, called = self.attached(0), self.attached(1)
        caller.send("M 080200010504038090A3700480313031", "F none")
        called.gets("M 0802000105")
        called.send("M 0802800107", "F none")
        caller.gets("M 0802800107")
        caller.send("M 080200020504038090A3700480313031")
        called.gets("M 0802000205")
        called.send("M 0802800201")
        caller.gets("M 0802800201")
        caller.send(*["F " + "11" * 30] * 400)
        called.gets("F 11")
        self.kill()
        with open(self.folder / "live.trace", "ab") as log:
            log.write(b"M 0 08020001450")  # a line that was being written
        self.resume(*lines)
        caller, called = self.attached(0), self.attached(1)
        called.send("F none", "M 0802800207")
        caller.send("F none")
        caller.gets("M 0802800207")
        caller.send(*["F " + "22" * 30] * 400, "F none")
        called.send(*["F " + "33" * 30] * 400, "F none")
        called.gets("F 2222D5")
        caller.gets("F 3333D5")
        called.send("M 080280014508028090")
        caller.gets("M 0802800145")
        self.ends_well()

    def test_a_data_link_goes_on(self) -> None:
        """Without SABME: the next I frame has the next number."""
        self.attach("--burst", "5", lines=(1,), linked=(0,))
        user, endpoint = LinkUser(self.folder / "link0"), self.attached(1)
        user.establish()
        user.submit(SETUP)
        user.gets("08028001021803A98381")
        endpoint.gets("M 0802000105")
        user.until(lambda user: not user.link.waiting)
        self.kill()
        user.connection.close()
        self.resume("--burst", "5", "--line", "1", "unix:line1", "--link", "0", "unix:link0")
        again, endpoint = LinkUser(self.folder / "link0"), self.attached(1)
        self.addCleanup(again.connection.close)
        again.link = user.link
        endpoint.send("M 0802800107")
        again.gets("0802800107")
        self.assertFalse([octets for octets in again.gotten if octets[2] & ~0x10 == 0x6F], "no SABME")
        self.ends_well()

    def test_a_standby(self) -> None:
        """It is made from the log, and goes on if the process fails that read the log first."""
        lines = ("--line", "0", "unix:line0", "--line", "1", "unix:line1")
        self.attach("--standby")
        caller, called = self.attached(0), self.attached(1)
        caller.send("M 080200010504038090A3700480313031", "F none")
        called.gets("M 0802000105")
        called.send("M 0802800107", "F none")
        caller.gets("M 0802800107")
        self.kill()
        self.resume("--standby", *lines)
        caller, called = self.attached(0), self.attached(1)
        self.assertTrue(any(line.endswith(" stands by\n") for line in self.errors))
        first = int(Path(f"/proc/{self.work.pid}/task/{self.work.pid}/children").read_text().split()[0])
        os.kill(first, signal.SIGKILL)
        called.send("F none")
        caller.send(*["F " + "22" * 30] * 400, "F none")
        called.gets("F 22D5")
        self.ends_well()

    @slow
    def test_lines_whose_endpoints_do_not_come_back(self) -> None:
        """After a time they are restarted, and the other users are cleared."""
        self.attach()
        caller, called = self.attached(0), self.attached(1)
        caller.send("M 080200010504038090A3700480313031")
        called.gets("M 0802000105")
        called.send("M 0802800107")
        caller.gets("M 0802800107")
        self.kill()
        live = "import sys; from nemzhuul.live import resume; resume.RETURN_SECONDS = 1; from nemzhuul.commands import attach; attach.main(*sys.argv[1:])"
        words = ["-B", "-c", live, "--line", "0", "unix:line0", "--line", "1", "unix:line1", "--resume", "live.trace", "settings"]
        environ = {**environment(), "PYTHONPATH": str(support.TOP / "tools")}
        with subprocess.Popen(["python3", *words], cwd=self.folder, env=environ, stderr=subprocess.PIPE, text=True) as self.work:
            self.errors = stream(self.work.stderr)
            self.until("-c: line 1: listens")
            called = self.attached(1)
            self.until("-c: line 0: its endpoint has not come back in 1 s")
            self.assertEqual(called.gets("M 0802000145"), "M 0802000145080282A9")
            self.work.terminate()

    @slow
    def test_refused_logs(self) -> None:
        (self.folder / "other").write_text("exchange 1 2 0 1\nF\n")
        os.mkfifo(self.folder / "pipe")
        (self.folder / "wrong").write_text(self.SETTINGS + "F\nM 0 080\nF\n")
        cases = (
            ("none", "none is no log of an exchange: it is no file"),
            ("pipe", "pipe is no log of an exchange: it is no file"),
            ("other", "other is not the log of an exchange with these settings"),
            ("wrong", "wrong is no log of an exchange: refused 6 hex"),
            ("settings", "settings cannot be both the settings and the log"),
        )
        for log, said in cases:
            with self.subTest(log=log):
                before = Path(self.folder / log).read_bytes() if (self.folder / log).is_file() else b""
                words = ("--line", "0", "unix:line0", "--resume", log, "settings")
                status, _, error = tool("attach", *words, folder=self.folder)
                self.assertEqual((status, error.splitlines()[-1]), (1, f"attach: {said}"))
                self.assertEqual((self.folder / log).exists(), log != "none")
                self.assertTrue(not before or (self.folder / log).read_bytes() == before)
        for options in (("--log", "a", "--resume", "b"), ("--resume", "b", "--log", "a")):
            self.assertEqual(tool("attach", "--line", "0", "unix:line0", *options, "settings", folder=self.folder).status, 2)

    def test_a_log_that_is_being_written(self) -> None:
        self.attach()
        self.attached(0)
        words = ("--line", "0", "unix:other", "--resume", "live.trace", "settings")
        said = f"attach: runs the proved program, {NAMED}\nattach: live.trace is being written already\n"
        self.assertEqual(tool("attach", *words, folder=self.folder)[::2], (1, said))
        self.end()

    def test_a_log_of_nothing(self) -> None:
        """It has a part of the settings, and gets the rest."""
        (self.folder / "live.trace").write_text(self.SETTINGS[:30])
        self.resume("--line", "0", "unix:line0")
        endpoint = self.attached(0)
        endpoint.send("M 0802000175")
        endpoint.gets("M")
        self.work.terminate()
        self.assertEqual((self.work.wait(), report_of(self.folder / "rest.x").exists()), (0, True))
        self.assertTrue((self.folder / "live.trace").read_text().startswith(self.SETTINGS + "# clock: frame 0 begins at "))


if __name__ == "__main__":
    support.main()
