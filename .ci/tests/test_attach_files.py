"""Which files tools/attach, tools/endpoint and tools/sounds leave alone, which program runs, and what one endpoint does to others.

Only the class `Live` needs the program; the other tests run a substitute that reads lines and replies to none.
"""

from __future__ import annotations

import contextlib
import fcntl
import os
import re
import select
import shutil
import signal
import socket
import stat
import statistics
import subprocess
import sys
import tempfile
import threading
import time
import unittest
from pathlib import Path
from typing import NamedTuple
from unittest import mock

TOP = Path(__file__).resolve().parents[2]
TOOLS = TOP / "tools"
sys.path.insert(0, str(TOOLS))
sys.dont_write_bytecode = True
from nemzhuul.live.lines import MAX_MESSAGES, MAX_WAITING, SHUT_DOWN, Line, Mark  # noqa: E402
from nemzhuul.live.processes import Loop  # noqa: E402
from nemzhuul.live.wire import read_address  # noqa: E402

PROGRAM = TOP / "crates" / "tst" / "out" / "tst"
PATIENCE = 30  # seconds until a tool says or sends something
PERIOD = 160  # frames
ENV = {**os.environ, "PYTHONDONTWRITEBYTECODE": "1"}
SETTINGS = "exchange 1 3 0 1\nnumber 100 line 0\nnail 0/1 1/1\nnail 0/2 1/2\n"
SUBSTITUTE = "#!/bin/sh\ncat >/dev/null\n"  # its output stays open
STATUS_ENQUIRY = "M 0802{:04X}75"


class Ran(NamedTuple):
    """How a tool ended, and what it said."""

    status: int
    said: str


class InFolder(unittest.TestCase):
    """Tests in a temporary folder, which has settings and a substitute for the exchange."""

    def setUp(self) -> None:
        folder = tempfile.TemporaryDirectory()
        self.addCleanup(folder.cleanup)
        self.folder = Path(folder.name)
        (self.folder / "settings").write_text(SETTINGS)
        self.make_program(self.folder / "program")

    def make_program(self, path: Path) -> None:
        path.parent.mkdir(parents=True, exist_ok=True)
        path.write_text(SUBSTITUTE)
        path.chmod(0o755)

    def make_device(self, name: str, minor: int) -> bool:
        """Makes a device like /dev/null (3) or /dev/full (7), which a fault may remove without harm. Only root can."""
        try:
            os.mknod(self.folder / name, stat.S_IFCHR | 0o666, os.makedev(1, minor))
        except PermissionError:
            return False
        return True

    def tool(self, name: str, *words: object, tools: Path = TOOLS) -> Ran:
        command = [str(tools / name), *map(str, words)]
        done = subprocess.run(command, cwd=self.folder, env=ENV, text=True, timeout=PATIENCE, check=False, capture_output=True)
        return Ran(done.returncode, done.stderr)

    def is_refused(self, said: str, *words: object) -> None:
        """The exchange does not start with these options, and this is all that it says."""
        line = ("--line", "0", "unix:line0")
        found = self.tool("attach", "--program", "./program", *(() if "--line" in words else line), *words, "settings")
        self.assertEqual(found, (1, f"attach: {said}\n"))
        self.assertFalse(os.path.lexists(self.folder / "line0"), "no line listens")

    def start(self, *words: object, program: object = "./program") -> subprocess.Popen[str]:
        """An exchange that runs until the test ends."""
        command = [TOOLS / "attach", "--program", program, *words, "settings"]
        work = subprocess.Popen(list(map(str, command)), cwd=self.folder, env=ENV, stderr=subprocess.PIPE, text=True)
        self.addCleanup(lambda: work.stderr and work.stderr.close())
        self.addCleanup(work.wait)
        self.addCleanup(work.kill)
        return work

    def until(self, work: subprocess.Popen[str], begin: str) -> str:
        """What the exchange says up to a line that begins so."""
        said = ""
        for line in work.stderr or ():
            said += line
            if line.startswith(begin):
                return said
        self.fail(f"`{begin}` is not said: {said}")

    def end(self, work: subprocess.Popen[str]) -> str:
        """Ends an exchange, and returns what it still says."""
        work.send_signal(signal.SIGTERM)
        said = work.stderr.read() if work.stderr else ""
        self.assertEqual(work.wait(), 0, said)
        return said

    def listening(self, path: str, *words: object) -> subprocess.Popen[str]:
        work = self.start("--line", "0", f"unix:{path}", *words)
        self.until(work, "attach: line 0: listens")
        return work


class Sockets(InFolder):
    """Only a socket that no process has is removed from an address."""

    def unused(self, name: str, kind: int = socket.SOCK_STREAM) -> Path:
        """A socket that its process has left."""
        with socket.socket(socket.AF_UNIX, kind) as left:
            left.bind(str(self.folder / name))
        return self.folder / name

    def test_files_that_are_not_sockets(self) -> None:
        self.unused("left")
        (self.folder / "notes").write_text("mine")
        (self.folder / "place").mkdir()
        for name, target in (("link", "notes"), ("nowhere", "none"), ("to_socket", "left")):
            (self.folder / name).symlink_to(target)
        os.mkfifo(self.folder / "pipe")
        devices = ["null"] if self.make_device("null", 3) else []
        before = {path.name: os.lstat(path) for path in self.folder.iterdir()}
        names = ("notes", "link", "nowhere", "to_socket", "place", "pipe", *devices)
        for option, name in (*(("--line", name) for name in names), ("--link", "notes")):
            with self.subTest(option=option, name=name):
                found = self.tool("attach", "--program", "./program", option, 0, f"unix:{name}", "settings")
                said = f"attach: unix:{name} cannot be listened on: {name} is there, and it is not a socket"
                self.assertEqual((found.status, found.said.splitlines()[-1]), (1, said))
        for name, state in before.items():
            after = os.lstat(self.folder / name)
            self.assertEqual((after.st_ino, after.st_mode, after.st_size), (state.st_ino, state.st_mode, state.st_size), name)
        self.assertEqual((self.folder / "notes").read_text(), "mine")

    def test_a_socket_that_nobody_listens_on(self) -> None:
        for kind in (socket.SOCK_STREAM, socket.SOCK_SEQPACKET, socket.SOCK_DGRAM):
            with self.subTest(kind=kind):
                path = self.unused("line0", kind)
                work = self.listening("line0")
                with socket.socket(socket.AF_UNIX) as endpoint:
                    endpoint.connect(str(path))
                self.end(work)
                self.assertFalse(os.path.lexists(path))

    def test_a_socket_that_a_process_has(self) -> None:
        """No matter of which kind it is, and whether it listens already. It gets no connection."""
        for kind in (socket.SOCK_STREAM, socket.SOCK_SEQPACKET, socket.SOCK_DGRAM):
            for listens in (False, True):
                if listens and kind == socket.SOCK_DGRAM:
                    continue
                with self.subTest(kind=kind, listens=listens), socket.socket(socket.AF_UNIX, kind) as other:
                    path = self.folder / f"other{kind}{listens}"
                    other.bind(str(path))
                    if listens:
                        other.listen()
                    found = self.tool("attach", "--program", "./program", "--line", 0, f"unix:{path}", "settings")
                    said = f"attach: unix:{path} cannot be listened on: Address already in use"
                    self.assertEqual((found.status, found.said.splitlines()[-1]), (1, said))
                    self.assertTrue(path.is_socket())
                    self.assertEqual(select.select([other] if listens else [], [], [], 0)[0], [])

    def test_two_processes_at_one_address(self) -> None:
        """The second one is refused, and the line of the first one does not notice."""
        first = self.listening("line0", "--log", "log")
        second = self.tool("attach", "--program", "./program", "--line", 0, "unix:line0", "--log", "other", "settings")
        said = "attach: unix:line0 cannot be listened on: Address already in use"
        self.assertEqual((second.status, second.said.splitlines()[-1]), (1, said))
        self.assertFalse((self.folder / "other").exists(), "a log in which nothing is written is removed")
        with socket.socket(socket.AF_UNIX) as endpoint:
            endpoint.settimeout(PATIENCE)
            endpoint.connect(str(self.folder / "line0"))
            self.until(first, "attach: line 0: an endpoint is attached")
        self.assertEqual(self.end(first).count("is attached"), 0)
        self.assertNotIn("M 0", (self.folder / "log").read_text().split("F")[0])

    def test_processes_that_start_at_once(self) -> None:
        """One of them gets the address, though a socket was left there."""
        self.unused("line0")
        works = [self.start("--line", 0, "unix:line0") for _ in range(5)]
        time.sleep(0.1)
        last = time.monotonic() + PATIENCE
        while sum(work.poll() is None for work in works) > 1 and time.monotonic() < last:
            time.sleep(0.05)
        (winner,) = [work for work in works if work.poll() is None]
        self.until(winner, "attach: line 0: listens")
        with socket.socket(socket.AF_UNIX) as endpoint:
            endpoint.connect(str(self.folder / "line0"))
        self.end(winner)
        self.assertEqual(sorted(work.returncode for work in works), [0, 1, 1, 1, 1])

    def test_two_lines_at_one_address(self) -> None:
        said = "unix:line0 cannot be listened on: Address already in use"
        found = self.tool("attach", "--program", "./program", "--line", 0, "unix:line0", "--line", 1, "unix:line0", "settings")
        self.assertEqual((found.status, found.said.splitlines()[-1]), (1, f"attach: {said}"))
        self.assertFalse((self.folder / "line0").exists())

    def test_a_socket_that_was_replaced(self) -> None:
        """At the end a file that has come to the place of the socket stays: another process's, or a user's."""
        for is_socket in (False, True):
            with self.subTest(is_socket=is_socket):
                path = self.folder / f"line{is_socket}"
                work = self.listening(path.name)
                path.unlink()
                if is_socket:
                    self.unused(path.name)
                else:
                    path.write_text("mine")
                self.end(work)
                self.assertEqual((path.is_socket(), path.exists()), (is_socket, True))

    def test_an_exchange_that_was_killed(self) -> None:
        work = self.listening("line0")
        work.kill()
        work.wait()
        self.assertTrue((self.folder / "line0").is_socket())
        self.end(self.listening("line0"))
        self.assertFalse((self.folder / "line0").exists())

    def test_a_locked_folder(self) -> None:
        folder = os.open(self.folder, os.O_RDONLY)
        self.addCleanup(os.close, folder)
        fcntl.flock(folder, fcntl.LOCK_EX)
        found = self.tool("attach", "--program", "./program", "--line", 0, "unix:line0", "settings")
        said = "attach: unix:line0 cannot be listened on: another process has locked the folder ."
        self.assertEqual((found.status, found.said.splitlines()[-1]), (1, said))


class Outputs(InFolder):
    """A log, a report or a capture does not replace a file, and is refused before anything starts."""

    def test_a_log_that_is_there(self) -> None:
        (self.folder / "log").write_text("mine")
        (self.folder / "link").symlink_to("log")
        for option in ("--log", "--report", "--pcap"):
            self.is_refused("log is there already: --overwrite replaces it", option, "log")
        self.is_refused("link is there already: --overwrite replaces it", "--log", "link")
        self.assertEqual((self.folder / "log").read_text(), "mine")
        self.end(self.listening("line0", "--overwrite", "--log", "log"))
        self.assertTrue((self.folder / "log").read_text().startswith(SETTINGS))

    def test_an_empty_file(self) -> None:
        """It has nothing to lose, as a file that `mktemp` makes."""
        (self.folder / "log").touch()
        self.end(self.listening("line0", "--log", "log"))
        self.assertTrue((self.folder / "log").read_text().startswith(SETTINGS))

    def test_one_file_for_two_things(self) -> None:
        (self.folder / "link").symlink_to("settings")
        os.link(self.folder / "settings", self.folder / "hard")
        for name in ("settings", "./settings", "link", "hard", self.folder / "settings"):
            self.is_refused(f"{name} cannot be both the settings and the log", "--log", name, "--overwrite")
        for name in ("other", "./other", self.folder / "other"):
            self.is_refused(f"{name} cannot be both the log and the report", "--log", "other", "--report", name)
        self.is_refused("a cannot be both the report and the capture", "--log", "b", "--report", "a", "--pcap", "a")
        self.is_refused("program cannot be both the program and the report", "--report", "program", "--overwrite")
        self.is_refused("line0 cannot be both a socket of line 0 and the log", "--log", "line0")
        self.assertEqual((self.folder / "settings").read_text(), SETTINGS)
        self.assertEqual((self.folder / "program").read_text(), SUBSTITUTE)
        self.assertFalse((self.folder / "other").exists())

    def test_what_is_no_file(self) -> None:
        with socket.socket(socket.AF_UNIX) as left:
            left.bind(str(self.folder / "left"))
        (self.folder / "place").mkdir()
        cases = [
            ("left", "left cannot be written: it is a socket"),
            ("place", "place cannot be written: it is a folder"),
            ("no/log", "no/log cannot be written: No such file or directory"),
            ("settings/log", "settings/log cannot be written: Not a directory"),
        ]
        if self.make_device("full", 7):
            cases.append(("full", "full cannot be written: No space left on device"))
        for at, (name, said) in enumerate(cases):
            option = ("--log", "--report", "--pcap")[at % 3]
            with self.subTest(name=name, option=option):
                found = self.tool("attach", "--program", "./program", "--line", 0, "unix:line0", option, name, "settings")
                self.assertEqual((found.status, found.said.splitlines()[-1]), (1, f"attach: {said}"))
                self.assertNotIn("listens", found.said)
        if self.make_device("null", 3):
            self.end(self.listening("line0", "--log", "null"))
            self.assertTrue(stat.S_ISCHR(os.stat(self.folder / "null").st_mode))

    def test_a_log_that_is_being_written(self) -> None:
        first = self.listening("line0", "--log", "log")
        found = self.tool("attach", "--program", "./program", "--overwrite", "--line", 0, "unix:line1", "--log", "log", "settings")
        self.assertEqual((found.status, found.said.splitlines()[-1]), (1, "attach: log is being written already"))
        self.end(first)
        self.assertTrue((self.folder / "log").read_text().startswith(SETTINGS))

    def test_nothing_is_lost_if_a_line_cannot_listen(self) -> None:
        (self.folder / "log").write_text("mine")
        (self.folder / "notes").write_text("mine")
        words = ("--overwrite", "--log", "log", "--report", "report", "--line", 0, "unix:notes", "settings")
        found = self.tool("attach", "--program", "./program", *words)
        self.assertEqual(found.status, 1)
        self.assertEqual((self.folder / "log").read_text(), "mine")
        self.assertFalse((self.folder / "report").exists())


class Programs(InFolder):
    """Which program an exchange runs, and for how long."""

    def setUp(self) -> None:
        super().setUp()
        self.copy = self.folder / "copy"
        shutil.copytree(TOOLS, self.copy / "tools", ignore=shutil.ignore_patterns("out", "__pycache__"))
        (self.copy / "crates" / "tst" / "src").mkdir(parents=True)
        (self.copy / "crates.txt").write_text("tst:\n")

    def record(self, what: str, sources: str) -> None:
        """Records that a program was built from the sources that lie there."""
        text = f"from nemzhuul.programs import built, program\nprogram.{what}.record({sources})\n"
        subprocess.run([sys.executable, "-c", text], cwd=self.copy / "tools", env=ENV, check=True)

    def said(self, *words: object) -> Ran:
        """How a second of the exchange of a copy of the tools ends, and the first line that it says."""
        found = self.tool("attach", "--seconds", 1, *words, "--line", 0, "unix:line0", "settings", tools=self.copy / "tools")
        return Ran(found.status, found.said.splitlines()[0])

    def test_an_unproved_program(self) -> None:
        """It runs only if it may, and what to type for a proved one is said before it starts."""
        self.make_program(self.copy / "tools" / "out" / "tst")
        self.record("BUILT_UNPROVED", "program.unproved_sources()")
        status, said = self.said()
        self.assertEqual((status, said[:79]), (1, "attach: crates/tst/out/tst is not built, and an unproved program is too slow fo"))
        self.assertIn("`tools/build` proves and builds it", said)
        status, said = self.said("--unproved")
        self.assertEqual((status, said[:67]), (0, "attach: runs an unproved program, too slow for real time, so that f"))

    def test_a_proved_program(self) -> None:
        self.make_program(self.copy / "crates" / "tst" / "out" / "tst")
        self.record("BUILT", "built.sources_of('tst')")
        for words in ((), ("--unproved",), ("--program", self.copy / "crates" / "tst" / "out" / "tst")):
            with self.subTest(words=words):
                self.assertEqual(self.said(*words), (0, "attach: runs the proved program, crates/tst/out/tst"))

    def test_a_named_program(self) -> None:
        self.assertEqual(self.said("--program", "./program"), (0, "attach: runs ./program, which may not be proved"))

    def test_seconds(self) -> None:
        """They pass by the clock, though this program replies to nothing, so that no frame follows."""
        begun = time.monotonic()
        self.assertEqual(self.tool("attach", "--program", "./program", "--seconds", 2, "--line", 0, "unix:line0", "settings").status, 0)
        self.assertTrue(2 <= time.monotonic() - begun < PATIENCE / 2)


class Recordings(InFolder):
    """What endpoints and tools/sounds write."""

    def serve(self) -> None:
        """A line on which an endpoint gets frames, from when it wants frames until it goes."""
        listener = socket.socket(socket.AF_UNIX)
        listener.bind(str(self.folder / "line0"))
        listener.listen()
        self.addCleanup(listener.close)

        def exchange() -> None:
            while True:
                try:
                    connection, _ = listener.accept()
                except OSError:
                    return
                with connection, contextlib.suppress(OSError):
                    connection.sendall(b"line 0\n")
                    while connection.recv(1000):
                        while not select.select([connection], [], [], 0.02)[0]:
                            connection.sendall((b"F " + b"55" * 30 + b"\n") * PERIOD)

        thread = threading.Thread(target=exchange, daemon=True)
        thread.start()

    def records(self, script: str, *options: object) -> Ran:
        (self.folder / "script").write_text(script)
        return self.tool("endpoint", *options, "unix:line0", "script")

    def test_a_recording_that_is_there(self) -> None:
        self.serve()
        (self.folder / "heard.wav").write_text("mine")
        script = "channel 1 records to heard.wav\n100 frames pass\n"
        said = "endpoint: script: line 1: heard.wav is there already: --overwrite replaces it\n"
        self.assertEqual(self.records(script), (1, said))
        self.assertEqual((self.folder / "heard.wav").read_text(), "mine")
        self.assertEqual(self.records(script, "--overwrite"), (0, ""))
        self.assertEqual((self.folder / "heard.wav").read_bytes()[:4], b"RIFF")

    def test_recordings_to_one_file(self) -> None:
        """Of two channels at once, or of one channel one after the other."""
        self.serve()
        both = "channel 1 records to heard.wav\nchannel 2 records to ./heard.wav\n100 frames pass\n"
        for options in ((), ("--overwrite",)):
            said = "endpoint: script: line 2: heard.wav is being written already\n"
            self.assertEqual(self.records(both, *options), (1, said))
        again = "channel 1 records to a.wav\n100 frames pass\nchannel 1 records to b.wav\n100 frames pass\n"
        self.assertEqual(self.records(again), (0, ""))
        self.assertTrue((self.folder / "a.wav").stat().st_size and (self.folder / "b.wav").stat().st_size)
        again = "channel 1 records to c.wav\n100 frames pass\nchannel 1 records to c.wav\n100 frames pass\n"
        said = "endpoint: script: line 3: c.wav is there already: --overwrite replaces it\n"
        self.assertEqual(self.records(again), (1, said))

    def test_other_recordings(self) -> None:
        self.serve()
        said = "endpoint: script: line 1: script cannot be both the script and a recording\n"
        self.assertEqual(self.records("channel 1 records to script\n", "--overwrite"), (1, said))
        said = "endpoint: script: line 1: line0 cannot be written: it is a socket\n"
        self.assertEqual(self.records("channel 1 records to line0\n"), (1, said))
        said = "endpoint: script: line 1: no/heard.wav cannot be written: No such file or directory\n"
        self.assertEqual(self.records("channel 1 records to no/heard.wav\n"), (1, said))
        self.assertEqual(self.records("channel 1 records to none.wav\nchannel 1 stops recording\n").status, 0)
        self.assertFalse((self.folder / "none.wav").exists(), "nothing was recorded")

    def test_sounds(self) -> None:
        """They are written again; another sound is not lost, and none is written then."""
        self.assertEqual(self.tool("sounds", "."), (0, ""))
        self.assertEqual(self.tool("sounds", "."), (0, ""))
        (self.folder / "low.wav").unlink()
        (self.folder / "rising.wav").write_text("mine")
        self.assertEqual(self.tool("sounds", "."), (1, "sounds: rising.wav is there already: --overwrite replaces it\n"))
        self.assertEqual((self.folder / "rising.wav").read_text(), "mine")
        self.assertFalse((self.folder / "low.wav").exists())
        self.assertEqual(self.tool("sounds", "--overwrite", "."), (0, ""))
        self.assertEqual((self.folder / "rising.wav").read_bytes()[:4], b"RIFF")


class Queues(InFolder):
    """What a line takes of its endpoint in each period, without a process."""

    def setUp(self) -> None:
        super().setUp()
        with mock.patch("nemzhuul.live.lines.say"):
            self.line = Line(0, read_address(f"unix:{self.folder}/line"), Loop())
        self.addCleanup(self.line.close)
        self.sent = 0

    def send(self, count: int) -> None:
        """Sends the next frames, which count up."""
        rows = [f"F {at:04X}".ljust(62, "0") + "\n" for at in range(self.sent, self.sent + count)]
        self.sent += count
        self.line.take("".join(rows).encode())

    def period(self) -> list[int]:
        """The numbers of the frames of a period that are not idle."""
        self.line.begin_period()
        self.assertEqual([*self.line.messages_due()], [])
        return [int(row[3:7], 16) for row in self.line.column(PERIOD) if row]

    def test_late_frames(self) -> None:
        """For each frame that is not there in time, one is left out when it comes."""
        self.send(2 * PERIOD)
        self.assertEqual(self.period(), [*range(PERIOD)])
        self.assertEqual(self.period(), [*range(PERIOD, 2 * PERIOD)])
        self.assertEqual(self.period(), [])
        self.send(100)
        self.assertEqual(self.period(), [])
        self.send(2 * PERIOD)
        self.assertEqual(self.period(), [*range(4 * PERIOD, 4 * PERIOD + 100)])
        self.send(60)
        self.send(PERIOD)
        self.assertEqual(self.period(), [*range(5 * PERIOD, 6 * PERIOD)][: self.sent - 5 * PERIOD])

    def test_the_first_period(self) -> None:
        """Frames that are not there in it are no late ones: they give the endpoint a period's lead."""
        self.send(1)
        self.assertEqual(self.period(), [0])
        self.send(PERIOD)
        self.assertEqual(self.period(), [*range(1, PERIOD + 1)])

    def test_silence_settles_the_account(self) -> None:
        self.send(PERIOD)
        self.period()
        self.assertEqual(self.period(), [])
        self.line.take(b"F none\n")
        self.send(PERIOD)
        self.assertEqual(self.period(), [*range(PERIOD, 2 * PERIOD)])
        self.assertEqual(self.line.owed, 0)

    def test_messages_of_a_period(self) -> None:
        """At most 64 are taken. Frames do not wait for the others, and no message waits for frames."""
        self.send(3 * PERIOD)
        self.line.take(b"".join(b"M %04X\n" % at for at in range(2 * MAX_MESSAGES + 1)))
        self.send(PERIOD)
        messages: list[bytes] = []
        for at, count in enumerate((MAX_MESSAGES, 2 * MAX_MESSAGES, 2 * MAX_MESSAGES + 1, 2 * MAX_MESSAGES + 1)):
            self.line.begin_period()
            messages += self.line.messages_due()
            self.assertEqual(len(messages), count)
            self.assertEqual([int(row[3:7], 16) for row in self.line.column(PERIOD)], [*range(at * PERIOD, (at + 1) * PERIOD)])
        self.assertEqual(messages, [b"%04X" % at for at in range(2 * MAX_MESSAGES + 1)])
        self.assertEqual((self.line.owed, self.line.late), (0, 0))

    def test_an_endpoint_that_leaves(self) -> None:
        """Its line is shut down when its frames and messages have been taken."""
        self.line.take(b"M 0802000175\n" * (MAX_MESSAGES + 1))
        self.send(PERIOD + 1)
        self.line.queue.append(Mark.GONE)
        taken = []
        for _ in range(3):
            self.line.begin_period()
            messages = [*self.line.messages_due()]
            count = self.line.frames_before_mark() or PERIOD
            rows = self.line.column(min(count, PERIOD))
            taken.append((len(messages), messages.count(SHUT_DOWN), sum(map(bool, rows))))
        self.assertEqual(taken, [(MAX_MESSAGES, 0, PERIOD), (1, 0, 1), (1, 1, 0)])


@unittest.skipUnless(os.access(PROGRAM, os.X_OK), "the program is not built")
class Live(InFolder):
    """Endpoints of an exchange that runs by the clock."""

    SOON = 0.25  # seconds in which a message or a frame arrives on a machine with other work too

    def attach(self, *lines: int, burst: int = 20) -> None:
        words: list[object] = ["--burst", burst]
        words += [word for line in lines for word in ("--line", line, f"unix:line{line}")]
        self.work = self.start("--log", "log", *words, program=PROGRAM)
        self.until(self.work, f"attach: line {lines[-1]}: listens")

    def connected(self, line: int) -> socket.socket:
        connection = socket.socket(socket.AF_UNIX)
        self.addCleanup(connection.close)
        connection.settimeout(PATIENCE)
        connection.connect(str(self.folder / f"line{line}"))
        return connection

    def check_pause(self, pause: float) -> None:
        """After a pause, the octets and the messages of an endpoint are on time, and its octets are in order."""
        self.attach(0, 1)
        speaker = Speaker(self.connected(0), self.connected(1))
        speaker.run(1)
        time.sleep(pause)
        speaker.run(1)
        again = time.monotonic()
        speaker.run(1)
        begun = time.monotonic()
        speaker.speaker.sendall(b"M 0802000175\n")
        speaker.run(PATIENCE, until=b"M 080280017D")
        self.assertLess(time.monotonic() - begun, self.SOON)
        self.end(self.work)
        numbers = [number for number, _ in speaker.heard]
        self.assertEqual(numbers, sorted(set(numbers)))
        delays = [time - speaker.sent[number] for number, time in speaker.heard if time > again]
        self.assertGreater(len(delays), 2000)
        self.assertLess(statistics.median(delays), self.SOON)
        left_out = len(speaker.sent) - len(numbers)
        self.assertGreater(left_out, 8000 * (pause - self.SOON))

    def test_a_pause_of_half_a_second(self) -> None:
        self.check_pause(0.5)

    def test_a_pause_of_two_seconds(self) -> None:
        self.check_pause(2)

    def test_a_flood_of_messages(self) -> None:
        """3,000 STATUS ENQUIRY on a line, at most 64 in a period, are all answered in order; the others' frames are on time."""
        self.attach(0, 1, 2)
        speaker = Speaker(self.connected(0), self.connected(1))
        speaker.run(0.5)
        flood = self.connected(2)
        text = "".join(STATUS_ENQUIRY.format(at) + "\n" for at in range(1, 3001)).encode()
        sender = threading.Thread(target=flood.sendall, args=(text,))
        begun = time.monotonic()
        sender.start()
        speaker.run(1.5)
        replies = flood.makefile("rb")
        self.addCleanup(replies.close)
        first, restart, *got = (replies.readline() for _ in range(3002))
        self.assertEqual((first, restart), (b"line 2\n", b"M 0802000046790186\n"))
        sender.join()
        speaker.run(0.5)
        said = self.end(self.work)
        self.assertEqual([int(line[6:10], 16) - 0x8000 for line in got], [*range(1, 3001)])
        delays = [time - speaker.sent[number] for number, time in speaker.heard if time > begun]
        self.assertLess(statistics.median(delays), self.SOON)
        self.assertEqual([late for late in re.findall("frames are (.*) s late", said) if float(late) > 1], [])
        parts = re.split("(?m)^F.*\n", (self.folder / "log").read_text())
        self.assertEqual(max(part.count("M 2 ") for part in parts), MAX_MESSAGES)

    def test_a_flood_without_an_end(self) -> None:
        """Its endpoint is treated as one that has gone: its messages take effect, and its line is restarted."""
        self.attach(0, burst=5)
        flood = self.connected(0)
        with self.assertRaises(OSError):
            while True:
                flood.sendall(b"M 0802000175\n" * 500)
        self.until(self.work, f"attach: line 0: its endpoint has sent more than {MAX_WAITING} messages that wait")
        next_one = self.connected(0)
        self.assertEqual(next_one.recv(100), b"line 0\n")
        self.end(self.work)
        trace = (self.folder / "log").read_text()
        self.assertGreater(trace.count("M 0 0802000175\n"), MAX_WAITING)
        self.assertEqual(trace.count("M 0 0802000046790186\n"), 1)


class Speaker:
    """An endpoint that sends numbered frames with a period's lead, and another one that gets them two frames later."""

    def __init__(self, speaker: socket.socket, listener: socket.socket) -> None:
        self.speaker, self.listener = speaker, listener
        self.begun = {speaker: b"", listener: b""}
        self.sent: list[float] = []  # the time of each frame
        self.heard: list[tuple[int, float]] = []
        listener.sendall(b"F none\n")
        self.speak(PERIOD)

    def speak(self, count: int) -> None:
        """Sends the next frames; the octets of two channels are the digits of a frame's number."""
        numbers = range(len(self.sent), len(self.sent) + count)
        self.sent += [time.monotonic()] * count
        self.speaker.sendall("".join(f"F {at % 200:02X}{at // 200:02X}{'D5' * 28}\n" for at in numbers).encode())

    def run(self, seconds: float, until: bytes | None = None) -> None:
        """Sends as many frames as come, for this time, or until such a line comes."""
        last = time.monotonic() + seconds
        while (left := last - time.monotonic()) > 0:
            for connection in select.select([self.speaker, self.listener], [], [], left)[0]:
                *lines, self.begun[connection] = (self.begun[connection] + connection.recv(1 << 18)).split(b"\n")
                frames = [line for line in lines if line.startswith(b"F")]
                if connection is self.listener:
                    self.hear(frames)
                elif frames:
                    self.speak(len(frames))
                if until and any(line.startswith(until) for line in lines):
                    return

    def hear(self, frames: list[bytes]) -> None:
        for frame in frames:
            low, high = int(frame[2:4], 16), int(frame[4:6], 16)
            if low < 200:
                self.heard.append((200 * high + low, time.monotonic()))


if __name__ == "__main__":
    unittest.main(verbosity=0)
