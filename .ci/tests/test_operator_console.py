"""The console of a running exchange: tools/attach --control and tools/console."""

from __future__ import annotations

import csv
import os
import re
import signal
import socket
import stat
import subprocess

import support
from attached import RESTART, Attached, Raw
from support import PATIENCE, InFolder, command, environment, needs_program, stream, tool
from test_data_links import SETUP, LinkUser

from nemzhuul.commands import console
from nemzhuul.programs.program import PROGRAM
from nemzhuul.live.control import HELP, MAX_COMMAND, MAX_CONSOLES
from nemzhuul.live.wire import read_address
from nemzhuul.command_line import Refused

NO_CALL = "0 in progress; 0 offered, 0 answered, 0 refused\n"


@needs_program
class Consoles(Attached):
    """Commands to an exchange with calls, rooms and nails."""

    SETTINGS = "exchange 1 3 1 1\nnumber 100 line 0\nnumber 101 line 1\nnumber 30 room 0\nnail 0/31 1/31\n"

    def begin(self, *options: str) -> None:
        self.attach("--control", "unix:control", *options)
        self.until("attach: the console listens on unix:control")

    def ask(self, text: str) -> tuple[int, str, str]:
        """The status, the answer and the refusal of a command."""
        status, output, said = tool("console", "control", *text.split(), folder=self.folder)
        return status, output.decode(), said.removeprefix("console: ").removesuffix("\n")

    def shows(self, what: str) -> list[str]:
        status, output, said = self.ask(f"show {what}")
        self.assertEqual((status, said), (0, ""))
        return output.splitlines()

    def raw_console(self) -> Raw:
        raw = Raw(self.folder / "control")
        self.addCleanup(raw.close)
        return raw

    def place_calls(self) -> None:
        """One call is answered, one rings, one is refused, and one is to a room."""
        caller, called = self.attached(0), self.attached(1)
        caller.send("M 080200010504038090A3700480313031")
        called.gets("M 0802000105")
        called.send("M 0802800107")
        caller.gets("M 0802800107")
        caller.send("M 080200020504038090A3700480313031")
        called.gets("M 0802000205")
        called.send("M 0802800201")
        caller.gets("M 0802800201")
        caller.send("M 080200030504038090A37003803939", "M 080200040504038090A37003803330")
        caller.gets("M 0802800407")

    def change(self) -> None:
        changes = {
            "nail 0/20 2/20": (0, "granted 0 0", ""),
            "nail 0/20 2/21": (1, "busy", "a slot is not idle"),
            "nail 0/1 2/1": (1, "busy", "a slot is not idle"),
            "seat 2/1 0": (0, "seated 0 0", ""),
            "seat line 2 channel 2 63": (0, "seated 0 0", ""),
            "free 2/2": (0, "freed", ""),
            "free 2/2 ": (1, "notnailed", "the slot has no nail and no seat"),
        }
        for text, wanted in changes.items():
            with self.subTest(command=text):
                status, output, said = self.ask(text)
                self.assertEqual((status, output.partition(" ")[2].rstrip("\n"), said), wanted)

    def test_a_day(self) -> None:
        """What the console shows of calls is what tools/calls draws of the log, and each change is in the log."""
        self.begin()
        self.assertEqual(stat.S_IMODE(os.stat(self.folder / "control").st_mode), 0o600)
        self.assertEqual(self.ask("show calls"), (0, NO_CALL, ""))
        self.place_calls()
        self.change()
        self.assertEqual(self.shows("nails"), ["nail 0/20 2/20", "nail 0/31 1/31"])
        self.assertEqual(self.shows("rooms"), ["room 0: 0/3 2/1", "2 of 30 ports are taken"])
        lines = self.shows("lines")
        self.assertEqual([line.split()[2] for line in lines[:3]], [
            "AaA" + "." * 15 + "n" + "." * 10 + "n", "Aa" + "." * 27 + "n", "s" + "." * 17 + "n" + "." * 11])  # fmt: skip
        self.assertIn("endpoint at unix:line0; 4 messages and 0 frames with octets were taken", lines[0])
        self.assertTrue(lines[2].endswith("no socket"))
        fabric = ["10 live paths of 120", "0 paths were moved for 6 connections and seats", "the fullest is line 0: 4 of 30 paths each way"]
        self.assertEqual(self.shows("fabric"), fabric)
        self.assertRegex(self.shows("late")[0], "^[0-9]+ periods of 20 ms; the latest began [0-9.]+ ms late$")
        self.assertEqual(self.shows("links"), ["the exchange has no data link"])
        shown = self.shows("calls")
        self.assertEqual(shown[-1], "3 in progress; 4 offered, 2 answered, 1 refused")
        self.end()
        self.assertFalse((self.folder / "control").exists())
        drawn = tool("calls", "live.trace", "live.report", folder=self.folder).output.decode()
        titles = [line for line in drawn.splitlines() if line.startswith("call ")]
        self.assertEqual(shown[:-1], [title for title in titles if "refused" not in title])
        rows = list(csv.DictReader(tool("records", "live.trace", "live.report", folder=self.folder).output.decode().splitlines()))
        refused = sum("/" not in row["caller"] for row in rows)
        answered = sum(row["answer"] != "" for row in rows)
        self.assertEqual(shown[-1], f"{len(titles) - refused} in progress; {len(rows)} offered, {answered} answered, {refused} refused")
        trace = (self.folder / "live.trace").read_text().splitlines()
        logged = [line for line in trace[self.SETTINGS.count("\n") :] if line.split(" ")[0] in ("nail", "seat", "free")]
        self.assertEqual(logged, ["nail 0/20 2/20", "nail 0/20 2/21", "nail 0/1 2/1", "seat 2/1 0", "seat 2/2 63", "free 2/2", "free 2/2"])

    def test_a_restart(self) -> None:
        """A line is restarted: the other user gets DISCONNECT, and the answer is the line of the report."""
        self.begin("--standby", "--status", "0")
        self.place_calls()
        status, output, said = self.ask("restart 1")
        self.assertEqual((status, said), (0, ""))
        sent = "0:0802800145080282A9 0:0802800245080282A9 1:0802000046790186"
        self.assertEqual(output.partition(" ")[2], f"message {sent}\n")
        shown = self.shows("calls")
        self.assertEqual(shown[-1], "3 in progress; 4 offered, 2 answered, 1 refused")
        self.assertEqual(self.ask("restart 3")[::2], (1, "there is no line 3: the exchange has lines 0 to 2"))
        self.end()
        self.assertIn("restart 1", (self.folder / "live.trace").read_text().splitlines())
        drawn = tool("calls", "live.trace", "live.report", folder=self.folder).output.decode()
        self.assertIn("RESTART", drawn)

    def test_refused_commands(self) -> None:
        self.begin()
        number = "the exchange takes numbers only before its first event, so in the settings with which it begins"
        cases = {
            "shows calls": '"shows" is no word here: it may be "show", "nail", "seat", "free", "restart", "help" or "quit"',
            "show": "the line ends too early: ",
            "show calls now": '"now" is no word here: it has to be the end of the line',
            "nail 0/1 0/1": "a slot is nailed to another one",
            "nail 0/1 3/1": "there is no line 3: the exchange has lines 0 to 2",
            "nail 0/16 1/1": "16 is no bearer channel: those are 1 to 15 and 17 to 31",
            "seat 0/1 64": "there is no room 64: rooms are 0 to 63",
            "free 0/1/2": '"0/1/2" is no word here: ',
            "number 102 line 1": number,
            "F": '"F" is no word here: ',
        }
        for text, said in cases.items():
            with self.subTest(command=text):
                status, output, why = self.ask(text)
                self.assertEqual((status, output, why[: len(said)]), (1, "", said))
        status, output, _ = self.ask("help")
        self.assertEqual((status, [re.split("  +", line) for line in output.splitlines()]), (0, [list(item) for item in HELP.items()]))
        self.end()
        log = (self.folder / "live.trace").read_text()
        self.assertEqual(re.findall("^(?:nail|seat|free|number) .*$", log, re.MULTILINE), self.SETTINGS.splitlines()[1:])

    def test_commands_of_standard_input(self) -> None:
        self.begin()
        words = command("console", "unix:control")
        for text, status, said in (
            ("show rooms\n\nhelp\nquit\nshow calls\n", 0, ""),
            ("nothing\nnail 0/1 1/1\n", 1, "console: a command was refused\n"),
        ):
            done = subprocess.run(words, cwd=self.folder, env=environment(), input=text, capture_output=True, text=True, check=False)
            self.assertEqual((done.returncode, done.stderr[-len(said) :] if said else done.stderr), (status, said))
            self.assertTrue(done.stdout.splitlines()[-1].startswith("quit" if status == 0 else ""))
            self.assertNotIn("0 in progress", done.stdout)
        self.assertEqual(self.shows("nails"), ["nail 0/1 1/1", "nail 0/31 1/31"])
        self.end()

    def test_connections(self) -> None:
        """Commands that come at once are answered in order. Hostile ones, and too many connections, are refused."""
        self.begin()
        raw = self.raw_console()
        raw.send("nail 0/1 1/1", "show nails", "free 0/1", "show nails", "free 0/1", "quit", "show late")
        answers = raw.lines.read().decode().split("\n")
        wanted = ["2 granted 0 0", "ok", "nail 0/1 1/1", "nail 0/31 1/31", "ok", "N freed", "ok", "nail 0/31 1/31", "ok"]
        wanted += ["N notnailed", "refused the slot has no nail and no seat", "ok", ""]
        numbers = re.compile("^[0-9]+ ")
        self.assertEqual([numbers.sub("N ", line) for line in answers], [numbers.sub("N ", line) for line in wanted])
        cases = (b"x" * (MAX_COMMAND + 1), b"show " + b"calls " * 100 + b"\n", b"\xff\x00\x1b[2J\n")
        for octets in cases:
            hostile = self.raw_console()
            hostile.connection.sendall(octets)
            self.assertRegex(hostile.gets("refused "), r'^refused (?:a command has at most 256 octets|"\\xff\\x00\\x1b\[2J" is no word here)')
        gone = self.raw_console()
        gone.send("nail 0/7 1/7")
        gone.close()
        others = [self.raw_console() for _ in range(MAX_CONSOLES)]
        for other in others[:-3]:
            other.send("show rooms")
            self.assertEqual(other.gets("ok"), "ok")
        self.until_shown(others[0], "nail 0/7 1/7")
        for other in others:
            other.close()
        self.end()

    def drawn(self) -> str:
        """The first line of what tools/calls prints of the log, whose data links tools/plain leaves out."""
        plain = tool("plain", "live.trace", "live.report", folder=self.folder).output
        (self.folder / "plain.trace").write_bytes(plain)
        report = subprocess.run([PROGRAM, "follow"], input=plain, capture_output=True, check=True).stdout
        (self.folder / "plain.report").write_bytes(report)
        return tool("calls", "plain.trace", "plain.report", folder=self.folder).output.decode().splitlines()[0]

    def test_a_data_link(self) -> None:
        """A call that comes over a link is shown as it is in the trace without links."""
        (self.folder / "settings").write_text(self.SETTINGS.replace("\n", "\ntimer T200 80000\n", 1))
        self.attach("--burst", "5", "--control", "unix:control", lines=(1,), linked=(0,))
        self.until("attach: the console listens on unix:control")
        self.assertRegex(self.shows("links")[0], "^line 0: its data link is down; no endpoint at unix:link0; 0 frames were taken, 0 cut; ")
        user, endpoint = LinkUser(self.folder / "link0"), self.attached(1)
        self.addCleanup(user.connection.close)
        user.establish()
        user.submit(SETUP)
        user.gets("08028001021803A98381")
        endpoint.gets("M 0802000105")
        endpoint.send("M 0802800107")
        user.gets("0802800107")
        self.assertRegex(self.shows("links")[0], "^line 0: its data link is up; endpoint at unix:link0; [0-9]+ frames were taken, 0 cut; ")
        shown = self.shows("calls")
        self.end()
        self.assertEqual((shown[0], len(shown)), (self.drawn(), 2))

    def test_messages_that_wait(self) -> None:
        """A call to the user of a link who takes no I frames is shown with its channel, and a command has its effect at once."""
        (self.folder / "settings").write_text(self.SETTINGS.replace("\n", "\ntimer T200 80000\ntimer T303 8000000\n", 1))
        self.attach("--burst", "5", "--control", "unix:control", lines=(1,), linked=(0,))
        self.until("attach: the console listens on unix:control")
        user, endpoint = LinkUser(self.folder / "link0"), self.attached(1)
        self.addCleanup(user.connection.close)
        user.establish()
        user.gets(RESTART)
        user.is_busy(True)
        user.submit(bytes.fromhex("0802000175"))
        endpoint.send("M 080200010504038090A3700480313030")
        self.assertEqual(endpoint.gets("M 08028001"), "M 08028001021803A98381")
        shown = self.shows("calls")
        self.assertTrue(self.ask("nail 0/20 2/20")[1].endswith(" granted 0 0\n"))
        self.assertIn("nail 0/20 2/20", self.shows("nails"))
        self.assertEqual(user.messages, [])
        self.end()
        self.assertEqual((shown[0], len(shown)), (self.drawn(), 2))

    def until_shown(self, raw: Raw, line: str) -> None:
        """Asks for nails until one is there."""
        for _ in range(PATIENCE * 20):
            raw.send("show nails")
            answer: list[str] = []
            while not answer or answer[-1] != "ok":
                answer.append(raw.gets(""))
            if line in answer:
                return
            signal.sigtimedwait([], 0.05)
        self.fail(f"{line} is not shown")

    def test_too_many_consoles(self) -> None:
        self.begin()
        consoles = [self.raw_console() for _ in range(MAX_CONSOLES)]
        for raw in consoles:
            raw.send("show late")
            raw.gets("ok")
        self.assertEqual(self.raw_console().lines.read(), b"refused there are 8 consoles already\n")
        consoles[0].send("quit")
        consoles[0].gets("ok")
        self.work.send_signal(signal.SIGTERM)
        self.assertEqual(consoles[1].lines.read(), b"refused the exchange ends\n")
        self.assertEqual(self.work.wait(), 0)

    def test_places(self) -> None:
        """A path that is taken is refused before anything starts, and a socket without a process is removed."""
        (self.folder / "file").write_text("mine\n")
        cases = {
            "unix:file": "unix:file cannot be listened on: file is there, and it is not a socket",
            "unix:line0": "unix:line0 cannot be listened on: Address already in use",
            "unix:live.trace": "live.trace cannot be both the console and the log",
            "tcp:127.0.0.1:0": "tcp:127.0.0.1:0 is no address of a console: it is unix:PATH",
        }
        for word, said in cases.items():
            with self.subTest(word=word):
                words = ("--line", "0", "unix:line0", "--control", word, "--log", "live.trace", "settings")
                status, _, why = tool("attach", *words, folder=self.folder)
                self.assertEqual((status, why.splitlines()[-1]), (1, f"attach: {said}"))
        with socket.socket(socket.AF_UNIX) as dead:
            dead.bind(str(self.folder / "control"))
        self.begin()
        status, _, why = tool("attach", "--line", "2", "unix:line2", "--control", "unix:control", "settings", folder=self.folder)
        self.assertEqual((status, why.splitlines()[-1]), (1, "attach: unix:control cannot be listened on: Address already in use"))
        self.end()
        self.assertEqual((self.folder / "file").read_text(), "mine\n")

    def test_an_exchange_that_goes_on(self) -> None:
        """It has the connections of its operators, and the calls, and records have the calls once."""
        self.begin("--records", "records")
        caller, called = self.attached(0), self.attached(1)
        caller.send("M 080200010504038090A3700480313031")
        called.gets("M 0802000105")
        self.assertEqual(self.ask("nail 0/20 2/20")[0], 0)
        self.assertEqual(self.ask("free 0/31")[0], 0)
        shown = self.shows("calls")
        self.work.kill()
        self.work.wait()
        words = command("attach", "--line", "0", "unix:line0", "--line", "1", "unix:line1", "--control", "unix:control")
        words += ["--records", "records", "--resume", "live.trace", "--report", "rest.report", "settings"]
        with subprocess.Popen(words, cwd=self.folder, env=environment(), stderr=subprocess.PIPE, text=True) as self.work:
            self.errors = stream(self.work.stderr)
            self.until("attach: the console listens on unix:control")
            self.assertEqual(self.shows("nails"), ["nail 0/20 2/20"])
            self.assertEqual(self.shows("calls"), shown)
            self.assertEqual(self.ask("nail 1/20 2/20")[0], 1)
            self.work.terminate()


class Words(InFolder):
    """Arguments and completions of the console, without an exchange."""

    def test_arguments(self) -> None:
        for words, wanted in (((), 2), (("--no",), 2), (("none", "help"), 1)):
            status, _, said = tool("console", *words, folder=self.folder)
            self.assertEqual(status, wanted)
        self.assertEqual(said, "console: unix:none cannot be reached: No such file or directory\n")

    def test_completions(self) -> None:
        cases: dict[str, list[str]] = {
            "": [re.sub("[A-Z].*", "", command) for command in HELP],
            "show  l": ["show lines", "show links", "show late"],
            "n": ["nail "],
            "nail 0": [],
            "qu": ["quit"],
        }
        for begun, wanted in cases.items():
            self.assertEqual(list(console.completions(begun)), wanted)
            found = [console.complete(begun, number) for number in range(len(wanted) + 1)]
            self.assertEqual(found, [*wanted, None])

    def test_usage(self) -> None:
        for text in HELP:
            self.assertIn(f"\n    {text}", console.USAGE)

    def test_an_exchange_that_says_nothing(self) -> None:
        """The console gives up after some seconds, and when the other side closes."""
        with socket.socket(socket.AF_UNIX) as listener:
            listener.bind(str(self.folder / "some"))
            listener.listen()
            address = read_address(f"unix:{self.folder}/some")
            client = console.Client(address)
            client.connection.settimeout(0.01)
            with self.assertRaisesRegex(Refused, "some gives no answer$"):
                client.ask("help")
            other = console.Client(address)
            for _ in range(2):
                listener.accept()[0].close()
            with self.assertRaisesRegex(Refused, "^the exchange has ended$"):
                other.ask("help")
            self.assertTrue(other.has_ended)
            for one in (client, other):
                one.close()


if __name__ == "__main__":
    support.main()
