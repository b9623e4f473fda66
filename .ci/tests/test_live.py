"""Endpoints on the lines of a running exchange: tools/attach and tools/endpoint."""

from __future__ import annotations

import signal
import subprocess

import support
from attached import Attached
from support import IDLE, command, needs_program, slow, stream, tool, wav


@needs_program
class Live(Attached):
    """Endpoints on the lines of a running exchange."""

    @slow
    def test_a_call_is_recorded(self) -> None:
        """One endpoint speaks each octet of A-law on channel 1, and the other one records it, two frames later."""
        spoken = bytes(range(256)) * 4
        (self.folder / "spoken.wav").write_bytes(wav(spoken, 6, 8))
        caller = "calls 101\nis answered\nspeaks from spoken.wav\nframes pass until the sounds end\n800 frames pass\nhangs up\n"
        (self.folder / "caller").write_text(caller)
        (self.folder / "called").write_text("is called\nalerts\nanswers\nrecords to heard.wav\nis cleared\n")
        self.attach()
        words = command("endpoint", "unix:line1", "called")
        with subprocess.Popen(words, cwd=self.folder, stdout=subprocess.PIPE, text=True) as called:
            self.until("attach: line 1: an endpoint is attached")
            status, output, said = tool("endpoint", "unix:line0", "caller", folder=self.folder)
            heard = stream(called.stdout).read()
        self.assertEqual((status, said, called.returncode), (0, "", 0))
        self.end()
        self.assertIn("line 0 gets CONNECT 8001\n", output.decode())
        self.assertRegex(heard, r"line 1 recorded [0-9]+ frames to heard.wav\n")
        self.assertIn(spoken, (self.folder / "heard.wav").read_bytes())
        fed, sent = self.octets("live.trace", 0, " F "), self.octets("live.report", 1, " frame ")
        self.assertEqual([row[0] for row in fed if row[0] != IDLE], [octet for octet in spoken if octet != IDLE])
        first = next(at for at, row in enumerate(fed) if row[0] != IDLE)
        rows = range(first, first + len(spoken))
        self.assertEqual([sent[at + 2][0] for at in rows], [fed[at][0] for at in rows])

    def test_lines_in_order(self) -> None:
        """A message comes before the frames that wait, and frames are heard two frames later."""
        self.attach("--burst", "5")
        speaker, listener = self.attached(0), self.attached(1)
        listener.send("F none")
        listener.gets("F")
        rows = [f"{at:02X}" * 30 for at in range(1, 6)]
        speaker.send(*(f"F {row}" for row in rows[:3]), "M 0802000175", f"F {rows[3]}", f"F {rows[4]}", "F none")
        self.assertEqual(speaker.gets("M"), "M 080280017D0802829E140100")
        heard = [listener.gets("F " + "D5" * 29 + row[:2]) for row in rows]
        self.assertEqual(len(heard), 5)
        self.work.send_signal(signal.SIGUSR1)
        self.until("attach: processor time in a period: ")
        self.end()
        trace = (self.folder / "live.trace").read_text().splitlines()
        at = trace.index(f"F 0:{rows[0]}")
        self.assertEqual(trace[at - 1 : at + 5], ["M 0 0802000175", *(f"F 0:{row}" for row in rows)])

    def test_a_message_after_a_lead(self) -> None:
        """It does not wait for frames that were sent before their time. The exchange reads all of them at once."""
        self.attach()
        speaker = self.attached(0)
        rows = [f"F {at:04X}".ljust(62, "1") for at in range(800)]
        self.work.send_signal(signal.SIGSTOP)
        speaker.send(*rows, "M 0802000175")
        self.work.send_signal(signal.SIGCONT)
        speaker.gets("M")
        self.end()
        trace = (self.folder / "live.trace").read_text().splitlines()
        at = trace.index(rows[0].replace("F ", "F 0:"))
        self.assertEqual(trace[at - 1], "M 0 0802000175")

    def test_an_endpoint_goes(self) -> None:
        """Its line is restarted, the call of the other user is cleared with cause 41, and a new endpoint can come."""
        self.attach()
        caller, called = self.attached(0), self.attached(1)
        caller.send("M 080200010504038090A3700480313031")
        called.gets("M 0802000105")
        called.send("M 0802800107")
        caller.gets("M 0802800107")
        caller.close()
        self.assertEqual(called.gets("M 0802000145"), "M 0802000145080282A9")
        self.until("attach: line 0: its endpoint has gone")
        again = self.raw(0)
        again.send("M 0802000175")
        self.assertEqual(again.gets("M"), "M 080280017D0802829E140100")
        again.close()
        self.until("attach: line 0: its endpoint has gone")
        self.end()
        self.assertIn("M 0 0802000046790186", (self.folder / "live.trace").read_text().splitlines())

    def test_the_first_endpoint_is_restarted(self) -> None:
        """After a start the first endpoint of a line gets RESTART before all else, also if the line has a call, and no other
        endpoint does. A setting `down` has the report line of a message."""
        (self.folder / "settings").write_text(f"{self.SETTINGS}down 2\nrestart 2\nup 2\ndown 2\n")
        self.attach()
        caller = self.attached(0)
        caller.send("M 080200010504038090A3700480313031")
        caller.gets("M 0802800102")
        called = self.attached(1)
        called.send("M 080280004E790186")
        self.assertEqual(caller.gets("M"), "M 0802800145080282A9")
        caller.send("M 080200014D")
        caller.gets("M 080280015A")
        called.close()
        self.until("attach: line 1: its endpoint has gone")
        again = self.attached(1)
        again.send("M 0802000175")
        self.assertEqual(again.gets("M"), "M 080280017D0802829E140100")
        self.end()
        trace = (self.folder / "live.trace").read_text().splitlines()
        self.assertEqual([line for line in trace if line.startswith("restart")], ["restart 2", "restart 0", "restart 1"])

    def test_calls_from_before_the_start(self) -> None:
        """An exchange that was killed in a call starts again: each user gets RESTART and acknowledges it, and calls work."""
        for options in ((), ("--overwrite",)):
            self.attach(*options)
            caller, called = self.attached(0), self.attached(1)
            for endpoint in (caller, called):
                endpoint.send("M 080280004E790186")
            caller.send("M 080200010504038090A3700480313031")
            called.gets("M 0802000105")
            called.send("M 0802800107")
            caller.gets("M 0802800107")
            if not options:
                self.kill()
        self.end()
        trace = (self.folder / "live.trace").read_text().splitlines()
        self.assertEqual([line for line in trace if line.startswith("restart")], ["restart 0", "restart 1"])

    def test_refused_endpoints(self) -> None:
        self.attach()
        first = self.attached(0)
        self.assertEqual(self.raw(0).lines.read(), b"refused line 0 has an endpoint already\n")
        said = "is not `M HEX`, `F HEX` with 60 digits, or `F none`\n"
        for text in ("hello", "M", "M 080", "M 0g", "F", "F D5", "F " + "D5" * 31, "M " + "08" * 260 + "00"):
            with self.subTest(text=text):
                endpoint = self.attached(1)
                endpoint.send(text)
                self.assertEqual(endpoint.lines.read().decode(), f'refused "{text[:40]}" {said}')
        endpoint = self.attached(1)
        endpoint.connection.sendall(b"M" * 600)
        self.assertEqual(endpoint.lines.read(), b"refused a line has at most 522 octets\n")
        first.send("M 0802000175")
        self.assertEqual(first.gets("M"), "M 080280017D0802829E140100")
        self.end()

    @slow
    def test_refused_scripts(self) -> None:
        cases = (
            ("dials 1 again", 'some: line 1: "again" is no word here: it may be the end of the line or "to"'),
            ("hangs up", "some: line 1: line 0 has no call to hang up"),
            ("line 1 answers", "some: line 1: this is the endpoint of line 0"),
            ("channel 1 speaks from none.wav", "some: line 1: none.wav cannot be read: No such file or directory"),
            ("calls 999\nis answered", "some: line 2: there is no call: cause 1, unallocated (unassigned) number"),
        )
        self.attach()
        for text, said in cases:
            with self.subTest(text=text):
                (self.folder / "some").write_text(text)
                status, _, error = tool("endpoint", "unix:line0", "some", folder=self.folder)
                self.assertEqual((status, error), (1, f"endpoint: {said}\n"))
        said = "endpoint: unix:none cannot be reached: No such file or directory\n"
        self.assertEqual(tool("endpoint", "unix:none", folder=self.folder), (1, b"", said))
        self.end()

    @slow
    def test_refused_exchanges(self) -> None:
        (self.folder / "with_a_frame").write_text("exchange 1 1 0 1\nF\n")
        (self.folder / "no_trace").write_text("exchange 1 1 0\n")
        (self.folder / "stops").write_text("#!/bin/sh\nread line\necho refused 1 word\nexit 1\n")
        (self.folder / "stops").chmod(0o755)
        line, other = ("--line", "0", "unix:line0"), ("--line", "1", "unix:line1")
        cases = (
            ((*line, "none"), "none cannot be read: No such file or directory"),
            ((*line, "no_trace"), "no_trace is no trace: line 1, header"),
            ((*line, "with_a_frame"), "with_a_frame has messages, frames or changes of meters: endpoints send them"),
            (("--line", "3", "unix:line3", "settings"), "settings has no line 3: it has lines 0 to 2"),
            ((*line, *line, "settings"), "line 0 has two addresses"),
            (("--line", "0", "line0", "settings"), "line0 is no address: it is unix:PATH or tcp:HOST:PORT"),
            (("--line", "0", "unix:no/line0", "settings"), "unix:no/line0 cannot be listened on: No such file or directory"),
            ((*line, "--log", "no/log", "settings"), "no/log cannot be written: No such file or directory"),
            ((*line, "--log", "/dev/full", "settings"), "/dev/full cannot be written: No space left on device"),
            ((*line, *other, "--program", "none", "settings"), "none is no program"),
            ((*line, "--program", "./stops", "settings"), "the exchange ended with status 1: refused 1 word"),
        )
        for words, said in cases:
            with self.subTest(words=words):
                status, output, error = tool("attach", *words, folder=self.folder)
                self.assertEqual((status, output, error.splitlines()[-1]), (1, b"", f"attach: {said}"))
        for words in ((), ("settings",), ("--line", "0"), (*line,), (*line, "--burst", "0", "settings"), (*line, "--no", "settings")):
            with self.subTest(words=words):
                self.assertEqual(tool("attach", *words, folder=self.folder)[0], 2)
        self.assertEqual(list(self.folder.glob("line*")), [])


if __name__ == "__main__":
    support.main()
