"""Traces that tools/script writes."""

from __future__ import annotations

import array
import os
import struct
import subprocess
import sys

import support
from support import InFolder, Ran, command, needs_program, octet_of_sample, slow, tool, wav


class Scripts(InFolder):
    """Traces from plain lines."""

    HEAD = "exchange 2 lines\nnumber 101 leads to line 1\n"

    def run_script(self, text: str, *options: str) -> Ran:
        (self.folder / "some.script").write_text(text)
        return tool("script", *options, "some.script", folder=self.folder)

    def lines(self, text: str) -> list[str]:
        """The lines of a script's trace that are no comments."""
        status, output, said = self.run_script(text)
        self.assertEqual((status, said), (0, ""))
        return [line for line in output.decode().splitlines() if not line.startswith("#")]

    def messages(self, text: str) -> list[str]:
        """The messages of a script's calls, each with blanks out, and its frames."""
        return [line for line in self.lines(self.HEAD + text)[2:] if line != "sync"]

    def test_commands_and_frames(self) -> None:
        """Nothing here asks the program."""
        (self.folder / "one.wav").write_bytes(wav(b"\x11\x22\x33", 6, 8))
        (self.folder / "two.wav").write_bytes(wav(struct.pack("<2h", 0, -8)))
        text = """
            # a comment
            exchange 3 lines 1 bridge 2 processors
            number 30 leads to room 3
            number 31 leads to lines 2,0,1
            ringing tone from one.wav
            timer T303 runs 32 frames
            line 0 channel 17 joins room 3
            0/1 is nailed to line 1 channel 31
            0/17 speaks from one.wav
            1 frame passes
            0/1 speaks from two.wav
            2/31 speaks from one.wav
            2/31 is silent
            frames pass until the sounds end
            0/17 speaks from one.wav
            2 frames pass
            0/1 is freed
            """
        idle = "D5" * 14
        frames = [f"F 0:D5{idle}{octet}{idle}" for octet in ("11", "D522", "5533", "11", "22")]
        frames[1] = f"F 0:D5{idle}22{idle}"
        frames[2] = f"F 0:55{idle}33{idle}"
        wanted = ["exchange 1 3 1 2", "number 30 room 3", "number 31 lines 2 0 1", "tone ringback 112233", "timer T303 32", "seat 0/17 3", "sync"]
        wanted += ["nail 0/1 1/31", "sync", frames[0], "sync", *frames[1:3], "sync", *frames[3:], "sync"]
        wanted += ["free 0/1", "sync"]
        self.assertEqual(self.lines(text), wanted)

    def test_every_sample(self) -> None:
        """Samples of 16 bits are coded as the formulas of G.711 say, also with an extensible format."""
        samples = array.array("h", range(-32768, 32768, 3))
        if sys.byteorder == "big":
            samples.byteswap()
        more = struct.pack("<HHIH14s", 22, 16, 0, 1, b"")
        for tag, rest in ((1, b""), (0xFFFE, more)):
            (self.folder / "all.wav").write_bytes(wav(samples.tobytes(), tag, more=rest))
            lines = self.lines("exchange 1 line\n0/1 speaks from all.wav\nframes pass until the sounds end\n")
            coded = [int(line[4:6], 16) for line in lines if line.startswith("F")]
            self.assertEqual(coded, [octet_of_sample(sample) for sample in range(-32768, 32768, 3)])

    @needs_program
    def test_a_whole_call(self) -> None:
        text = "line 0 channel 1 calls 101\nline 1 alerts\nline 1 answers\n3 frames pass\nline 0 hangs up\n"
        wanted = [
            "M 0 080200010504038090A31803A98381700480313031",
            "M 1 0802800101",
            "M 1 0802800107",
            "M 0 080200010F",
            "F", "F", "F",
            "M 0 080200014508028090",
            "M 0 080200015A",
            "M 1 080280014D",
        ]  # fmt: skip
        self.assertEqual(self.messages(text), wanted)

    @needs_program
    def test_several_calls(self) -> None:
        """References and channels are those that the exchange gives; one that is free again is taken again."""
        text = """
            line 0 calls 101
            line 0 calls 101 as 2001
            line 1 channel 2 proceeds
            1/2 answers
            line 1 channel 1 rejects with 17
            line 0 calls 101
            0/2 asks for its state
            line 1 channel 1 restarts
            line 0 restarts
            line 1 sends 0802000175
            0/2 is nailed to 1/5
            line 0 prefers channel 2 and calls 101
            0/1 hangs up
            """
        wanted = [
            "M 0 080200010504038090A3700480313031",
            "M 0 080200020504038090A36C058032303031700480313031",
            "M 1 0802800202",
            "M 1 0802800207",
            "M 0 080200020F",
            "M 1 080280015A08028091",
            "M 0 080200014D",
            "M 0 080200010504038090A3700480313031",
            "M 0 0802000275",
            "M 1 08020000461803A98381790180",
            "M 0 080200014D",
            "M 0 0802000046790186",
            "M 1 080280024D",
            "M 1 0802000175",
            "nail 0/2 1/5",
            "M 0 080200010504038090A31803A18382700480313031",
            "M 0 080200014508028090",
            "M 0 080200015A",
            "M 1 080280014D",
        ]
        self.assertEqual(self.messages(text), wanted)

    @needs_program
    def test_numbers_in_parts(self) -> None:
        text = """
            line 0 begins to dial
            0/1 dials 10
            line 0 dials 1 to the end
            line 1 answers
            line 0 channel 2 calls 1
            0/2 dials 9
            """
        wanted = [
            "M 0 080200010504038090A3",
            "M 0 080200017B7003803130",
            "M 0 080200017BA170028031",
            "M 1 0802800107",
            "M 0 080200010F",
            "M 0 080200020504038090A31803A9838270028031",
            "M 0 080200027B70028039",
            "M 0 080200024D",
        ]
        self.assertEqual(self.messages(text), wanted)

    @needs_program
    def test_frames_stop_where_a_timer_runs_out(self) -> None:
        """The endpoint answers DISCONNECT before the next frame; SETUP that comes again is the same call."""
        text = "timer T303 runs 1 frame\nline 0 calls 101\n95 frames pass\nline 0 calls 101\n"
        setup = "M 0 080200010504038090A3700480313031"
        wanted = ["timer T303 1", setup, *["F"] * 61, "M 0 080200014D", *["F"] * 34, setup]
        self.assertEqual(self.messages(text), wanted)

    @needs_program
    def test_an_alerted_user_does_not_answer(self) -> None:
        """T301 clears both endpoints in frame 30, and each answers DISCONNECT."""
        text = "timer T301 runs 1 frame\nline 0 calls 101\nline 1 alerts\n40 frames pass\n"
        setup = "M 0 080200010504038090A3700480313031"
        ends = ["M 1 080280014D", "M 0 080200014D"]
        self.assertEqual(self.messages(text), ["timer T301 1", setup, "M 1 0802800101", *["F"] * 31, *ends, *["F"] * 9])

    @needs_program
    def test_a_data_link_fails(self) -> None:
        """An active call goes on when the link is up in time, and its user reports its state. A call that is not answered
        ends on both sides, and its user acknowledges RESTART."""
        text = """
            line 0 calls 101
            line 1 answers
            the link of line 1 fails
            2 frames pass
            the link of line 1 is up
            line 0 hangs up
            line 0 calls 101
            the link of line 1 fails
            line 0 calls 101
            the link of line 1 is up
            """
        setup, release = "M 0 080200010504038090A3700480313031", "M 0 080200014D"
        clearing = ["M 0 080200014508028090", "M 0 080200015A", "M 1 080280014D"]
        wanted = [setup, "M 1 0802800107", "M 0 080200010F", "down 1", "F", "F", "up 1"]
        wanted += ["M 1 080280017D0802809E14010A", *clearing, setup, "down 1", release, setup, "up 1", "M 1 080280004E790186"]
        self.assertEqual(self.messages(text), wanted)
        text = "the link of line 1 fails\nline 1 calls 101\n"
        self.assertIn("the data link of line 1 is down", self.run_script(self.HEAD + text)[2])

    @needs_program
    def test_a_tone_is_heard_until_its_user_hangs_up(self) -> None:
        (self.folder / "busy.wav").write_bytes(wav(b"\x44", 6, 8))
        text = "busy tone from busy.wav\nline 0 calls 101\nline 1 rejects with 17\n2 frames pass\nline 0 hangs up\n"
        wanted = ["tone busy 44", "M 0 080200010504038090A3700480313031", "M 1 080280015A08028091"]
        wanted += ["F", "F", "M 0 080200014D"]
        self.assertEqual(self.messages(text), wanted)

    @needs_program
    def test_comments(self) -> None:
        _, output, _ = self.run_script(self.HEAD + "# it is busy\nline 0 calls 10\n")
        wanted = """\
            # exchange 2 lines
            exchange 1 2 0 1
            # number 101 leads to line 1
            number 101 line 1
            # it is busy
            # line 0 calls 10
            #   line 0 sends SETUP 0001: number 10
            M 0 080200010504038090A37003803130
            #   line 0 gets SETUP ACKNOWLEDGE 8001: channel 1
            sync
            """
        self.assertEqual(output.decode().splitlines(), [line.strip() for line in wanted.splitlines()][:-1])

    def test_any_octets(self) -> None:
        """Comments and names of files have the octets that the script has; a line may end with CR LF."""
        (self.folder / "d\u00e0.wav").write_bytes(wav(b"\x11", 6, 8))
        text = "# d\u00e0 \u2026 \u00c5\r\nexchange 1 line\r\n0/1 speaks from d\u00e0.wav\n1 frame passes \t\n"
        (self.folder / "some.script").write_bytes(text.encode() + b"# \xff\x85")
        status, output, said = tool("script", "some.script", folder=self.folder)
        self.assertEqual((status, said), (0, ""))
        lines = output.split(b"\n")
        self.assertEqual((lines[0], lines[-2]), ("# d\u00e0 \u2026 \u00c5".encode(), b"# \xff\x85"))
        self.assertIn(b"F 0:11" + b"D5" * 29, lines)

    @needs_program
    def test_the_exchange_restarts_a_line(self) -> None:
        """Its user acknowledges RESTART, and the other one releases. While the line is down, RESTART waits."""
        text = "exchange 2 lines\nnumber 101 leads to line 1\nline 0 calls 101\nline 1 answers\nline 1 is restarted\n"
        text += "the link of line 1 fails\nline 1 is restarted\nthe link of line 1 is up\n"
        (self.folder / "some.script").write_text(text)
        status, output, said = tool("script", "some.script", folder=self.folder)
        self.assertEqual((status, said), (0, ""))
        events = [line for line in output.decode().splitlines() if line[:1] not in "#sen"]
        self.assertEqual(events[2:], ["M 0 080200010F", "restart 1", "M 0 080200014D", "M 1 080280004E790186", "down 1", "restart 1",
                                      "up 1", "M 1 080280004E790186"])  # fmt: skip

    def test_refused_lines(self) -> None:
        words = '"calls", "channel", "prefers", "begins", "dials", "proceeds", "alerts", "answers", "hangs", "rejects", '
        words += '"asks", "restarts", "falls", "recovers", "sends" or "is"'
        cases = (
            ("line 1 anwers", f'"anwers" is no word here: it may be {words}'),
            ("line 1", f"the line ends too early: it may be {words}"),
            ("30 frame parse", '"parse" is no word here: it has to be "pass" or "passes"'),
            ("line 0 hangs up when 16", '"when" is no word here: it may be the end of the line or "with"'),
            ("line x answers", '"x" is no word here: it has to be the number of a line'),
            ("line 1 answers now", '"now" is no word here: it has to be the end of the line'),
            ("line 0 calls 1O1", '"1O1" is no word here: it has to be 1 to 20 digits'),
            ("line 0 sends 123", '"123" is no word here: it has to be at most 260 octets in hexadecimal'),
            ("line 2 answers", "there is no line 2: the exchange has lines 0 to 1"),
            ("line 0 channel 16 calls 101", "16 is no bearer channel: those are 1 to 15 and 17 to 31"),
            ("0/32 calls 101", "32 is no bearer channel: those are 1 to 15 and 17 to 31"),
            ("0/1 joins room 64", "there is no room 64: rooms are 0 to 63"),
            ("line 0 hangs up with 128", "128 is no value of a cause: those are 1 to 127"),
            ("line 0 answers", "line 0 has no call to answer"),
            ("line 0 dials 1", "line 0 has no call to dial on in"),
            ("line 0 dials 1 to", "the line ends too early: it has to be \"the\""),
            ("0/1 hangs up", "line 0, channel 1 has no call to hang up"),
            ("0/1 is nailed to line 0 channel 1", "0/1 cannot be nailed to itself"),
            ("frames pass until the sounds end", "nobody speaks"),
            ("number 10 leads to line 0", "number 10 equals, begins or continues number 101"),
            ("number 2 leads to lines 0,1,0", "a line is twice in 0,1,0"),
            ("number 2 leads to lines 0,2", "there is no line 2: the exchange has lines 0 to 1"),
            ("number 2 leads to lines 0,,1", '"0,,1" is no word here: it has to be the numbers of lines such as 2,0,1'),
            ("65536 frames pass", "the trace has more than 65535 events"),
            ("exchange 2 lines", "the sizes of the exchange stand once, in the first line: exchange 2 lines"),
            ("0/1 joins room 0", "the exchange has no bridge, and so no room: exchange 2 lines 1 bridge"),
            ("line 0 recovers", "line 0 has not fallen silent"),
            ("0/1 speaks from none.wav", "none.wav cannot be read: No such file or directory"),
            ("timer T304 runs 2 frames", '"T304" is no word here: it has to be the name of a timer such as T303'),
        )
        for line, said in cases:
            with self.subTest(line=line):
                found = self.run_script(f"{self.HEAD}\n{line}\n")
                self.assertEqual(found, (1, b"", f"script: some.script: line 4: {said}\n"))

    def test_refused_scripts(self) -> None:
        first = "the sizes of the exchange stand once, in the first line: exchange 2 lines"
        sizes = "an exchange has 1 to 32 lines, at most 2 bridges, and 1 to 8 processors"
        settings = "numbers, tones and timers stand before anything happens"
        cases = (
            ("", "the line that gives the sizes of the exchange is missing"),
            ("number 1 leads to line 0", f"line 1: {first}"),
            ("exchange 33 lines", f"line 1: {sizes}"),
            ("exchange 1 line 9 processors", f"line 1: {sizes}"),
            (f"{self.HEAD}timer T303 runs 0 frames", "line 3: a timer runs for at least one frame"),
            (f"{self.HEAD}timer T303 runs 1 frame\ntimer T303 runs 2 frames", "line 4: this timer is given already"),
            (f"{self.HEAD}0/1 is freed\ntimer T303 runs 1 frame", f"line 4: {settings}"),
            (f"{self.HEAD}0/1 is freed\nnumber 2 leads to line 0", f"line 4: {settings}"),
        )
        for text, said in cases:
            with self.subTest(text=text):
                self.assertEqual(self.run_script(text), (1, b"", f"script: some.script: {said}\n"))

    def test_refused_sounds(self) -> None:
        whole = wav(b"\x11\x22", 6, 8)
        cases = (
            (b"RIFX" + whole[4:], "is no WAV file"),
            (whole[:24], "has no format or no data"),
            (whole[:-1], "is cut short: 1 of 2 octets of data are there"),
            (wav(b"\x11\x22", 7, 8), "has format tag 7 with 8 bits, and is neither A-law nor of 16 bits"),
            (wav(b"\x11\x22", 1, 8), "has format tag 1 with 8 bits, and is neither A-law nor of 16 bits"),
            (wav(b"\x11\x22", 6, 8, channels=2), "has 2 channels, and not 1"),
            (wav(b"\x11\x22", rate=44100), "has 44100 samples a second, and not 8000"),
        )
        for sound, said in cases:
            (self.folder / "some.wav").write_bytes(sound)
            with self.subTest(said=said):
                found = self.run_script("exchange 1 line\n0/1 speaks from some.wav\n")
                self.assertEqual(found, (1, b"", f"script: some.script: line 2: some.wav {said}\n"))
        (self.folder / "some.wav").write_bytes(wav(bytes(8001), 6, 8))
        said = "script: some.script: line 2: some.wav has 8001 octets, and a tone has 1 to 8000\n"
        self.assertEqual(self.run_script("exchange 1 line\nbusy tone from some.wav\n"), (1, b"", said))

    def test_refused_programs(self) -> None:
        text = self.HEAD + "line 0 calls 101\n"
        for program, said in (("./none", "./none is no program"), ("/bin/false", "ended with status 1")):
            status, output, found = self.run_script(text, "--program", program)
            self.assertEqual((status, output), (1, b""))
            self.assertTrue(found.startswith("script: some.script: line 3: ") and found.endswith(f"{said}\n"), found)

    @slow
    def test_how_far_it_is(self) -> None:
        """A script whose program takes its time shows a bar on a terminal, and removes it."""
        program = self.folder / "slow"
        program.write_text("#!/bin/sh\nsleep 0.6\n")
        program.chmod(0o755)
        text = "exchange 1 line\n" + "line 0 sends 08\n" * 5
        self.assertEqual(self.run_script(text, "--program", "./slow")[::2], (0, ""))
        main, other = os.openpty()
        self.addCleanup(os.close, main)
        words = command("script", "--program", "./slow", "some.script")
        subprocess.run(words, cwd=self.folder, stdout=subprocess.DEVNULL, stderr=other, check=True)
        os.close(other)
        shown = os.read(main, 10_000).decode()
        self.assertRegex(shown, r"\A(\rscript: some\.script \[#{1,29} {1,29}\] [0-9]{1,2}%\x1b\[K\r)+\r\x1b\[K\r\Z")

    def test_lines_at_once(self) -> None:
        """Commands and frames of indented lines are one segment; a comment and a blank line do not end it."""
        text = """
            exchange 2 lines 1 bridge
            at once:
                0/1 is nailed to 1/1
              # also this
                0/2 joins room 1

                2 frames pass
            a meter is changed
            at once:
              0/1 is freed
            0/2 is freed
            """
        wanted = ["exchange 1 2 1 1", "nail 0/1 1/1", "seat 0/2 1", "F", "F", "sync", "change"]
        self.assertEqual(self.lines(text), [*wanted, "free 0/1", "sync", "free 0/2", "sync"])
        nothing = "nothing happens in the lines below `at once:`, which are further in than it"
        within = "a meter is changed between two segments, and what happens at once is one segment"
        cases = (
            ("at once:\n0/1 is freed\n", 4, nothing),
            ("at once:\n", 3, nothing),
            ("at once:\n  at once:\n", 4, "`at once:` is within another one"),
            ("at once:\n  a meter is changed\n", 4, within),
            ("at once:\n  line 1 answers\n", 4, "line 1 has no call to answer"),
        )
        for text, number, said in cases:
            with self.subTest(text=text):
                found = self.run_script(self.HEAD + text)
                self.assertEqual(found, (1, b"", f"script: some.script: line {number}: {said}\n"))

    @needs_program
    def test_messages_at_once(self) -> None:
        """The endpoints answer behind the segment, and a meter's lines in the report are no replies."""
        text = "at once:\n  line 0 calls 101\n  line 1 calls 101\na meter is changed\nline 0 hangs up\n"
        lines = self.lines(self.HEAD + text)[2:]
        setups = [f"M {line} 080200010504038090A3700480313031" for line in (0, 1)]
        ends = ["M 0 080200014508028090", "sync", "M 0 080200015A", "sync", "M 1 080280014D", "sync"]
        self.assertEqual(lines, [*setups, "sync", "change", *ends])

    @needs_program
    def test_an_endpoint_falls_silent(self) -> None:
        """It gets DISCONNECT and twice RELEASE, and sends nothing; then its line is used again."""
        text = """
            timer T305 runs 1 frame
            timer T308 runs 1 frame
            line 0 calls 101
            line 1 answers
            line 1 falls silent
            line 0 hangs up
            200 frames pass
            line 1 recovers
            line 0 calls 101
            line 1 answers
            """
        called = [line for line in self.messages(text) if line.startswith("M 1")]
        self.assertEqual(called, ["M 1 0802800107", "M 1 0802800107"])
        for line in ("line 1 answers", "line 1 calls 101", "line 1 restarts"):
            said = "script: some.script: line 4: line 1 has fallen silent: line 1 recovers\n"
            self.assertEqual(self.run_script(f"{self.HEAD}line 1 falls silent\n{line}\n"), (1, b"", said))

    @needs_program
    def test_too_many_frames(self) -> None:
        """They are refused before the program is asked, with the line of the script."""
        text = self.HEAD + "line 0 calls 101\n65535 frames pass\n"
        said = "script: some.script: line 4: the trace has more than 65535 events\n"
        self.assertEqual(self.run_script(text), (1, b"", said))

    @needs_program
    def test_several_calls_to_choose_from(self) -> None:
        said = "script: some.script: line 5: line 1 has several calls to answer: name one of 1/1, 1/2\n"
        text = self.HEAD + "line 0 calls 101\nline 0 calls 101\nline 1 answers\n"
        self.assertEqual(self.run_script(text), (1, b"", said))


if __name__ == "__main__":
    support.main()
