"""Why a trace or a report is refused, by tools/explain."""

from __future__ import annotations

import re
import shutil
import tracemalloc
from unittest import mock

import support
import example_tables
from nemzhuul.commands import explain
from nemzhuul.traces import events, reading
from support import EXAMPLES, InFolder, slow, tool


class Explanations(InFolder):
    """Why a trace or a report is refused."""

    def explained(self, content: bytes, *more: str, ends: int = 1) -> list[str]:
        """The lines of an explanation, which ends with the status of the exchange."""
        (self.folder / "some.trace").write_bytes(content)
        status, output, said = tool("explain", "some.trace", *more, folder=self.folder)
        self.assertEqual((status, said), (ends, ""))
        return output.decode().splitlines()

    def test_causes(self) -> None:
        head, likely = b"exchange 1 2 0 1\n", "likely cause: "
        cases = (
            (b"# a\r\nexchange 1 2 0 1\r\n", "2 header", 17, "remedy: tr -d '\\r' <some.trace >good"),
            (b"\xef\xbb\xbfexchange 1 2 0 1\n", "1 header", 1, "remedy: tail -c +4 <some.trace >good"),
            ("exchange".encode("utf-16"), "1 header", 1, "remedy: iconv -f UTF-16 -t ASCII <some.trace >good"),
            (head + b"nail\t0/1 1/1\n", "2 word", 5, "remedy: tr '\\t' ' ' <some.trace >good"),
            (head + b"free\xc2\xa00/1\n", "2 word", 5, "remedy: sed 's/\\xc2\\xa0/ /g' <some.trace >good"),
            (b"exchange 2 lines\n", "1 header", 1, likely + "this is a script: `tools/script FILE >TRACE` writes its trace"),
            (b"1 busy\n", "1 header", 1, likely + "this is a report; the trace is another file"),
            (head + b"1 busy\n", "2 word", 1, likely + "this is a line of a report, and not of a trace"),
            (head + b"f 0:00\n", "2 word", 1, likely + "the word is `F`"),
            (head + b"M 0 08 02\n", "2 word", 8, likely + "the octets of a message are written without spaces between them"),
            (head + b"M 0 0x08\n", "2 hex", 5, likely + "the octets have no 0x in front"),
            (head + b"M 0 O8\n", "2 hex", 5, likely + "the letter O is written for a digit"),
            (head + b"free 0/16\n", "2 slot", 6, likely + "channel 0 carries the framing of a primary rate line, and channel 16 its signalling"),
            (head + b"seat 0/1 01\n", "2 number", 10, likely + "a number has no leading zero"),
        )
        for content, refusal, column, cause in cases:
            with self.subTest(content=content):
                number, _ = refusal.split()
                first, where, text, mark, last = self.explained(content)
                self.assertIn(f"the exchange writes `refused {refusal}` and ends with status 1", first)
                self.assertTrue(where.startswith(f"line {number}, column {column}: "), where)
                self.assertEqual(last, cause)
                self.assertEqual(mark.strip(), "^")
                self.assertLess(mark.index("^"), len(text) + 1)

    @slow
    def test_every_refusal_of_the_tables(self) -> None:
        """Each input that the program refuses is refused here at the same line with the same word."""
        rows = [(*row, name == "follows") for name in ("inputs", "follows") for row in example_tables.rows(name)]
        count = 0
        for wanted, text, is_followed in rows:
            content = example_tables.written_out(text)
            refusal = re.search(rb"^refused .*\n\Z", example_tables.written_out(wanted), re.MULTILINE)
            if refusal is None and not is_followed or len(content) > events.MAX_BYTES:
                continue
            count += 1
            (self.folder / "some.trace").write_bytes(content)
            found = reading.take_lines(reading.TraceReader(is_followed), reading.lines_of(self.folder / "some.trace"))
            with self.subTest(text=text):
                self.assertEqual(found and "refused {} {}\n".format(*found).encode(), refusal and refusal.group())
        self.assertGreater(count, 90)

    def test_long_lines(self) -> None:
        """The mark is under the octet that fails, also in a line of which only a part is shown."""
        line = "M 0 " + "08" * 100 + "0\t" + "08" * 100
        _, _, text, mark, _ = self.explained(f"exchange 1 2 0 1\n{line}\n".encode())
        self.assertEqual(text[mark.index("^") :][:3], "\\t0")
        self.assertLess(len(text), 100)

    def test_limits(self) -> None:
        """A limit is stated in words, with its number."""
        header = b"exchange 1 2 0 1\n"
        head, said = self.explained(header + b"#" * events.MAX_BYTES)
        self.assertIn("the exchange writes `refused 0 limit` and ends with status 1", head)
        self.assertEqual(said, "it has over 67,108,864 bytes, and `tst follow` alone reads so many")
        self.assertIn(": a trace has at most 65,535 events", self.explained(header + b"F\n" * 65_536)[1])
        (self.folder / "some.trace").write_bytes(header + b"report\n" + b"1 busy\n" * 9)
        with mock.patch.object(explain, "MAX_BYTES", 40):  # of the trace alone
            found = explain.explain_trace(str(self.folder / "some.trace"))
        self.assertEqual((found.status, "is a trace: 2 lines, " in found.text), (0, True))
        links = header + b"link 0\nL 0 00\nM 0 08\n"
        self.assertIn("line 0 has a data link: its messages come in frames, lines `L`", self.explained(links)[1])

    @slow
    def test_long_runs(self) -> None:
        """A log of `tools/attach`, and a trace with the report of `tst follow`, may be longer than `tst run` accepts."""
        head, clock = b"exchange 1 2 0 1\n", b"# clock: frame 0 begins at 2026-12-01T00:00:00.000000Z\n"
        many = 66_000
        summary = "a trace of `tst follow`, which is too long for `tst run`: 2 lines, 0 bridges, 1 processors, 0 numbers, "
        summary += f"{many} events, {many} of them frames"
        self.assertEqual(self.explained(head + clock + b"F\n" * many, ends=0), [f"some.trace is {summary}"])
        report = self.folder / "some.report"
        rows = [f"{number} frame {number - 1}\n" for number in range(1, many + 1)]
        report.write_text("".join(rows))
        said = self.explained(head + b"F\n" * many, "some.report", ends=0)
        self.assertEqual((said[0], said[1][:42]), (f"some.trace is {summary}", "some.report has a line for each event of s"))
        self.assertIn(f"refused {many + 3} word", self.explained(head + clock + b"F\n" * many + b"f\n")[0])
        rows[7] = "8 frame 7 0:a1\n"
        report.write_text("".join(rows))
        said = self.explained(head + b"F\n" * many, "some.report", ends=6)
        self.assertEqual(said[1:3], ["some.report is no report", "line 8, column 13: octets of a report are upper-case digits"])

    def test_memory(self) -> None:
        """A run that is ten times as long takes no more memory."""
        trace, report = self.folder / "some.trace", self.folder / "some.report"
        peaks = []
        for frames in (2_000, 20_000):
            trace.write_text("exchange 1 2 0 1\nlink 0\n" + "F\n" * frames)
            report.write_text("".join(f"{number} frame {number - 1}\n" for number in range(1, frames + 1)))
            tracemalloc.start()
            found = explain.explain_trace(str(trace)), explain.explain_report(str(trace), str(report))
            peaks.append(tracemalloc.get_traced_memory()[1])
            tracemalloc.stop()
            self.assertEqual([one.status for one in found], [0, 0])
        self.assertLess(peaks[1], peaks[0] + 50_000, "octets")

    def test_reports(self) -> None:
        shutil.copy(EXAMPLES / "whole_call.report", self.folder)
        trace = (EXAMPLES / "whole_call.trace").read_bytes()
        said = self.explained(trace, "whole_call.report", ends=0)
        self.assertTrue(said[0].startswith("some.trace is a trace: 2 lines, 0 bridges, 2 processors, 1 numbers, 10 events, 3 "))
        self.assertTrue(said[1].startswith("whole_call.report has a line for each event of some.trace"))
        cases = (
            ("7 frame 2 0:a1d5", 13, "octets of a report are upper-case digits"),
            ("1 busy\r", 7, "the line ends with a carriage return, as on Windows"),
            ("1  busy", 2, "there is one space between two words, and none before or after them"),
            ("01 busy", 1, "a number has no leading zero"),
            ("1 bsy", 1, "no line of a report is so written"),
            ("refused 3 slot", 9, "this is the report of a refusal"),
        )
        for line, column, wanted in cases:
            (self.folder / "some.report").write_bytes(f"{line}\n".encode())
            said = self.explained(trace, "some.report", ends=6)
            self.assertEqual(said[1:3], ["some.report is no report", f"line 1, column {column}: {wanted}"])

    def test_statuses(self) -> None:
        _, output, _ = tool("explain", "--status")
        self.assertEqual([line[:2] for line in output.decode().splitlines() if line[1] == ":"], [f"{n}:" for n in range(7)])
        for number, wanted in ((3, "3: reading failed"), (137, "137: signal 9"), (77, "77: the program never")):
            _, output, _ = tool("explain", "--status", number)
            self.assertTrue(output.decode().startswith(wanted))


if __name__ == "__main__":
    support.main()
