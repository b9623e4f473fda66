"""Call detail records, by tools/records."""

from __future__ import annotations

import csv
import io
import re
import subprocess
from fractions import Fraction
from pathlib import Path
from typing import Dict

import support
from nemzhuul.programs.program import PROGRAM
from support import EXAMPLES, TRACES, InFolder, is_refused, needs_program, report_of, slow, tool

Row = Dict[str, str]  # a record, by the names of its columns


class Records(InFolder):
    """Call detail records, compared with what the meters of the program record of the same calls."""

    def rows(self, trace: str | Path, report: str | Path) -> list[Row]:
        """The records of a run, which the csv module reads."""
        status, output, said = tool("records", trace, report)
        self.assertEqual((status, said), (0, ""))
        return list(csv.DictReader(io.StringIO(output.decode(), newline=""), strict=True))

    @staticmethod
    def metered(rows: list[Row]) -> list[Row]:
        """The records that a meter has: of calls that reached a user or a room, and were cleared."""
        return [row for row in rows if row["called"] and row["clearing"]]

    @staticmethod
    def call_line(row: Row) -> str:
        """The line of `CallDetail` of a record: a call that was not answered has its clearing as its first frame."""
        first = row["answer"] or row["clearing"]
        return f"call {row['caller']} {row['called']} {first} {row['clearing']} {row['cause']}"

    def check_meters(self, rows: list[Row], report: str) -> None:
        """The last ten calls, the peg count and the holding time of the first three meters of a report."""
        *lines, peg, holding = [line for line in report.splitlines() if line.startswith(("call", "peg", "holding"))]
        calls = self.metered(rows)
        frames = [int(row["clearing"]) - int(row["answer"]) for row in calls if row["answer"]]
        self.assertEqual(peg, f"peg {len(calls)} {len(frames)}")
        self.assertEqual(holding, f"holding {sum(frames)} {max(frames, default=0)}")
        self.assertEqual(len(lines), min(len(calls), 10))
        left = sorted(calls, key=lambda row: int(row["clearing"]))
        for line in reversed(lines):
            # Calls that are cleared in one frame may come in either order.
            last = [row for row in left if row["clearing"] == left[-1]["clearing"]]
            self.assertIn(line, map(self.call_line, last))
            left.remove(next(row for row in last if self.call_line(row) == line))

    def check_run(self, trace: bytes) -> list[Row]:
        """A trace, with each active meter removed at its end."""
        path, report = self.folder / "some.trace", self.folder / "some.report"
        path.write_bytes(trace + b"\nchange\nchange\nchange\n")
        done = subprocess.run([PROGRAM, "run"], input=path.read_bytes(), stdout=subprocess.PIPE, check=True)
        report.write_bytes(done.stdout)
        rows = self.rows(path, report)
        self.check_meters(rows, done.stdout.decode())
        return rows

    def test_meters_of_reports(self) -> None:
        """The reports of examples that have the details of calls have the calls of the records, in order."""
        names = [path.stem for path in EXAMPLES.glob("*.trace") if re.search("^call ", report_of(path).read_text(), re.MULTILINE)]
        self.assertEqual(len(names), 6)
        for name in names:
            lines = [line for line in (EXAMPLES / f"{name}.report").read_text().splitlines() if line.startswith("call ")]
            rows = self.rows(f"{name}.trace", f"{name}.report")
            self.assertEqual([self.call_line(row) for row in self.metered(rows)], lines)

    @needs_program
    @slow
    def test_meters_of_every_run(self) -> None:
        """Of each example, with overlap sending, expired timers, RESTART and refused calls among them."""
        causes = set()
        for trace in TRACES:
            if not is_refused(trace) and "\nchange" not in trace.read_text():
                with self.subTest(trace=trace.name):
                    causes |= {row["cause"] for row in self.metered(self.check_run(trace.read_bytes()))}
        self.assertLessEqual({"16", "17", "18", "19", "31", "41"}, causes)

    @needs_program
    def test_meters_of_traffic(self) -> None:
        """More calls than a meter has details of, in threads: the report is in the order of their turns."""
        load = (5, 60, "--rate", 200, "--holding", 0.05, "--ringing", 0.02, "--lines", 4)
        _, trace, _ = tool("traffic", *load, "--busy", 20, "--unanswered", 20, "--overlap", 50)
        rows = self.check_run(trace)
        self.assertGreater(len(self.metered(rows)), 30)
        for row in rows:
            wanted = "" if "" in (row["answer"], row["clearing"]) else Fraction(int(row["clearing"]) - int(row["answer"]), 8000)
            self.assertEqual(row["seconds"] and Fraction(row["seconds"]), wanted)
            frames = [int(row[name]) for name in ("setup", "alerting", "answer", "clearing", "release") if row[name]]
            self.assertEqual(frames, sorted(frames))

    def test_quoting(self) -> None:
        """A number is a text of any characters. A record is one line, also where its number has a line end."""
        cases = (("31222C32", '"1"",2"', '1",2'), ("310A", r"'1\n'", r"'1\n'"), ("2C0D22", '"\',\\r""\'"', "',\\r\"'"))
        for digits, written, read in cases:
            with self.subTest(digits=digits):
                path, report = self.folder / "some.trace", self.folder / "some.report"
                path.write_text(f"exchange 1 1 0 1\nM 0 080200010504038090A370{len(digits) // 2 + 1:02X}80{digits}\n")
                report.write_text("1 message 0:080280015A0802829C\n")
                _, output, _ = tool("records", path, report)
                line = f"0,,{written},0,,,0,0,,28,invalid number format (address incomplete)"
                self.assertEqual(output.decode().split("\n")[1:], [line, ""])
                self.assertEqual([row["number"] for row in self.rows(path, report)], [read])

    def test_no_call(self) -> None:
        _, output, _ = tool("records", "silence.trace", "silence.report")
        self.assertEqual(output, b"caller,called,number,setup,alerting,answer,clearing,release,seconds,cause,cause_name\n")


if __name__ == "__main__":
    support.main()
