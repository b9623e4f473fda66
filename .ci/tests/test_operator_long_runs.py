"""Runs that are longer than `tst run` accepts, through the tools that read a trace and its report."""

from __future__ import annotations

import subprocess
import tracemalloc
from unittest import mock

import support
from support import EXAMPLES, LINKED, InFolder, needs_program, report_of, slow, tool

from nemzhuul import command_line
from nemzhuul.command_line import Refused
from nemzhuul.commands import calls, moves, page, plain, records
from nemzhuul.programs.program import PROGRAM
from nemzhuul.traces import runs

SETTINGS = "exchange 1 3 1 1\nnumber 100 line 0\nnumber 101 line 1\nnumber 30 room 0\nnail 2/1 2/2\n"
PLAIN = "tools/plain writes a trace without them"
FRAMES = 70_000  # more than a trace of `tst run` has
CALLS = (  # the messages of a call, and the frames between them
    ("M 0 080200010504038090A3700480313031", "M 1 08028{:03X}07", 40),
    ("M 0 080200014508028090", "M 1 08028{:03X}4D", 3),
    ("M 0 080200015A", "M 0 080200010504038090A37003803939", 5),
)


def story(frames: int, calls: int = 3) -> list[str]:
    """Calls that end, and one that is refused, between frames with and without octets."""
    lines = ["# clock: frame 0 begins at 2026-12-01T00:00:00.000000Z", *(f"F{' 0:' + '11' * 30 if at % 3 else ''}" for at in range(frames // 2))]
    for number in range(1, calls + 1):
        for first, second, count in CALLS:
            lines += [first, "F", second.format(number), *["F"] * count]
    return lines + ["F"] * (frames // 2)


@needs_program
class LongRuns(InFolder):
    def setUp(self) -> None:
        super().setUp()
        self.trace, self.report = self.folder / "some.trace", self.folder / "some.report"

    def follow(self, lines: list[str]) -> None:
        self.trace.write_text(SETTINGS + "".join(f"{line}\n" for line in lines))
        done = subprocess.run([PROGRAM, "follow"], input=self.trace.read_bytes(), capture_output=True, check=False)
        self.assertEqual(done.returncode, 0, done.stdout[-100:])
        self.report.write_bytes(done.stdout)

    def output(self, name: str) -> str:
        status, output, said = tool(name, "some.trace", "some.report", folder=self.folder)
        self.assertEqual((status, said), (0, ""))
        return output.decode()

    @slow
    def test_calls_and_records(self) -> None:
        """They equal the ones with fewer frames before and after them."""
        self.follow(story(1000))
        short = {name: self.output(name) for name in ("calls", "records", "moves")}
        self.follow(story(FRAMES))
        long = {name: self.output(name) for name in ("calls", "records", "moves")}
        self.assertEqual(len(short["records"].splitlines()), 7)
        shift = FRAMES // 2 - 500

        def later(row: str) -> str:
            fields = row.split(",")
            times = (str(int(field) + shift) if field.isdecimal() else field for field in fields[3:8])
            return ",".join([*fields[:3], *times, *fields[8:]])

        rows = short["records"].splitlines()
        self.assertEqual(long["records"].splitlines(), [rows[0], *map(later, rows[1:])])
        self.assertEqual(long["calls"].count("\ncall ") + 1, 6)
        self.assertEqual([line for line in long["calls"].splitlines() if "call " in line[:5]][0][:20], short["calls"][:20])
        self.assertEqual(long["moves"].splitlines()[0], short["moves"].splitlines()[0])

    @slow
    def test_small_and_long_runs_alike(self) -> None:
        """What the tools print does not depend on how a run is read."""
        for path in (EXAMPLES / "conversation.trace", EXAMPLES / "whole_call.trace", EXAMPLES / "rearrangement.trace"):
            done = subprocess.run([PROGRAM, "follow"], input=path.read_bytes(), capture_output=True, check=True)
            self.report.write_bytes(done.stdout)
            for main in (calls.main, records.main, moves.main, page.main):
                with self.subTest(path=path.name, main=main.__module__):
                    parts: list[str] = []
                    with mock.patch.object(runs, "MAX_EVENTS", 0), mock.patch("nemzhuul.command_line.write_output", parts.append):
                        parts.append(main(str(path), str(self.report)))
                    self.assertEqual("".join(parts), main(str(path), str(self.report)))

    def test_a_long_run_with_data_links(self) -> None:
        """What tools/plain writes of it is the same, written as it is read."""
        parts: list[str] = []
        words = (str(LINKED), str(report_of(LINKED)))
        with mock.patch.object(runs, "MAX_EVENTS", 0), mock.patch("nemzhuul.command_line.write_output", parts.append):
            parts.append(plain.main(*words))
        self.assertGreater(len(parts), 5)
        self.assertEqual("".join(parts), plain.main(*words))

    def test_progress(self) -> None:
        """A bar on a terminal shows how much of the trace is read, and is removed."""
        shown: list[str] = []
        path = EXAMPLES / "rearrangement.trace"
        patches = mock.patch.multiple(command_line, PROGRESS_SECONDS=0, REPEAT_SECONDS=0, write_line=shown.append)
        for is_terminal in (False, True):
            with patches, mock.patch.object(runs, "SHOWN_LINES", 1), mock.patch("os.isatty", lambda number: is_terminal and number == 2):
                runs.read_run(str(path), str(report_of(path)))
            self.assertEqual(bool(shown), is_terminal)
        self.assertEqual(shown[-1], "")
        shares = [int(line.rpartition("] ")[2].rstrip("%")) for line in shown[:-1]]
        self.assertEqual((shares, shares[-1]), (sorted(shares), 100))
        self.assertIn(f"[{'#' * 30}]", shown[-2])

    def test_counts(self) -> None:
        for trace in support.TRACES:
            report = report_of(trace).read_text()
            if not report.startswith("refused") and "sync" not in report and "\nchange" not in trace.read_text():
                self.assertEqual(runs.count_events(str(trace)), report.count("\n"), trace.name)

    def test_refused_runs(self) -> None:
        self.follow(story(1000))
        rows = self.report.read_text().splitlines(keepends=True)
        lines = self.trace.read_text().splitlines(keepends=True)
        last = len(rows)
        misfit = f"{self.report} is not the report of {self.trace}: "
        cases = (
            (lines, rows[:-1], f"{misfit}it has too few lines"),
            (lines, [*rows, "1 busy\n"], f"{misfit}line {last + 1}"),
            (lines, [*rows, "x\n"], f"{self.report} is no report: line {last + 1}"),
            (lines, [*rows[:500], *rows[501:]], f"{misfit}line 501"),
            (lines, [*rows[:-1], "x\n"], f"{self.report} is no report: line {last}"),
            ([*lines, "M 0 0\n"], rows, f"{self.trace} is no trace: line {len(lines) + 1}, hex"),
            ([*lines, "number 1 line 0\n"], rows, f"{self.trace} is no trace: line {len(lines) + 1}, word"),
            ([line.replace("nail", "link 0\nnail") for line in lines], rows, f"{self.trace} has data links: {PLAIN}"),
        )
        for trace, report, said in cases:
            with self.subTest(said=said), mock.patch.object(runs, "MAX_EVENTS", 0):
                self.trace.write_text("".join(trace))
                self.report.write_text("".join(report))
                with self.assertRaises(Refused) as refused:
                    list(runs.open_run(str(self.trace), str(self.report)).steps)
                self.assertEqual(str(refused.exception), said)

    def test_memory(self) -> None:
        """A run that is ten times as long takes no more memory for its records."""
        peaks = []
        for frames in (1000, 10_000):
            self.follow(story(frames))
            patches = mock.patch.multiple(runs, MAX_EVENTS=0, BLOCK=4096)
            with patches, mock.patch("nemzhuul.command_line.write_output"):
                tracemalloc.start()
                records.main(str(self.trace), str(self.report))
                peaks.append(tracemalloc.get_traced_memory()[1])
                tracemalloc.stop()
        self.assertLess(peaks[1], peaks[0] + 50_000, "octets")


if __name__ == "__main__":
    support.main()
