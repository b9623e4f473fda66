"""Traces of calls that tools/traffic draws."""

from __future__ import annotations

import subprocess
import tempfile
import unittest
from pathlib import Path

import support
from nemzhuul.programs.program import PROGRAM
from nemzhuul.traces import following, runs
from support import needs_program, tool


def cause_of(call: following.Call) -> int | None:
    """The cause with which a call was cleared."""
    assert call.cleared is not None
    return call.cleared[1]


class Traffic(unittest.TestCase):
    """Traces of calls that are drawn."""

    LOAD = (3, 40, "--rate", 100, "--holding", 0.05, "--ringing", 0.02, "--lines", 4)

    @staticmethod
    def ran(*words: str | int, command: str = "run", trace: bytes = b"") -> bytes:
        done = subprocess.run([PROGRAM, command, *map(str, words)], input=trace, stdout=subprocess.PIPE, check=True)
        return done.stdout

    @needs_program
    def test_the_traces_of_gen(self) -> None:
        """They have as many events and frames as `tst gen` counts, and each call ends as it says."""
        for seed, calls in ((1, 20), (4294967295, 1), (7, 60)):
            status, trace, said = tool("traffic", seed, calls)
            self.assertEqual((status, said), (0, ""))
            report = self.ran(trace=trace).decode().splitlines()
            frames = sum(" frame " in line for line in report)
            first, *rest = self.ran(seed, calls, command="gen").decode().splitlines()
            self.assertEqual(first, f"events {len(report)} frames {frames}")
            changed = self.ran(trace=trace + b"change\nchange\nchange\n").decode().splitlines()
            self.assertEqual(changed[len(report) :], rest)

    def followed(self, *more: str | int) -> following.Run:
        """The run of a load, in which each message is part of a call."""
        status, trace, said = tool("traffic", *self.LOAD, *more)
        self.assertEqual((status, said), (0, ""))
        with tempfile.TemporaryDirectory() as folder:
            path, report = Path(folder) / "some.trace", Path(folder) / "some.report"
            path.write_bytes(trace)
            report.write_bytes(self.ran(trace=trace))
            read, steps = runs.read_run(str(path), str(report))
        run = following.Run(read)
        for event, reply in steps:
            run.take(event, reply)
        self.assertEqual((run.on_no_call, run.uses, len(run.calls)), ([], {}, 40))
        self.assertTrue(all(call.cleared for call in run.calls))
        return run

    @needs_program
    def test_shares(self) -> None:
        """Each call ends as it is drawn to."""
        self.assertTrue(all(call.answered is not None for call in self.followed().calls))
        busy = self.followed("--busy", 100, "--overlap", 100)
        self.assertEqual(set(map(cause_of, busy.calls)), {17})
        messages = [row.message for call in busy.calls for row in call.rows if row.message and not row.is_sent]
        self.assertEqual({message.digits for message in messages if message.name == "SETUP"}, {None})
        unanswered = self.followed("--unanswered", 100)
        self.assertEqual({(call.answered, cause_of(call)) for call in unanswered.calls}, {(None, 16)})
        mixed = self.followed("--unanswered", 30, "--busy", 30, "--overlap", 50)
        self.assertEqual(len({(call.answered is None, cause_of(call)) for call in mixed.calls}), 3)
        self.assertGreater(mixed.frames, 40 * 8000 // 200)

    def test_full_lines(self) -> None:
        """Calls for which there is no channel are not made, and no line has more calls than channels."""
        status, _, said = tool("traffic", 1, 100, "--rate", 8000, "--holding", 0.2, "--lines", 2)
        self.assertEqual(status, 0)
        self.assertRegex(said, r"\Atraffic: [1-9][0-9] of 100 calls are not made, since no line has a free channel\n\Z")

    def test_too_much(self) -> None:
        said = "traffic: the trace has more than 65535 events\n"
        self.assertEqual(tool("traffic", 1, 100, "--rate", 1), (1, b"", said))

    def test_wrong_words(self) -> None:
        cases: list[tuple[str | int, ...]] = [(), (1,), (-1, 2), (1, 0), (1, 2001), (1, 2, 3), ("x", 1), (1, 2, "--busy", 5)]
        cases += [(1, 2, "--rate"), (1, 2, "--rate", 0), (1, 2, "--rate", 1, "--lines", 33)]
        cases += [(1, 2, "--rate", 1, "--busy", 60, "--unanswered", 60)]
        for words in cases:
            with self.subTest(words=words):
                status, output, said = tool("traffic", *words)
                self.assertEqual((status, output), (2, b""))
                self.assertTrue(said.startswith("usage: tools/traffic SEED CALLS >TRACE"))


if __name__ == "__main__":
    support.main()
