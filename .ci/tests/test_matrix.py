"""Paull's matrix before and after an event, by tools/matrix."""

from __future__ import annotations

import unittest
import xml.etree.ElementTree as xml

import support
from nemzhuul.commands.matrix import around
from nemzhuul.traces.runs import read_run
from support import TRACES, is_refused, report_of, silence, slow, tool

REARRANGED = """event 34: 2 new paths
the path from line 0 to line 1 takes slot 15. No slot is free on both: 15 is free on line 0, 0 on line 1
a chain of 2 paths moves: 2 to 1 from 15 to 0, 2 to 0 from 0 to 15
the path from line 1 to line 0 takes slot 0, the lowest that is free on both

before   to 0      to 1       to 2
from 0   -         -          0-14
from 1   -         -          15-29
from 2   *0 1-14   *15 16-29  -

after    to 0      to 1       to 2
from 0   -         +15        0-14
from 1   +0        -          15-29
from 2   *15 1-14  *0 16-29   -
"""


class Matrices(unittest.TestCase):
    def test_a_rearrangement(self) -> None:
        words = ("rearrangement.trace", "rearrangement.report", 34)
        self.assertEqual(tool("matrix", *words), (0, REARRANGED.encode(), ""))
        status, output, said = tool("matrix", "--svg", *words)
        self.assertEqual((status, said), (0, ""))
        texts = [part.text for part in xml.fromstring(output.decode()).iter() if part.text]
        self.assertTrue({"*15 1-14", "*0 16-29", "+15", "Paull's matrix before and after event 34: 2 new paths"} <= set(texts))

    def test_words(self) -> None:
        for number in ("0", "38"):
            said = f"matrix: the trace has 37 events, and no event {number}\n"
            self.assertEqual(tool("matrix", "rearrangement.trace", "rearrangement.report", number), (1, b"", said))
        self.assertEqual(tool("matrix", "rearrangement.trace", "rearrangement.report", "x").status, 2)

    @slow
    def test_every_run(self) -> None:
        """A slot is at most once in a row and in a column, and a chain has as many paths as the report says."""
        for trace in TRACES:
            if is_refused(trace):
                continue
            with silence():
                run = read_run(str(trace), str(report_of(trace)))
            joined = [reply for _, reply in run[1] if reply.moved is not None]
            for reply in joined[-3:]:
                with self.subTest(trace=trace.name, event=reply.event):
                    _, after, laid = around(*run, reply.event)
                    self.assertEqual(tuple(len(one.chain) for one in laid), reply.moved)
                    for side in (0, 1):
                        taken = [(lines[side], number) for lines, numbers in after.cells.items() for number in numbers]
                        self.assertEqual(len(taken), len(set(taken)))


if __name__ == "__main__":
    support.main()
