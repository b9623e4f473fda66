"""How the full check says how far it is, and how much is left."""

from __future__ import annotations

import os
import shutil
import subprocess
from collections.abc import Sequence
from pathlib import Path

import support
from support import TOP, InFolder

CHECKS = ("mutations", "random_traces", "tools", "examples", "ends", "gated", "link_model", "figures", "words", "types")
LEFT = "10 min are left if it takes as long as the last run"


class RunTimes(InFolder):
    def setUp(self) -> None:
        super().setUp()
        shutil.copytree(TOP / "tools", self.folder / "tools", ignore=shutil.ignore_patterns("out", "__pycache__", "wanted"))
        for name in ("run", "usage.sh", "progress", "beside", "cost"):
            self.file(f".ci/{name}").write_bytes((TOP / ".ci" / name).read_bytes())
        for name in (".ci/built", *(f".ci/{check}" for check in CHECKS), "bin/rt"):
            self.file(name).write_text("#!/bin/sh\n")
        self.file("bin/rt").write_text("#!/bin/sh\necho rt: low proved; echo rt: other is kept: as it was; echo rt: tst proved\n")
        for path in [*self.folder.glob(".ci/*"), self.folder / "bin" / "rt"]:
            path.chmod(0o755)
        self.file("crates.txt").write_text("low:\nother:\ntst: low\n")
        self.times, self.last = self.file(".ci/out/run"), self.file(".ci/out/last_run")

    def file(self, name: str) -> Path:
        path = self.folder / name
        path.parent.mkdir(exist_ok=True, parents=True)
        return path

    def ran(self, *words: str, given: str = "", times: bool = True) -> tuple[int, list[str]]:
        env = {"PATH": f"{self.folder}/bin:{os.environ['PATH']}", "PYTHONDONTWRITEBYTECODE": "1"}
        env |= {"RUN_TIMES": str(self.times)} if times else {}
        done = subprocess.run(words, cwd=self.folder, env=env, input=given, capture_output=True, text=True, check=False)
        self.assertEqual(done.stderr, "")
        return done.returncode, done.stdout.splitlines()

    def longer(self) -> None:
        """Has the last run have taken ten minutes more at its end."""
        *lines, end = self.last.read_text().splitlines()
        self.last.write_text("".join(f"{line}\n" for line in (*lines, f"{float(end.split()[0]) + 610} end")))

    def with_text(self, lines: Sequence[str]) -> list[str]:
        return [line.partition(";")[0] for line in lines if line.endswith(LEFT)]

    def test_whole_runs(self) -> None:
        """The second knows how long the first took. One that fails is not kept."""
        status, lines = self.ran(".ci/run", times=False)
        self.assertEqual((status, self.with_text(lines)), (0, []))
        self.assertIn("run: 3 of 3 crates proved after 0 min", lines)
        parts = [line.partition(" ")[2] for line in self.last.read_text().splitlines()]
        self.assertEqual((parts[0], parts[-1], "3 crates" in parts, ".ci/tools" in parts), ("begun", "end", True, True))
        self.longer()
        kept = self.last.read_text()
        self.file(".ci/words").write_text("#!/bin/sh\nexit 1\n")
        status, lines = self.ran(".ci/run", times=False)
        beside = " ".join(f".ci/{check}" for check in CHECKS[3:])
        wanted = ["run: 3 of 3 crates proved after 0 min", f"run: .ci/mutations {beside}", "run: .ci/random_traces", "run: .ci/tools"]
        self.assertEqual((status, self.with_text(lines)[:4]), (1, wanted))
        self.assertEqual(self.last.read_text(), kept)

    def test_parts(self) -> None:
        """What is left counts from the last part that both runs have; one that takes longer says nothing."""
        now = float(Path("/proc/uptime").read_text().split()[0])
        cases: tuple[tuple[str, str, list[str]], ...] = (
            ("0 begun\n5 1 crates\n30 2 crates\n40 3 crates\n660 end\n", "", [LEFT]),
            ("0 begun\n5 1 crates\n610 end\n", f"{now} begun\n", [LEFT]),
            ("0 begun\n5 1 crates\n4 end\n", f"{now} begun\n", []),
            ("0 begun\n5 1 crates\n", f"{now} begun\n", []),
            ("not a time\n", f"{now} begun\n", []),
        )
        for last, times, wanted in cases:
            with self.subTest(last=last):
                self.last.write_text(last)
                self.times.write_text(times)
                _, lines = self.ran(".ci/progress", given="rt: low proved\nrt: a is checked\nrt: tst proved\nrt: other proved\n")
                self.assertEqual([lines[-1].partition("; ")[2]], wanted or [""])
        _, lines = self.ran(".ci/beside", ".ci/words", times=False)
        self.assertEqual(lines, ["run: .ci/words"])

    def test_outputs(self) -> None:
        """The first check writes at once, and what another wrote is printed with its end."""
        self.file(".ci/mutations").write_text("#!/bin/sh\necho one\nuntil [ -e ended ]; do sleep 0.05; done\necho three\n")
        self.file(".ci/words").write_text("#!/bin/sh\necho two\n>ended\nexit 1\n")
        status, lines = self.ran(".ci/beside", ".ci/mutations", ".ci/words", times=False)
        lines = [line.partition(" after ")[0] for line in lines]
        ends = ["run: .ci/mutations ended with status 0", "run: .ci/words ended with status 1"]
        self.assertEqual((status, sorted(lines[1:])), (1, sorted(["one", "two", "three", *ends])))
        self.assertEqual(lines.index("two") + 1, lines.index(ends[1]))


if __name__ == "__main__":
    support.main()
