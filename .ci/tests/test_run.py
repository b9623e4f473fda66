"""Which program a tool runs, proved or not."""

from __future__ import annotations

import os
import re
import shutil
import signal
import subprocess
import sys
from pathlib import Path

import support
from support import TOP, InFolder, stream


class Programs(InFolder):
    """Which program a tool runs."""

    def setUp(self) -> None:
        super().setUp()
        self.copy = self.folder
        shutil.copytree(TOP / "tools", self.copy / "tools", ignore=shutil.ignore_patterns("out", "__pycache__"))
        (self.copy / "crates" / "tst" / "src").mkdir(parents=True)
        (self.copy / "crates" / "tst" / "src" / "main.rt").write_text("")
        (self.copy / "crates.txt").write_text("tst: low\n")
        self.bin = self.copy / "bin"
        self.bin.mkdir()

    def make(self, path: Path, text: str) -> None:
        path.parent.mkdir(exist_ok=True, parents=True)
        path.write_text("#!/bin/sh\n" + text)
        path.chmod(0o755)

    def make_proved(self, text: str) -> None:
        """A proved program, with the record of its sources."""
        self.make(self.copy / "crates" / "tst" / "out" / "tst", text)
        lines = ("from nemzhuul.programs import built, program", "program.BUILT.record(built.sources_of('tst'))")
        subprocess.run([sys.executable, "-Bc", "\n".join(lines)], cwd=self.copy / "tools", check=True)

    def ran(self, *words: str) -> tuple[int, str, str]:
        """What `tools/run` does where these commands alone are on the path."""
        env = {"PATH": f"{self.bin}:/usr/bin:/bin", "PYTHONDONTWRITEBYTECODE": "1"}
        command = [sys.executable, str(self.copy / "tools" / "run"), *words]
        done = subprocess.run(command, capture_output=True, env=env, check=False)
        return done.returncode, done.stdout.decode(), re.sub(r"[0-9]+\.[0-9]+ s", "T s", done.stderr.decode())

    def test_the_proved_program(self) -> None:
        self.make_proved('echo "$@"; exit 6')
        said = "run: the proved program ran for T s and ended with status 6\n"
        said += "run: `tools/explain --status 6` says what this means\n"
        self.assertEqual(self.ran("check", "--strict"), (6, "check --strict\n", said))

    def test_wrong_words(self) -> None:
        """They get the usage at once: no program is built for them."""
        self.make(self.bin / "rt", "echo started >&2; exit 1")
        for words in ((), ("wrong",), ("run", "more"), ("check", "--help", "no"), ("gen", "1"), ("gen", "1", "2", "3"), ("follow", "--fast")):
            status, output, said = self.ran(*words)
            if "--help" in words:
                status, output, said = status + 2, said, output
            self.assertEqual((status, output), (2, ""))
            self.assertTrue(said.startswith("usage: tools/run COMMAND"))

    def test_a_refusal(self) -> None:
        """A refusal is in the report alone, so the tool that explains it is named."""
        self.make_proved("echo refused 1 header; exit 1")
        status, output, said = self.ran("run")
        self.assertEqual((status, output), (1, "refused 1 header\n"))
        wanted = "`tools/explain --status 1` says what this means, and `tools/explain TRACE` which line is wrong and why"
        self.assertEqual(said.splitlines()[1:], [f"run: {wanted}"])

    def test_an_interrupt(self) -> None:
        self.make_proved("echo begun; exec sleep 60")
        command = [sys.executable, str(self.copy / "tools" / "run"), "run"]
        with subprocess.Popen(command, start_new_session=True, stdout=subprocess.PIPE, stderr=subprocess.PIPE) as work:
            self.assertEqual(stream(work.stdout).readline(), b"begun\n")
            os.killpg(work.pid, signal.SIGINT)
            self.assertEqual((work.wait(), stream(work.stderr).read()), (130, b"run: interrupted\n"))

    def test_progress(self) -> None:
        """It is shown on a terminal, and nowhere else."""
        self.make_proved("head -c 1500000 >/dev/null; echo report; sleep 0.5")
        tool = self.copy / "tools" / "nemzhuul" / "command_line.py"
        tool.write_text(tool.read_text().replace("PROGRESS_SECONDS = 2", "PROGRESS_SECONDS = 0.1"))
        trace, report = self.copy / "trace", self.copy / "report"
        trace.write_bytes(bytes(3_000_000))
        main, other = os.openpty()
        self.addCleanup(os.close, main)
        for error in (other, subprocess.PIPE):
            with open(trace, "rb") as given, open(report, "wb") as told:
                command = [sys.executable, str(self.copy / "tools" / "run"), "run"]
                done = subprocess.run(command, stdin=given, stdout=told, stderr=error, check=False)
            self.assertEqual((done.returncode, report.read_bytes()), (0, b"report\n"))
        self.assertEqual(len(done.stderr.splitlines()), 1)
        os.close(other)
        shown = os.read(main, 10_000).decode()
        self.assertRegex(shown, r"\rrun: has read 1\.[0-9] of 3\.0 MB and written 0\.0 MB, 0 s\x1b\[K\r")
        self.assertRegex(shown, r"\r\x1b\[K\rrun: the proved program ran for ")

    def make_builder(self, before: str = "") -> None:
        """The command of the kit that builds a program. It takes half a second, and ends when its program was found."""
        self.make(self.bin / "rt", f"{before}mkdir $TMPDIR/a; printf '#!/bin/sh\\necho hello' >$TMPDIR/a/b; chmod +x $TMPDIR/a/b\n"
                  "mv $TMPDIR/a/b $TMPDIR/a/program; sleep 0.5; until [ -e $TMPDIR/../tst ]; do sleep 0.05; done; rm -r $TMPDIR/a\n")  # fmt: skip

    def test_a_long_build(self) -> None:
        """How long it has taken is reported while it lasts."""
        self.make_builder()
        program = self.copy / "tools" / "nemzhuul" / "programs" / "program.py"
        program.write_text(program.read_text().replace("BUILD_SECONDS = 10", "BUILD_SECONDS = 0.1"))
        self.assertRegex(self.ran("run")[2], r"(?m)^run: `rt try` has been building for [0-9]+ s$")

    def test_an_unproved_program(self) -> None:
        """It is built once, and again if a source is another."""
        self.make_builder()
        builds = "crates/tst/out/tst is not built: `rt try` builds an unproved program, which takes about two minutes\n"
        ends = "run: an unproved program ran for T s and ended with status 0\n"
        self.assertEqual(self.ran("run"), (0, "hello\n", builds + ends))
        self.assertEqual(self.ran("run"), (0, "hello\n", ends))
        (self.copy / "crates" / "tst" / "src" / "main.rt").write_text("another")
        self.assertEqual(self.ran("run"), (0, "hello\n", builds + ends))

    def test_a_build_that_removes_folders(self) -> None:
        """A folder that is gone before it is read is passed over."""
        self.make_builder("for n in $(seq 150); do mkdir -p $TMPDIR/b/c; rm -r $TMPDIR/b; done; ")
        self.assertEqual(self.ran("run")[:2], (0, "hello\n"))

    def test_no_program(self) -> None:
        said = "run: crates/tst/out/tst is not built, and the commands of the Rattle kit are not on the path\n"
        self.assertEqual(self.ran("run"), (1, "", said))
        self.make(self.bin / "rt", "exit 1")
        status, _, said = self.ran("run")
        self.assertEqual((status, said.splitlines()[1][:38]), (1, "run: `rt try` built no program: `tools"))


if __name__ == "__main__":
    support.main()
