"""What each script of the repository answers to `--help` and to wrong arguments, and a tool to an old Python."""

from __future__ import annotations

import os
import shutil
import subprocess
import sys
from collections.abc import Sequence
from concurrent.futures import ThreadPoolExecutor
from pathlib import Path

import support
from support import TOP, InFolder, slow

FOLDERS = ("bench", ".ci", "docs")
STARTED = ("rt", "cc", "clang", "rustc", "git", "mypy")  # what a script would begin its work with


def scripts() -> list[Path]:
    """The scripts of the repository, besides its tools and tests."""
    files = [path for folder in FOLDERS for path in sorted((TOP / folder).rglob("*")) if path.is_file()]
    return [path for path in files if os.access(path, os.X_OK) and "tests" not in path.parts and "out" not in path.parts]


class Usages(InFolder):
    def setUp(self) -> None:
        super().setUp()
        for name in STARTED:
            program = self.folder / name
            program.write_text(f"#!/bin/sh\necho {name} >>{self.folder}/started\n")
            program.chmod(0o755)

    def ran(self, command: Sequence[object]) -> subprocess.CompletedProcess[str]:
        env = {**os.environ, "PATH": f"{self.folder}:{os.environ['PATH']}", "PYTHONDONTWRITEBYTECODE": "1"}
        words = [str(word) for word in command]
        return subprocess.run(
            words, cwd=self.folder, env=env, stdin=subprocess.DEVNULL, capture_output=True, text=True, timeout=60, check=False
        )

    @slow
    def test_scripts(self) -> None:
        found = scripts()
        self.assertGreater(len(found), 30)
        with ThreadPoolExecutor(os.cpu_count()) as pool:
            helps = pool.map(lambda script: self.ran([script, "--help"]), found)
            faults = pool.map(lambda script: self.ran([script, "--no-such-word"]), found)
        for script, help_of, fault in zip(found, helps, faults):
            name = script.relative_to(TOP)
            with self.subTest(script=name):
                self.assertEqual((help_of.returncode, help_of.stderr), (0, ""))
                self.assertIn(f"usage: {name}", help_of.stdout.replace("usage: rt ci | ", "usage: "))
                self.assertEqual((fault.returncode, fault.stdout), (2, ""))
                self.assertTrue(fault.stderr.startswith("usage: "), fault.stderr)
        self.assertEqual([path.name for path in self.folder.glob("started")], [])

    def test_no_unasked_proof(self) -> None:
        """A measurement without a proved program ends at once."""
        copy = self.folder / "copy"
        for part in ("bench", "tools"):
            shutil.copytree(TOP / part, copy / part, ignore=shutil.ignore_patterns("out", "__pycache__"))
        done = self.ran([copy / "bench" / "run"])
        self.assertEqual((done.returncode, done.stdout), (2, ""))
        self.assertEqual(done.stderr, "run: crates/tst/out/tst is not built: `tools/build` proves and builds it\n")
        self.assertEqual([path.name for path in self.folder.glob("started")], [])

    def test_an_old_python(self) -> None:
        """It gets one line."""
        for version in ("3, 6, 15", "3, 8, 20"):
            line = f"import sys; sys.version_info = ({version}); sys.path.insert(0, {str(TOP / 'tools')!r}); import nemzhuul"
            done = self.ran([sys.executable, "-c", line])
            number = version.rpartition(",")[0].replace(", ", ".")
            said = f"the tools need Python 3.9 or later, and this is Python {number}\n"
            self.assertEqual((done.returncode, done.stderr), (1, said))


if __name__ == "__main__":
    support.main()
