#!/usr/bin/env python3
"""Which program is trusted: the one that was built from the sources that lie there, by content, and no other."""

from __future__ import annotations

import json
import os
import re
import shutil
import subprocess
import tempfile
import unittest
from pathlib import Path
from typing import NamedTuple

TOP = Path(__file__).resolve().parents[2]
CRATES = "# a comment\n\nlow: thiserror\nbeside: low\ntst tests_may=Wait: low\n"
REMEDY = "`tools/build` proves and builds it"
# The commands of the kit: `rt ci` builds a proved program, and `rt try` an unproved one, which it removes at its end.
KIT = """#!/bin/sh
(cd "${0%/bin/rt}" && { [ ! -e during ] || sh during; })
case $1 in
ci) [ -z "$RT_JOBS" ] || echo "$RT_JOBS jobs"
    out=crates/tst/out; mkdir -p $out; printf '#!/bin/sh\\necho proved' >$out/tst; chmod +x $out/tst ;;
try) printf '#!/bin/sh\\necho unproved' >$TMPDIR/new; chmod +x $TMPDIR/new; mv $TMPDIR/new $TMPDIR/program
     until [ -e $TMPDIR/../tst ]; do sleep 0.05; done; rm $TMPDIR/program ;;
esac
"""


class Ran(NamedTuple):
    status: int
    output: str
    errors: str


class Checkout:
    """A small copy of the repository, with commands of a kit that build at once."""

    def __init__(self, folder: Path) -> None:
        self.folder = folder
        for part in ("tools", ".ci"):
            shutil.copytree(TOP / part, folder / part, ignore=shutil.ignore_patterns("out", "__pycache__", "wanted", "tests"))
        self.write("crates.txt", CRATES)
        for crate in ("low", "beside"):
            for part in ("src/lib.rt", "specs/Lib.antt", "proofs/deep/Lib.antt", "edits/a.edit"):
                self.write(f"crates/{crate}/{part}", f"-- {crate}\n")
        self.write("crates/tst/src/main.rt", "fn main() {}\n")
        self.write("crates/tst/stdin", "")
        self.write("KIT-ID", "a kit\n")
        self.write("bin/rt", KIT).chmod(0o755)

    def write(self, name: str, text: str) -> Path:
        path = self.folder / name
        path.parent.mkdir(parents=True, exist_ok=True)
        path.write_text(text)
        return path

    def run(self, *words: str, has_kit: bool = True) -> Ran:
        path = f"{self.folder}/bin:/usr/bin:/bin" if has_kit else "/usr/bin:/bin"
        env = {"PATH": path, "PYTHONDONTWRITEBYTECODE": "1"}
        done = subprocess.run([self.folder / words[0], *words[1:]], env=env, capture_output=True, text=True, check=False)
        return Ran(done.returncode, done.stdout, done.stderr)


class Programs(unittest.TestCase):
    def setUp(self) -> None:
        self.copy = self.checkout()
        self.program = self.copy.folder / "crates" / "tst" / "out" / "tst"
        self.assertEqual(self.copy.run("tools/build"), (0, "crates/tst/out/tst is the proved program of these sources\n", ""))

    def checkout(self) -> Checkout:
        folder = tempfile.TemporaryDirectory()
        self.addCleanup(folder.cleanup)
        return Checkout(Path(folder.name).resolve())

    def assert_fits(self, **how: bool) -> None:
        self.assertEqual(self.copy.run(".ci/built", **how), (0, f"{self.program}\n", ""))

    def assert_refused(self, why: str) -> None:
        self.assertEqual(self.copy.run(".ci/built"), (1, "", f"built: crates/tst/out/tst {why}: {REMEDY}\n"))

    def assert_replaced(self, why: str) -> None:
        """The scripts of the repository refuse the program, and the tools run the unproved one in its place."""
        said = f"crates/tst/out/tst {why}: "
        self.assertEqual(self.copy.run(".ci/examples"), (2, "", f"built: {said}{REMEDY}\n"))
        builds = "`rt try` builds an unproved program, which takes about two minutes"
        for remedy in (builds, REMEDY):
            ran = self.copy.run("tools/run", "run")
            self.assertEqual((ran.status, ran.output), (0, "unproved\n"))
            self.assertRegex(ran.errors, rf"\A{re.escape(said + remedy)}\nrun: an unproved program ran for .* status 0\n\Z")

    def test_the_program_of_these_sources(self) -> None:
        self.assert_fits()
        ran = self.copy.run("tools/run", "run")
        self.assertEqual((ran.status, ran.output), (0, "proved\n"))
        self.assertRegex(ran.errors, r"\Arun: the proved program ran for [0-9.]+ s and ended with status 0\n\Z")

    def test_several_jobs(self) -> None:
        """All crates are proved first, but none if the program fits."""
        said = "crates/tst/out/tst is the proved program of these sources\n"
        self.program.unlink()
        for errors in ("3 jobs\n", ""):
            self.assertEqual(self.copy.run("tools/build", "--jobs", "3"), (0, said, errors))
        for words in (("--jobs",), ("--jobs", "x"), ("3",)):
            self.assertEqual(self.copy.run("tools/build", *words).status, 2)

    def test_a_touched_source(self) -> None:
        """Times do not count, nor does the same content in a new file."""
        for path in [*(self.copy.folder / "crates").rglob("*.*t"), self.copy.folder / "crates.txt"]:
            content = path.read_bytes()
            path.unlink()
            path.write_bytes(content)
            os.utime(path, (4e9, 4e9))
        self.assert_fits()

    def test_a_changed_source(self) -> None:
        for name in ("src/lib.rt", "specs/Lib.antt", "proofs/deep/Lib.antt", "src/new.rt"):
            with self.subTest(file=name):
                path = self.copy.folder / "crates" / "low" / name
                before = path.read_text() if path.exists() else None
                path.write_text("broken\n")
                self.assert_refused("was built from other sources of low")
                path.unlink()
                if before is not None:
                    self.assert_refused("was built from other sources of low")
                    path.write_text(before)
        self.assert_fits()

    def test_a_broken_source(self) -> None:
        self.copy.write("crates/low/src/lib.rt", "broken\n")
        self.assert_replaced("was built from other sources of low")

    def test_another_list_of_crates(self) -> None:
        self.copy.write("crates.txt", CRATES.replace("low: thiserror", "low: arrayvec"))
        self.assert_refused("was built from other sources of low")
        self.copy.write("crates.txt", CRATES.replace("Wait: low", "Wait: low beside"))
        self.assert_refused("was built from other sources of beside and 1 more crates")

    def test_what_is_no_source(self) -> None:
        """A mutation, a comment of crates.txt, and a crate that the program does not use."""
        self.copy.write("crates/low/edits/a.edit", "another\n")
        self.copy.write("crates.txt", CRATES.replace("a comment", "another").replace("beside: low", "beside:"))
        self.copy.write("crates/beside/src/lib.rt", "another\n")
        self.assert_fits()

    def test_another_program(self) -> None:
        self.program.write_text("#!/bin/sh\necho other\n")
        self.assert_refused("is not the file whose sources were recorded")
        self.program.with_name("tst.sources").write_text("{}")
        self.assert_refused("has no record of its sources")
        self.program.unlink()
        self.assert_refused("is not built")

    def test_the_program_of_another_checkout(self) -> None:
        """It is trusted if that checkout had the same sources."""
        other = self.checkout()
        other.write("crates/low/src/lib.rt", "other\n")
        for is_same in (False, True):
            self.assertEqual(other.run("tools/build").status, 0)
            shutil.copytree(other.folder / "crates/tst/out", self.program.parent, dirs_exist_ok=True)
            if not is_same:
                self.assert_refused("was built from other sources of low")
                other.write("crates/low/src/lib.rt", "-- low\n")
        self.assert_fits()

    def test_another_kit(self) -> None:
        self.copy.write("KIT-ID", "another\n")
        self.assert_refused("was built with another kit")
        self.assert_fits(has_kit=False)

    def test_no_kit(self) -> None:
        self.copy.write("crates/low/src/lib.rt", "broken\n")
        lack = "the commands of the Rattle kit are not on the path"
        said = f"run: crates/tst/out/tst was built from other sources of low, and {lack}\n"
        self.assertEqual(self.copy.run("tools/run", "run", has_kit=False), (1, "", said))
        self.assertEqual(self.copy.run("tools/build", has_kit=False), (1, "", f"build: {lack}\n"))

    def test_a_change_while_it_is_built(self) -> None:
        """What was built is not known, so nothing is recorded."""
        self.copy.write("crates/low/src/lib.rt", "another\n")
        self.copy.write("during", "echo more >>crates/low/src/lib.rt\n")
        said = "build: a source changed while the program was built: run this again\n"
        self.assertEqual(self.copy.run("tools/build"), (1, "", said))
        ran = self.copy.run("tools/run", "run")
        self.assertEqual(ran.status, 1)
        self.assertIn("run: a source changed while `rt try` built the program: run this again\n", ran.errors)

    def test_the_record_of_the_full_check(self) -> None:
        """It is of the program and of the libraries, unless a source changed, or the library is one of `rt check`."""
        total = self.copy.run(".ci/built", "--sources").output.strip()
        for crate in ("low", "beside"):
            self.copy.write(f"crates/{crate}/out/rlib/{crate}.rlib/format", crate)
        self.copy.write("crates/beside/out/rlib/stamp", "")
        self.program.with_name("tst.sources").unlink()
        said = "built: crates/tst/out/tst and 1 libraries are of these sources\n"
        self.assertEqual(self.copy.run(".ci/built", "--record", total), (0, said, ""))
        self.assert_fits()
        record = json.loads((self.copy.folder / "crates/low/out/low.sources").read_text())
        self.assertEqual([*record["crates"]], ["low"])
        self.assertEqual(self.copy.run(".ci/built", "tst"), (0, f"{self.program}\n", ""))
        self.assertEqual(self.copy.run(".ci/built", "low").status, 2)
        self.copy.write("crates/beside/src/lib.rt", "another\n")
        said = "built: a source changed while `rt ci` ran\n"
        self.assertEqual(self.copy.run(".ci/built", "--record", total), (1, "", said))


if __name__ == "__main__":
    unittest.main(verbosity=0)
