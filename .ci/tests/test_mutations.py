"""Which mutations .ci/mutations tries in one check, what it takes for a rejection, and that every mutation applies."""

from __future__ import annotations

import contextlib
import importlib.machinery
import importlib.util
import io
import re
import sys
import tempfile
import unittest
from collections.abc import Sequence
from dataclasses import dataclass
from pathlib import Path
from types import ModuleType, SimpleNamespace
from typing import Any, Optional
from unittest import mock

import support
from support import TOP, InFolder

SOURCE = """//! A crate.
ghost use A.{x};

/// Adds one.
pub fn more(x: u32) -> u32
    requires { x < 9 }
    ensures { result ≡ x + 1 }
{
    x + 1
}

fn most(
    x: u32,
    y: u32,
) -> u32 {
    if x < y { y } else { x }
}

/// Nine is ten.
pub fn law()
    ensures nine { 9 ≡ 10 }
    ensures ten { 10 ≡ 10 }
{}

trait Counts {
    fn count(&self) -> u32;

    fn none(&self) {}
}

impl Counts for u32 {
    fn count(&self) -> u32
        ensures { result ≡ 7 }
    {
        7
    }
}
"""

PROGRAM = """
// Begins.
fn main(rt: HostRuntime) {
    begin(&rt);
}
"""


def load_script() -> ModuleType:
    loader = importlib.machinery.SourceFileLoader("mutations", str(TOP / ".ci" / "mutations"))
    spec = importlib.util.spec_from_loader("mutations", loader)
    assert spec
    script = importlib.util.module_from_spec(spec)
    sys.modules["mutations"] = script  # where its dataclasses look for their annotations
    loader.exec_module(script)
    return script


SCRIPT = load_script()


@dataclass(frozen=True)
class FakeCrate:
    """What the script asks of a crate of the kit."""

    name: str
    folder: str
    deps: tuple[FakeCrate, ...] = ()
    is_program: bool = False
    of_kit = ("std",)

    @property
    def rlib(self) -> str:
        return f"{self.folder}/out/rlib/{self.name}.rlib"

    def below(self) -> list[FakeCrate]:
        return [low for dep in self.deps for low in (*dep.below(), dep)]

    def count(self, pattern: bytes) -> int:
        return 100

    def words(self, flags: list[str], keeps: bool) -> list[str]:
        return ["--crate-name", self.name, *flags]


def read_edit(file: str, folder: str) -> tuple[Optional[dict[str, str]], Optional[str]]:
    """The texts that a file of edits makes of a crate, as the kit reads it."""
    path, old, new = re.findall(r"^(?:file|old|new): (.*)$", Path(file).read_text(), re.M)
    text = Path(folder, path).read_text()
    return ({path: text.replace(old, new)}, None) if text.count(old) == 1 else (None, "it is not there")


def unread(line: str, texts: dict[str, str]) -> bool:
    return "is not in scope" in line


KIT: Any = SimpleNamespace(
    read_edit=read_edit,
    unread=unread,
    rtlib=SimpleNamespace(PARTS=("src", "specs", "proofs"), KIT="/kit"),
    processors=lambda: 1,
    free=lambda: 0,
)


class Mutations(InFolder):
    def setUp(self) -> None:
        super().setUp()
        self.low = self.crate("low")
        self.other = self.crate("other")
        self.high = self.crate("high", self.crate("mid", self.low))

    def crate(self, name: str, *deps: FakeCrate, is_program: bool = False) -> FakeCrate:
        folder = self.folder / "crates" / name
        (folder / "src").mkdir(parents=True)
        (folder / "src" / ("main.rt" if is_program else "lib.rt")).write_text(SOURCE + PROGRAM * is_program)
        (folder / "edits").mkdir()
        return FakeCrate(name, str(folder), deps, is_program)

    def mutation(self, crate: FakeCrate, function: str, old: str, new: str) -> Any:
        file = Path(crate.folder, "edits", f"{len(list(Path(crate.folder, 'edits').iterdir()))}.edit")
        root = "main.rt" if crate.is_program else "lib.rt"
        file.write_text(f"only: {function}\nfile: src/{root}\nold: {old}\nnew: {new}\n")
        return SCRIPT.Mutation(crate, file, function)

    def bodies(self, crate: FakeCrate) -> list[Any]:
        """A mutation of each of two bodies."""
        return [self.mutation(crate, "more", "    x + 1", "    x"), self.mutation(crate, "most", "x < y", "x > y")]

    def checks(self, mutations: Sequence[Any]) -> list[list[str]]:
        """The names of the mutations of each copy of each check."""
        checks = SCRIPT.checks_of(KIT, mutations)
        return sorted(sorted(" ".join(mutation.name for mutation in copy.mutations) for copy in check) for check in checks)

    def assert_judged(self, judge: Any, rows: Sequence[tuple[str, str, str, bool]]) -> None:
        """What a function of the script says of changes of the source: a function's name, the old and the new text, and the answer."""
        for function, old, new, wanted in rows:
            with self.subTest(function=function, old=old):
                self.assertEqual(judge(SOURCE, SOURCE.replace(old, new), function), wanted)

    def test_bodies(self) -> None:
        """A change of a body, but not of a clause, of a comment between functions, or of another function's body."""
        rows = (
            ("more", "    x + 1", "    x", True),
            ("more", "x < 9", "x < 8", False),
            ("more", "Adds one", "Adds two", False),
            ("more", "x < y", "x > y", False),
            ("most", "x < y", "x > y", True),
            ("most", "    y: u32,", "    y: u64,", False),
            ("count", "        7\n", "        8\n", True),
            ("count", "        7\n", "        // Seven.\n        7\n", True),
            ("count", "result ≡ 7", "result ≡ 8", False),
            ("none", "        7\n", "        8\n", False),
        )
        self.assert_judged(SCRIPT.is_in_body, rows)
        self.assertFalse(SCRIPT.is_in_body(f"#[cycle(a)]\n{SOURCE}", f"#[cycle(a)]\n{SOURCE}".replace("x < y", "x > y"), "most"))

    def test_theorems(self) -> None:
        """A change of a clause of a theorem, also with its imports, but not of another function."""
        rows = (
            ("law", "9 ≡ 10", "9 ≡ 11", True),
            ("law", "ghost use A.{x};\n", "ghost use A.{x, y};\n", False),
            ("law", "Nine is", "Ten is", False),
            ("law", "x < y", "x > y", False),
            ("more", "x < 9", "x < 8", False),
            ("count", "result ≡ 7", "result ≡ 8", False),
        )
        self.assert_judged(SCRIPT.is_in_theorem, rows)
        self.assertTrue(SCRIPT.is_in_theorem(SOURCE, SOURCE.replace("{x}", "{x, y}").replace("9 ≡ 10", "9 ≡ y"), "law"))

    def test_theorem_that_is_called(self) -> None:
        """Theorems and bodies are in one copy, unless code calls the theorem: a proof may then rest on its contract."""
        theorem = self.mutation(self.low, "law", "9 ≡ 10", "9 ≡ 11")
        second = self.mutation(self.low, "law", "10 ≡ 10", "10 ≡ 11")
        mutations = [theorem, second, *self.bodies(self.low)]
        self.assertEqual(self.checks(mutations), [["low/0 low/2 low/3"], ["low/1"]])
        Path(self.low.folder, "src", "calls.rt").write_text("fn calls() {\n    law();\n}\n")
        self.assertEqual(self.checks(mutations), [["low/0"], ["low/1"], ["low/2 low/3"]])

    def test_one_crate(self) -> None:
        """Bodies of different functions are in one copy. A second mutation of a function has another, and so has a changed clause."""
        second = self.mutation(self.low, "more", "    x + 1", "    x + 2")
        clause = self.mutation(self.low, "u32::count", "result ≡ 7", "result ≡ 8")
        self.assertEqual(self.checks([second, clause, *self.bodies(self.low)]), [["low/0 low/3"], ["low/1"], ["low/2"]])

    def test_several_crates(self) -> None:
        """A crate and one that it uses, even through another, are in two checks."""
        mutations = [one for crate in (self.low, self.other, self.high) for one in self.bodies(crate)]
        self.assertEqual(self.checks(mutations), [["high/0 high/1", "other/0 other/1"], ["low/0 low/1"]])
        with mock.patch.object(SCRIPT, "WEIGHT", 1):
            self.assertEqual(len(self.checks([*self.bodies(self.low), *self.bodies(self.other)])), 2)

    def test_arguments(self) -> None:
        """Copies are read as source, and what they use as libraries."""
        words = SCRIPT.words_of(KIT, [SCRIPT.Copy(self.high, tuple(self.bodies(self.high)))], "/top")
        self.assertIn("high:core,std,mid=/top/high/src/lib.rt", words)
        self.assertEqual(words[-4:], ["--only", "high::more", "--only", "high::most"])
        for wanted in (f"low={self.low.rlib}", "std=/kit/rlibs/std.rlib", f"dependency={Path(self.low.rlib).parent}"):
            self.assertIn(wanted, words)
        self.assertNotIn(f"high={self.high.rlib}", words)

    def test_refusals(self) -> None:
        """What is said of a function itself is a rejection, and not that it calls one that is not proved."""
        more, _ = self.bodies(self.low)
        calls = "it calls `low::most`, which is not proved"
        search = "expected answers in a; `search` did not prove `returns`"
        for said, wanted in (
            ([f"fn low::more: no proof: {search}"], True),
            ([f"fn low::more: no proof: {search}; {calls}"], True),
            (["fn low::more: not proved"], True),
            ([f"fn low::more: not proved; {calls}"], False),
            ([f"fn low::more: not proved; {calls}", "/top/low/proofs/more/Answers.antt:1:2: error: `a`: no type"], True),
            ([f"fn low::more: not proved; {calls}", "/top/low/proofs/more/Answers.antt:1:2: note: `a`: no type"], False),
            ([f"fn low::more: not proved; {calls}", "/top/low/proofs/more/Answers.antt:1:2: error: `a` was not admitted"], False),
            ([f"fn low::more: not proved; {calls}", "/top/low/proofs/most/Answers.antt:1:2: error: `a`: no type"], False),
            ([f"fn low::more: no proof: {calls}"], False),
            (["fn low::more: proved", "/top/low/proofs/more/Answers.antt:1:2: error: `a`: no type"], False),
            (["fn low::more: could not tell"], False),
            (["fn low::more_than: not proved"], False),
        ):
            with self.subTest(said=said):
                self.assertEqual(SCRIPT.is_refused(more, said, "/top"), wanted)

    def reported(self, together: Sequence[str], alone: Sequence[str], status: int, crate: Optional[FakeCrate] = None) -> tuple[int, list[str]]:
        """What is reported of two mutations of a crate, and how many count as not rejected, if checks say this."""

        def run_check(kit: Any, words: Sequence[str], folder: Path) -> Any:
            is_alone = words[1] != SCRIPT.JOINT
            self.assertNotEqual((folder / "src" / "lib.rt").read_text(), SOURCE)
            return SCRIPT.Said(status if is_alone else 1, list(alone if is_alone else together), 4)

        with mock.patch.object(SCRIPT, "run_check", run_check), contextlib.redirect_stdout(io.StringIO()) as output:
            failed = SCRIPT.report(KIT, self.bodies(crate or self.low))
        return failed, output.getvalue().splitlines()

    def test_all_rejected(self) -> None:
        failed, lines = self.reported(["fn low::more: not proved", "fn low::most: not proved"], [], 2)
        self.assertEqual(failed, 0)
        self.assertEqual(lines[0], "mutations: 1 of 2: low/0: rejected at more, 2 s")
        self.assertEqual(lines[1], "mutations: 2 of 2: low/1: rejected at most, 2 s")
        self.assertRegex(lines[2], "^mutations: 2 rejected, 0 not; 0 s, 4 s of processors$")

    def test_one_is_still_proved(self) -> None:
        """Its neighbour is rejected all the same."""
        failed, lines = self.reported(["fn low::more: proved", "fn low::most: not proved"], ["fn low::more: proved"], 0)
        self.assertEqual(failed, 1)
        self.assertEqual(lines[0], "mutations: 1 of 2: low/1: rejected at most, 2 s")
        self.assertEqual(lines[1], "mutations: 2 of 2: low/0: NOT REJECTED: it is still proved, 4 s alone")

    def test_program(self) -> None:
        """A program is tried like a library."""
        said = ["fn program::more: not proved", "fn program::most: not proved"]
        failed, lines = self.reported(said, [], 2, self.crate("program", is_program=True))
        self.assertEqual((failed, lines[0]), (0, "mutations: 1 of 2: program/0: rejected at more, 2 s"))

    def test_program_without_main(self) -> None:
        program = self.crate("program", is_program=True)
        SCRIPT.make_library(Path(program.folder))
        self.assertEqual(Path(program.folder, "src", "lib.rt").read_text(), f"{SOURCE}\n")
        self.assertFalse(Path(program.folder, "src", "main.rt").exists())

    def test_unread(self) -> None:
        """If a text cannot be read, each mutation is tried alone."""
        failed, lines = self.reported(["x: error: `y` is not in scope", "fn low::more: not proved"], ["fn low::more: not proved"], 1)
        self.assertEqual((failed, lines[0]), (1, "mutations: 2 are tried alone: status 1: x: error: `y` is not in scope"))
        self.assertIn("low/0: rejected at more, 4 s alone", "\n".join(lines))
        self.assertIn("low/1: NOT REJECTED: it was not tried: status 1", "\n".join(lines))


class EveryMutation(unittest.TestCase):
    """Also those that only .ci/edits tries."""

    def test_applies(self) -> None:
        kit = load_script().load_kit()
        for file in sorted([*TOP.glob("crates/*/edits/*.edit"), *TOP.glob("crates/*/must-fail/*.edit")]):
            with self.subTest(file.relative_to(TOP)):
                _, fault = kit.read_edit(str(file), str(file.parent.parent))
                self.assertIsNone(fault)

    def test_applies_beside_others(self) -> None:
        """Those of one copy change it one after the other."""
        script = load_script()
        kit = script.load_kit()
        for copy in (copy for check in script.checks_of(kit, script.mutations_of(kit, [])) for copy in check if len(copy.mutations) > 1):
            with self.subTest(copy.crate.name), tempfile.TemporaryDirectory() as folder:
                script.copy_crate(kit, copy.crate, Path(folder))
                self.assertEqual([script.spoil(kit, mutation, Path(folder))[1] for mutation in copy.mutations], [None] * len(copy.mutations))


if __name__ == "__main__":
    support.main()
