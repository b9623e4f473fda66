"""The answers to docs/EXERCISES.md, which are tried as they are written in docs/exercises.answers."""

from __future__ import annotations

import os
import re
import subprocess
from collections.abc import Iterator
from typing import NamedTuple

import support
from nemzhuul.programs.program import PROGRAM
from support import TOP, InFolder, environment, needs_program, slow

ANSWERS = (TOP / "docs" / "exercises.answers").read_text()


class Tried(NamedTuple):
    """A command of an exercise, and what it writes."""

    exercise: int
    command: str
    output: str


def tries() -> Iterator[Tried]:
    """The commands. Each begins with `$ `, and goes on in lines that begin with `> `."""
    for number, part in enumerate(re.split(r"^[0-9]+\. ", ANSWERS, flags=re.MULTILINE)[1:], start=1):
        for text in re.split(r"^\$ ", indented(part), flags=re.MULTILINE)[1:]:
            command, output = re.fullmatch(r"((?:.*\n)(?:> .*\n)*)((?:.*\n)*)", text).groups()  # type: ignore[union-attr]
            yield Tried(number, command.replace("\n> ", "\n"), output)


def indented(text: str) -> str:
    """The lines of a text that four spaces indent."""
    return "".join(f"{line}\n" for line in re.findall("^    (.*)$", text, re.MULTILINE))


class Exercises(InFolder):
    def test_numbers(self) -> None:
        self.assertEqual(sorted({tried.exercise for tried in tries()}), list(range(1, 13)))
        questions = re.findall(r"^([0-9]+)\. \*\*", (TOP / "docs" / "EXERCISES.md").read_text(), re.MULTILINE)
        self.assertEqual([int(number) for number in questions], list(range(1, 13)))

    @slow
    @needs_program
    def test_answers(self) -> None:
        """In a folder with the parts of the repository. PROGRAM in the environment names another program than the proved one."""
        for name in ("crates", "examples", "tools"):
            (self.folder / name).symlink_to(TOP / name)
        function = indented(ANSWERS.partition("\n1. ")[0])
        program = os.environ.get("PROGRAM", str(PROGRAM))
        for tried in tries():
            with self.subTest(exercise=tried.exercise, command=tried.command):
                script = function + tried.command.replace("tools/run", program)
                done = subprocess.run(["bash", "-c", script], cwd=self.folder, env=environment(), capture_output=True, text=True, check=False)
                self.assertEqual((done.stdout, done.stderr), (tried.output, ""))


if __name__ == "__main__":
    support.main()
