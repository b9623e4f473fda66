"""The installation: tools/install, its manual pages and its completions."""

from __future__ import annotations

import shutil
import subprocess
import sys
import unittest
from unittest import mock

import support
from support import EXAMPLES, InFolder, environment, needs_program, slow, tool
from nemzhuul import __version__
from nemzhuul.command_line import Refused
from nemzhuul.commands import install
from nemzhuul.commands.install import LIBRARY, SUMS, File, Installation, files_of, manual_of, tool_names
from nemzhuul.manuals import Manual
from nemzhuul.programs.built import Built, Sources

DAY = "2026-11-30"
TRACE, REPORT = EXAMPLES / "whole_call.trace", EXAMPLES / "whole_call.report"
PROGRAM = f"#!/bin/sh\ncat >/dev/null\nexec cat {REPORT}\n"  # whatever it is asked, it writes one report


class Manuals(InFolder):
    def test_page(self) -> None:
        usage = """usage: tool [-x] FILE
       tool --all
writes `a b` and
.. more. It ends.
    --all           takes all, and
                    the rest
    --none N        takes none
    one  two        three
Last line - with \\ and ~."""
        manual = Manual("tool", "writes something", usage)
        head = f'.TH TOOL 1 2026-11-30 "Nemzhuul {__version__}"\n'
        head += ".SH NAME\ntool \\- writes something\n.SH SYNOPSIS\n.SY tool\n[\\-x] FILE\n.YS\n"
        body = ".SY tool\n\\-\\-all\n.YS\n.SH DESCRIPTION\n.B tool\nwrites \\fBa b\\fR and .. more.\nIt ends.\n"
        self.assertTrue(manual.page(DAY).startswith(head + body))
        self.assertIn("--all           takes all, and".replace("-", "\\-"), manual.page(DAY))  # one line is no option
        self.assertTrue(manual.page(DAY).endswith(".PP\nLast line \\- with \\e and \\(ti.\n"))
        options = Manual("tool", "", "\n".join(line for line in usage.splitlines() if "three" not in line)).page(DAY)
        self.assertIn(".TP\n\\fB\\-\\-all\\fR\ntakes all, and the rest\n.TP\n\\fB\\-\\-none N\\fR\ntakes none\n.PP\n", options)
        self.assertTrue(manual.page(DAY, ["one", "two"]).endswith(".SH SEE ALSO\n.BR one (1),\n.BR two (1)\n"))

    def test_names_and_options(self) -> None:
        self.assertNotIn("install", tool_names())
        for name in tool_names():
            manual = manual_of(name)
            with self.subTest(tool=name):
                self.assertNotRegex(manual.usage, r"tools/|crates/")
                self.assertTrue(manual.usage.startswith(f"usage: nemzhuul-{name} "))
                self.assertTrue(0 < len(manual.summary) < 130)
                for option in manual.options:
                    self.assertIn(option, manual.completion())
        self.assertLessEqual({"--calls", "--rate", "--overwrite"}, set(manual_of("endpoint").options))

    def test_pages_have_no_warning(self) -> None:
        pages = {name: self.folder / f"{name}.1" for name in tool_names()}
        for name, path in pages.items():
            path.write_text(manual_of(name).page(DAY, ["nemzhuul-run"]))
        for command in (["mandoc", "-Tlint"], ["groff", "-man", "-ww", "-z", "-Tutf8"]):
            if shutil.which(command[0]) is None:
                self.skipTest(f"{command[0]} is not installed")
            for path in pages.values():
                done = subprocess.run([*command, path], capture_output=True, text=True, check=False)
                self.assertEqual((done.returncode, done.stdout, done.stderr), (0, "", ""))

    @unittest.skipIf(shutil.which("bash") is None, "bash is not installed")
    def test_completion(self) -> None:
        file = self.folder / "completion"
        file.write_text(manual_of("endpoint").completion())
        asks = (("--o", "--overwrite"), ("--ra", "--rate"), ("file", ""))
        for word, wanted in asks:
            script = f'. {file}; _nemzhuul_endpoint nemzhuul-endpoint {word}; echo "${{COMPREPLY[@]}}"; complete -p nemzhuul-endpoint'
            done = subprocess.run(["bash", "-c", script], stdout=subprocess.PIPE, text=True, check=True)
            said = "complete -o bashdefault -o default -F _nemzhuul_endpoint nemzhuul-endpoint"
            self.assertEqual(done.stdout.splitlines(), [wanted, said])


class Installed(InFolder):
    """An installation of a program that is none of the exchange."""

    def setUp(self) -> None:
        super().setUp()
        program = Built(self.folder / "program", self.folder / "record")
        program.file.write_text(PROGRAM)
        program.file.chmod(0o755)
        program.record(Sources("kit", {"tst": "sum"}))
        Installation(self.folder / "first").install(files_of(program, DAY))
        self.prefix = self.folder / "moved"
        (self.folder / "first").rename(self.prefix)
        program.file.unlink()

    def run_tool(self, name: str, *words: object) -> tuple[int, str, str]:
        command = [str(self.prefix / "bin" / name), *map(str, words)]
        done = subprocess.run(command, cwd=self.folder, env=environment(), capture_output=True, text=True, check=False)
        return done.returncode, done.stdout, done.stderr

    @slow
    def test_tools_without_the_repository(self) -> None:
        for name in ("records", "calls", "page"):
            wanted = tool(name, TRACE, REPORT).output.decode()
            self.assertEqual(self.run_tool(f"nemzhuul-{name}", TRACE, REPORT), (0, wanted, ""))
        for name in tool_names():
            status, output, _ = self.run_tool(f"nemzhuul-{name}", "--help")
            self.assertEqual((status, output.split()[:2]), (0, ["usage:", f"nemzhuul-{name}"]))
            self.assertIn("DESCRIPTION", (self.prefix / "share" / "man" / "man1" / f"nemzhuul-{name}.1").read_text())

    def test_the_gateway_of_attach(self) -> None:
        """The installed tool is the one that the installed package starts."""
        code = "import sys; sys.path[:0] = [sys.argv[1]]; from nemzhuul.sip.gateway_process import TOOL; print(TOOL)"
        words = [sys.executable, "-c", code, str(self.prefix / "lib" / "nemzhuul")]
        done = subprocess.run(words, env=environment(), capture_output=True, text=True, check=True)
        self.assertEqual(done.stdout, f"{self.prefix.resolve()}/bin/nemzhuul-sip\n")
        self.assertTrue((self.prefix / "bin" / "nemzhuul-sip").is_file())

    def test_the_program_is_the_one_that_was_copied(self) -> None:
        (self.folder / "some").write_text("exchange 2 lines\nnumber 101 leads to line 1\nline 0 calls 101\n")
        status, output, said = self.run_tool("nemzhuul-script", "some")
        self.assertEqual((status, said), (0, ""))
        self.assertIn("M 0 ", output)
        with open(self.prefix / "bin" / "tst", "a", encoding="utf-8") as program:
            program.write("# changed\n")
        status, _, said = self.run_tool("nemzhuul-script", "some")
        self.assertEqual(status, 1)
        self.assertIn("tst is not the file whose sources were recorded: `tools/install` copies it again\n", said)

    def test_sums(self) -> None:
        lines = (self.prefix / SUMS).read_text().splitlines()
        files = {path.relative_to(self.prefix).as_posix() for path in self.prefix.rglob("*") if path.is_file()}
        self.assertEqual({line.split("  ")[1] for line in lines}, files - {SUMS})
        self.assertEqual(len(lines), len(files) - 1)
        self.assertEqual([path.name for path in self.prefix.rglob(".*")], [])
        self.assertFalse((self.prefix / LIBRARY / "nemzhuul" / "commands" / "build.py").exists())


class Replacing(InFolder):
    """Files that are there when an installation is made."""

    def setUp(self) -> None:
        super().setUp()
        self.prefix = self.folder / "prefix"

    def install(self, *files: File, may_overwrite: bool = False) -> None:
        Installation(self.prefix, may_overwrite).install(files)

    def content(self) -> dict[str, str]:
        paths = [path for path in self.prefix.rglob("*") if path.is_file() and path.name != "SHA256SUMS"]
        return {path.relative_to(self.prefix).as_posix(): path.read_text() for path in paths}

    def assert_refused(self, why: str, *files: File, may_overwrite: bool = False) -> None:
        before = self.content()
        with self.assertRaisesRegex(Refused, why):
            self.install(*files, may_overwrite=may_overwrite)
        self.assertEqual(self.content(), before)

    def test_own_files_are_replaced(self) -> None:
        self.install(File("bin/a", b"1", 0o755), File("bin/b", b"1"), File("c", b"1"))
        self.install(File("bin/a", b"2", 0o755), File("bin/b", b"1"))
        self.assertEqual(self.content(), {"bin/a": "2", "bin/b": "1"})
        self.assertEqual((self.prefix / "bin/a").stat().st_mode & 0o777, 0o755)

    def test_other_files_are_refused(self) -> None:
        self.install(File("a", b"1"), File("gone", b"1"))
        (self.prefix / "b").write_text("other")
        (self.prefix / "gone").write_text("changed")
        self.assert_refused("b is there already: --overwrite replaces it", File("a", b"2"), File("b", b"2"))
        self.install(File("a", b"2"), File("b", b"2"), may_overwrite=True)
        self.assertEqual(self.content(), {"a": "2", "b": "2", "gone": "changed"})
        (self.prefix / "a").write_text("changed")
        self.assert_refused("a is there already", File("b", b"3"), File("a", b"3"))
        (self.prefix / "same").write_text("4")
        self.install(File("same", b"4"), may_overwrite=True)

    def test_what_is_no_file(self) -> None:
        self.install(File("a", b"1"))
        (self.prefix / "folder").mkdir()
        (self.prefix / "link").symlink_to("a")
        (self.prefix / "dangling").symlink_to("none")
        for name in ("folder", "link", "dangling"):
            for may_overwrite in (False, True):
                self.assert_refused("is not a regular file", File("b", b"2"), File(name, b"2"), may_overwrite=may_overwrite)
        self.assert_refused("prefix/a is not a folder", File("b", b"2"), File("a/c", b"2"))
        self.prefix = self.prefix / "a"
        self.assert_refused("prefix/a is not a folder", File("b", b"2"))

    def test_an_interrupted_installation_can_be_repeated(self) -> None:
        self.install(File("a", b"1"), File("b", b"1"))
        with mock.patch("os.chmod", side_effect=[None, None, OSError(28, "No space left on device")]):
            with self.assertRaisesRegex(Refused, "b cannot be written: No space left on device"):
                self.install(File("a", b"2"), File("b", b"2"))
        self.assertEqual(self.content(), {"a": "2", "b": "1"})
        self.install(File("a", b"3"), File("b", b"3"))
        self.assertEqual(self.content(), {"a": "3", "b": "3"})


class Commands(InFolder):
    def test_only_a_program_that_fits(self) -> None:
        with mock.patch("nemzhuul.programs.program.misfit", return_value="is not built"):
            with self.assertRaisesRegex(Refused, "crates/tst/out/tst is not built: `tools/build` proves"):
                install.main(str(self.folder / "prefix"))
        self.assertEqual(list(self.folder.iterdir()), [])

    def test_arguments(self) -> None:
        for words in ((), ("a", "b"), ("--no", "a"), ("--overwrite",)):
            self.assertEqual(tool("install", *words).status, 2)

    @needs_program
    @slow
    def test_the_proved_program(self) -> None:
        prefix = self.folder / "prefix"
        said = f"the proved program and {len(tool_names())} tools are in {prefix}/bin\n".encode()
        self.assertEqual(tool("install", prefix), (0, said, ""))
        self.assertEqual(tool("install", prefix), (0, said, ""))
        done = subprocess.run([prefix / "bin" / "tst", "run"], input=TRACE.read_bytes(), stdout=subprocess.PIPE, check=True)
        self.assertEqual(done.stdout, REPORT.read_bytes())
        (prefix / "bin" / "nemzhuul-page").write_text("mine")
        self.assertEqual(tool("install", prefix).status, 1)
        self.assertEqual((prefix / "bin" / "nemzhuul-page").read_text(), "mine")


if __name__ == "__main__":
    support.main()
