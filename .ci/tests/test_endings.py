"""The arguments of each tool, and how it ends."""

from __future__ import annotations

import os
import select
import shutil
import signal
import subprocess
import unittest
from collections.abc import Sequence
from typing import Any

import support
from nemzhuul import __version__
from support import EXAMPLES, PAIRED, TOP, InFolder, command, environment, of_packets, stream, tool, wav


WORKING = {
    "audio": ("FILE", 0, 1),
    "calls": ("FILE", "whole_call.report"),
    "explain": ("FILE",),
    "matrix": ("FILE", "whole_call.report", 1),
    "moves": ("FILE", "whole_call.report"),
    "page": ("FILE", "whole_call.report"),
    "pcap": ("FILE", "whole_call.report"),
    "plain": ("FILE", "whole_call.report"),
    "records": ("FILE", "whole_call.report"),
    "script": ("FILE",),
    "spectrogram": ("FILE",),
    "unpcap": ("FILE",),
}
FILES = {"audio": "whole_call.report", "script": "some.script", "spectrogram": "some.wav", "unpcap": "some.pcap"}  # of others whole_call.trace
INTERRUPTION = """# sends an interrupt as soon as a module is imported
import os, signal, sys

class Finder:
    def find_spec(self, name, path=None, target=None):
        if name == os.environ["MODULE"]:
            os.kill(os.getpid(), signal.SIGINT)

sys.meta_path.insert(0, Finder())
"""
OTHERS = ("attach", "build", "console", "endpoint", "install", "run", "sip", "sounds", "traffic")


class Usages(unittest.TestCase):
    """What a tool answers to wrong arguments, and to `--help` and `--version`."""

    def test_wrong_words(self) -> None:
        cases: list[tuple[str, tuple[object, ...]]] = [(name, words) for name in PAIRED for words in ((), ("one",), ("one", "two", "three"))]
        cases += [("moves", ("--png", "one", "two"))]
        cases += [("audio", words) for words in ((), ("r", 0), ("r", 32, 1), ("r", 0, 16), ("r", 0, 0), ("r", "x", 1))]
        cases += [("audio", words) for words in (("r", 0, 1, 1), ("r", 0, 1, 1, 16))]
        cases += [(name, words) for name in ("script", "unpcap", "sounds") for words in ((), ("one", "two"), ("--no",))]
        cases += [("script", ("--program", "one"))]
        cases += [("unpcap", words) for words in (("--users",), ("--users", "--replay", "one"))]
        for name, words in cases:
            with self.subTest(tool=name, words=words):
                status, output, said = tool(name, *words)
                self.assertEqual((status, output), (2, b""))
                self.assertTrue(said.startswith(f"usage: tools/{name} "))

    def test_help(self) -> None:
        names = [path.name for path in (TOP / "tools").iterdir() if path.is_file() and os.access(path, os.X_OK)]
        self.assertEqual(sorted(names), sorted([*WORKING, *OTHERS]))
        for name in names:
            with self.subTest(tool=name):
                for words in (["--help"], ["one", "-h"]):
                    status, output, said = tool(name, *words)
                    self.assertEqual((status, said), (0, ""))
                    self.assertTrue(output.decode().startswith(f"usage: tools/{name} "))
                self.assertEqual(tool(name, "--version"), (0, f"{name} (Nemzhuul) {__version__}\n".encode(), ""))


class Endings(InFolder):
    """How a tool ends where a file cannot be read, an output cannot be written, or its user interrupts it."""

    def setUp(self) -> None:
        super().setUp()
        for name in ("whole_call.trace", "whole_call.report"):
            shutil.copy(EXAMPLES / name, self.folder)
        (self.folder / "some.script").write_text("exchange 1 line\n")
        (self.folder / "some.wav").write_bytes(wav(bytes(4_096)))
        (self.folder / "some.pcap").write_bytes(of_packets([bytes(16) + bytes.fromhex("00010000 0802000175")]))

    def words(self, name: str, file: str = "") -> list[str]:
        path = file or FILES.get(name, "whole_call.trace")
        return [str(word).replace("FILE", path) for word in WORKING[name]]

    def ends(self, name: str, words: Sequence[str], fails: str, **streams: Any) -> None:
        """A tool on these words ends with status 1 and this line."""
        done = subprocess.run(command(name, *words), cwd=self.folder, stderr=subprocess.PIPE, check=False, **streams)
        self.assertEqual((done.returncode, done.stderr.decode()), (1, f"{name}: {fails}\n"))

    def test_outputs(self) -> None:
        cannot = "standard output cannot be written: "
        reader, writer = os.pipe()
        os.close(reader)
        self.addCleanup(os.close, writer)
        commands = {name: [self.words(name), ["--help"]] for name in WORKING}
        commands |= {"run": [["--help"]], "sounds": [["--help"]], "traffic": [["1", "2"], ["--help"]]}
        commands |= {"attach": [["--help"]], "endpoint": [["--help"]]}
        with open("/dev/full", "wb") as full:
            for name, some in commands.items():
                with self.subTest(tool=name):
                    for words in some:
                        self.ends(name, words, cannot + "No space left on device", stdout=full)
                        self.ends(name, words, cannot + "Broken pipe", stdout=writer)
                        self.ends(name, words, cannot + "Bad file descriptor", preexec_fn=lambda: os.close(1))

    def test_files(self) -> None:
        (self.folder / "folder").mkdir()
        for name in WORKING:
            with self.subTest(tool=name):
                self.ends(name, self.words(name, "none"), "none cannot be read: No such file or directory")
                self.ends(name, self.words(name, "folder"), "folder cannot be read: Is a directory")
        self.ends("sounds", ["none"], "none/low.wav cannot be written: No such file or directory")
        self.ends("sounds", ["some.pcap"], "some.pcap/low.wav cannot be written: Not a directory")

    def test_interrupts(self) -> None:
        os.mkfifo(self.folder / "pipe")
        for name in WORKING:
            with self.subTest(tool=name):
                words = command(name, *self.words(name, "pipe"))
                with subprocess.Popen(words, cwd=self.folder, stderr=subprocess.PIPE) as work:
                    with open(self.folder / "pipe", "wb"):  # waits until the tool has opened the other end
                        work.send_signal(signal.SIGINT)
                        said = stream(work.stderr).read().decode()
                self.assertEqual((work.returncode, said), (130, f"{name}: interrupted\n"))

    def test_interrupted_imports(self) -> None:
        """Each tool is interrupted while its last module is being imported."""
        (self.folder / "sitecustomize.py").write_text(INTERRUPTION)
        for name in (*WORKING, *OTHERS):
            for module in ("command_line", f"commands.{name}"):
                with self.subTest(tool=name, module=module):
                    env = {**environment(), "PYTHONPATH": str(self.folder), "MODULE": f"nemzhuul.{module}"}
                    done = subprocess.run(command(name, "--version"), capture_output=True, env=env, check=False)
                    self.assertEqual((done.returncode, done.stdout, done.stderr), (130, b"", b""))

    def test_interrupted_writers(self) -> None:
        """While they write a file or their output to a pipe that nobody reads."""
        for sound in ("low.wav", "high.wav"):
            os.mkfifo(self.folder / sound)
        with subprocess.Popen(command("sounds", "."), cwd=self.folder, stderr=subprocess.PIPE) as work:
            (self.folder / "low.wav").read_bytes()
            work.send_signal(signal.SIGINT)
            self.assertEqual((work.wait(), stream(work.stderr).read()), (130, b"sounds: interrupted\n"))
        words = command("traffic", 1, 2000)
        with subprocess.Popen(words, stdout=subprocess.PIPE, stderr=subprocess.PIPE) as work:
            select.select([work.stdout], [], [])
            work.send_signal(signal.SIGINT)
            self.assertEqual((work.wait(), stream(work.stderr).read()), (130, b"traffic: interrupted\n"))

    def test_a_closed_error_output(self) -> None:
        done = subprocess.run(command("calls", "none"), stdout=subprocess.PIPE, preexec_fn=lambda: os.close(2), check=False)
        self.assertEqual((done.returncode, done.stdout), (2, b""))


if __name__ == "__main__":
    support.main()
