"""Proves and builds the exchange, and records the sources that it was built from."""

from __future__ import annotations

import os
import shutil
import subprocess
import sys

from nemzhuul.command_line import Refused, WrongWords
from nemzhuul.programs.built import sources_of
from nemzhuul.programs.program import BUILT, NAMED, PROGRAM, misfit
from nemzhuul.repository.crates import TOP

USAGE = """usage: tools/build [--jobs N]
proves and builds the exchange, crates/tst/out/tst, and records beside it the sources that it was built from. The tools
and the repository's checks run this program while these sources lie there, and no other. It ends at once if the program
fits them. Otherwise it runs `rt ci`, which proves every crate, runs every test and builds every program. What passed in
any checkout on the machine is not proved again. With --jobs it proves N crates at a time, and else as many as processors
and memory allow."""


def main(*words: str) -> str:
    if words and (len(words) != 2 or words[0] != "--jobs" or not words[1].isdigit()):
        raise WrongWords
    if misfit():
        build(words[1:])
    return f"{NAMED} is the proved program of these sources\n"


def build(jobs: tuple[str, ...]) -> None:
    if shutil.which("rt") is None:
        raise Refused("the commands of the Rattle kit are not on the path")
    sources = sources_of("tst")
    environment = {**os.environ, **{"RT_JOBS": number for number in jobs}}
    status = subprocess.run(["rt", "ci"], cwd=TOP, env=environment, stdout=sys.stderr, check=False).returncode
    if status or not PROGRAM.is_file():
        raise Refused(f"`rt ci` ended with status {status}")
    if sources_of("tst") != sources:
        raise Refused("a source changed while the program was built: run this again")
    BUILT.record(sources)
