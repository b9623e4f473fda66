"""tools/sip as a process of tools/attach: the endpoint of each line that has no other address."""

from __future__ import annotations

import contextlib
import subprocess
import sys
import tempfile
import threading
from collections.abc import Iterable, Sequence

from nemzhuul.command_line import NAME, say
from nemzhuul.live.wire import read_address
from nemzhuul.programs.built import HOME, INSTALLED, IS_INSTALLED
from nemzhuul.sip.options import read_settings
from nemzhuul.sip.transactions import listening_socket

TOOL = INSTALLED.file.with_name("nemzhuul-sip") if IS_INSTALLED else HOME / "sip"
OPTIONS = {"sip": "--users", "sip-listen": "--listen", "sip-allow": "--allow"}  # of tools/sip, by the names that tools/attach has
PATIENCE = 5  # seconds that it has to end its calls


class GatewayProcess:
    """The addresses of some lines, in a temporary folder, and the process that attaches to them once it is started."""

    def __init__(self, options: Sequence[str], lines: Iterable[int], ends: contextlib.ExitStack) -> None:
        folder = ends.enter_context(tempfile.TemporaryDirectory())
        self.addresses = {line: read_address(f"unix:{folder}/{line}") for line in lines}
        self.words = [*options, *(address.word for address in self.addresses.values())]
        listening_socket(read_settings(self.words).listen).close()  # or it is refused before anything starts
        self.ends = ends
        self.is_wanted = True

    def start(self) -> None:
        self.process = subprocess.Popen([sys.executable, str(TOOL), *self.words], stdin=subprocess.DEVNULL)
        self.ends.callback(self.end)
        threading.Thread(target=self.watch, daemon=True).start()

    def watch(self) -> None:
        """Says so if it ends by itself."""
        status = self.process.wait()
        if self.is_wanted:
            say(f"{NAME}: tools/sip has ended with status {status}, and its lines have no endpoint")

    def end(self) -> None:
        self.is_wanted = False
        self.process.terminate()
        try:
            self.process.wait(PATIENCE)
        except subprocess.TimeoutExpired:
            self.process.kill()
            self.process.wait()
