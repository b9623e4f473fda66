"""Commands of the tools that run while a test does: the gateway, the exchange, and SIP telephones that are installed."""

from __future__ import annotations

import os
import re
import shutil
import signal
import socket
import subprocess
import time
from collections.abc import Sequence
from typing import Any

import support
from sip_peers import HOST, Side, Sip, Talk, Telephone, port_of, read_sip, udp
from support import EXAMPLES, InFolder, command, environment, stream
from nemzhuul.sip.messages import SocketAddress

USERS = "101 one-secret\n102 two-secret\n"


def port() -> int:
    """A UDP port that was free a moment ago."""
    with socket.socket(socket.AF_INET, socket.SOCK_DGRAM) as end:
        end.bind((HOST, 0))
        return port_of(end)


def own_host() -> str:
    """An address of this machine for the telephones of this process, on which no other one takes a port: 127.0.0.0/8 has many."""
    number = os.getpid()
    return f"127.{64 + (number >> 16) % 128}.{number >> 8 & 255}.{number & 255}"


def needs(program: str) -> bool:
    return shutil.which(program) is None


class Started(InFolder):
    """Commands that run beside a test, and what the gateway prints."""

    at = 0  # the port of the gateway

    @property
    def address(self) -> SocketAddress:
        return SocketAddress(HOST, self.at)

    def pump(self) -> None:
        """The gateway works by itself."""

    def setUp(self) -> None:
        super().setUp()
        (self.folder / "users").write_text(USERS)
        self.said: list[str] = []

    def start(self, *words: str) -> subprocess.Popen[bytes]:
        none = subprocess.DEVNULL
        work = subprocess.Popen(words, cwd=self.folder, env=environment(), stdin=none, stdout=none, stderr=none)
        self.addCleanup(self.stop, work)
        return work

    def stop(self, work: subprocess.Popen[Any]) -> None:
        """Ends a process, which may have to end its own ones."""
        work.terminate()
        try:
            work.wait(3)
        except subprocess.TimeoutExpired:
            work.kill()
            work.wait()

    def until_it_responds(self, host: str, at: int, method: str = "OPTIONS", contact: str = "") -> Sip:
        """Asks at an address as 901, until a response comes."""
        end = udp()
        self.addCleanup(end.close)
        end.settimeout(0.2)
        fields = [f"Via: SIP/2.0/UDP {HOST}:{port_of(end)};branch=z9hG4bK{method}", f"From: <sip:901@{HOST}>;tag=1", f"To: <sip:901@{HOST}>",
                  f"Call-ID: {method}", f"CSeq: 1 {method}", "Max-Forwards: 9", f"Contact: <{contact or f'sip:{HOST}'}>"]  # fmt: skip
        text = "\r\n".join([f"{method} sip:901@{HOST} SIP/2.0", *fields, "Content-Length: 0", "", ""])
        for _ in range(5 * support.PATIENCE):
            end.sendto(text.encode(), (host, at))
            try:
                return read_sip(end.recv(8_192))
            except OSError:
                time.sleep(0.1)
        self.fail("it does not respond")

    def gateway(self, *words: str) -> int:
        """Starts tools/sip, and returns its port."""
        return self.listening(command("sip", "--listen", f"{HOST}:0", *words))

    def listening(self, words: Sequence[str]) -> int:
        """Starts a command that is or has a gateway, and returns its port."""
        self.work = subprocess.Popen(words, cwd=self.folder, env=environment(), stderr=subprocess.PIPE, text=True)
        self.errors = stream(self.work.stderr)
        self.addCleanup(self.errors.close)
        self.addCleanup(self.work.wait)
        self.addCleanup(self.stop, self.work)
        found = re.fullmatch(r"sip: listens on 127\.0\.0\.1:([0-9]+)\n", self.until("sip: listens on"))
        assert found
        return int(found[1])

    def until(self, begin: str) -> str:
        """The next line that begins so."""
        for line in self.errors:
            self.said.append(line)
            if line.startswith(begin):
                return line
        self.fail("".join(self.said))

    def end(self) -> str:
        """Ends the gateway, and returns all that it has printed."""
        self.work.send_signal(signal.SIGTERM)
        self.said += self.errors.readlines()
        self.assertEqual(self.work.wait(), 0, self.said)
        return "".join(self.said)


class LiveTelephone(Telephone):
    """A telephone of a gateway that is another process, and works by itself."""

    def __init__(self, test: Side, digits: str, password: str) -> None:
        super().__init__(test, digits, password)
        self.sip.settimeout(support.PATIENCE)

    def get(self) -> Sip:
        return read_sip(self.sip.recv(65_536))

    def gets(self, wanted: int | str) -> Sip:
        """The next response with a status, or the next request with a method."""
        while (message := self.get()).status != wanted and message.method != wanted:
            pass
        return message

    def enters(self, digits: str) -> Talk:
        """Calls a room, which answers."""
        talk = self.calls(digits)
        self.acknowledges(talk, self.gets(200))
        return talk


class Exchanged(Started):
    """A gateway on line 0 of a running exchange."""

    SETTINGS = "exchange 1 2 1 1\nnumber 1 line 0\nnumber 9 line 0\nnumber 30 room 0\n"

    def attach(self, users: str, settings: str = SETTINGS, more: Sequence[str] = ()) -> int:
        """Starts both, and returns the port of the gateway."""
        (self.folder / "settings").write_text(settings)
        (self.folder / "users").write_text(users)
        self.start_exchange()
        return self.start_gateway(*more)

    def start_exchange(self) -> None:
        self.exchange = self.start(*command("attach", "--line", "0", "unix:line", "--log", "log", "--overwrite", "settings"))

    def start_gateway(self, *more: str) -> int:
        """Starts the gateway, and returns its port when it has its line."""
        at = self.gateway("--users", "users", *more, "unix:line")
        self.until("sip: unix:line is line 0")
        return at

    def baresip(self, digits: str, at: int, *words: str) -> subprocess.Popen[bytes]:
        """Starts a telephone of examples/phones with this registrar."""
        home = self.folder / digits
        shutil.copytree(EXAMPLES / "phones" / digits, home)
        account = (home / "accounts").read_text().replace(f"{HOST}>", f"{HOST}:{at}>")
        (home / "accounts").write_text(account)
        config = (home / "config").read_text()
        config = re.sub(r"(?m)^(sip_listen\s+).*$", rf"\g<1>{HOST}:{port()}", config)
        config = re.sub(r"(?m)^(snd_path\s+).*$", rf"\g<1>{home}", config)
        config = re.sub(r"aufile,examples/", f"aufile,{self.folder}/", config)
        (home / "config").write_text(config)
        return self.start("baresip", "-f", str(home), *words)
