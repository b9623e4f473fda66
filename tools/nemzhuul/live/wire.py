"""The lines that an endpoint and the exchange send to each other over a socket, and the addresses of sockets.

A line ends with a line feed. `M HEX` is a message, and `F HEX` the 30 octets of a frame. An endpoint says `F none` if
it sends no octets from there on. It gets `line L` first. A last line `refused ..` says why its socket is closed.
"""

from __future__ import annotations

import contextlib
import fcntl
import os
import re
import socket
import stat
import time
from collections.abc import Iterator
from dataclasses import dataclass

from nemzhuul.command_line import Refused
from nemzhuul.outputs import Identity, identity
from nemzhuul.traces.events import FRAME_DIGITS, IDLE, MAX_MESSAGE_DIGITS, PLACES

IDLE_ROW = b"%02X" % IDLE * PLACES
FRAMES = re.compile(rb"(?:F [0-9A-Fa-f]{%d}\n)+" % FRAME_DIGITS)
MESSAGE = re.compile(rb"M ((?:[0-9A-Fa-f]{2}){1,%d})" % (MAX_MESSAGE_DIGITS // 2))
NO_FRAMES = b"F none"
MAX_LINE = len("M ") + MAX_MESSAGE_DIGITS
PIECE = 1 << 18  # octets of a read
CONNECT_SECONDS = 3
LOCK_SECONDS = 3


def frames_text(octets: bytes | bytearray) -> bytes:
    """The lines of frames whose octets are these, 30 of each frame."""
    return b"F " + octets.hex("\n", PLACES).upper().replace("\n", "\nF ").encode() + b"\n"


def octets_of(text: bytes) -> bytes:
    """The octets of lines of frames, 30 of each frame."""
    return bytes.fromhex(text.replace(b"F ", b"").decode())


# ---- addresses


@dataclass(frozen=True)
class Address:
    """A Unix socket, which has a path, or a TCP socket, which has a host and a port."""

    word: str
    path: str | None = None
    host: str = ""
    port: int = 0

    def connect(self) -> socket.socket:
        """A socket that is connected to this address. It is tried for some seconds: the exchange may just be starting."""
        last = time.monotonic() + CONNECT_SECONDS
        while True:
            try:
                return self._connect()
            except OSError as error:
                if time.monotonic() > last:
                    raise Refused(f"{self.word} cannot be reached: {error.strerror or error}") from None
            time.sleep(0.1)

    def _connect(self) -> socket.socket:
        if self.path is None:
            return without_delay(socket.create_connection((self.host, self.port)))
        connection = socket.socket(socket.AF_UNIX)
        try:
            connection.connect(self.path)
        except OSError:
            connection.close()
            raise
        return connection

    def listen(self, kind: int = socket.SOCK_STREAM, mode: int | None = None) -> Listener:
        """A socket that listens at this address. Only a Unix socket can be of another kind, or has a mode."""
        try:
            if self.path is None:
                listener = socket.create_server((self.host, self.port))
                return Listener(listener, f"tcp:{self.host}:{listener.getsockname()[1]}")
            with locked(os.path.dirname(self.path) or "."):
                self._remove_unused(self.path)
                listener = socket.socket(socket.AF_UNIX, kind)
                try:
                    listener.bind(self.path)
                    if mode is not None:
                        os.chmod(self.path, mode)  # no process can connect before it listens
                    listener.listen()
                except OSError:
                    listener.close()
                    raise
                return Listener(listener, self.word, self.path, identity(self.path))
        except OSError as error:
            raise self._refused(error.strerror or str(error)) from None

    def _refused(self, why: str) -> Refused:
        return Refused(f"{self.word} cannot be listened on: {why}")

    def _remove_unused(self, path: str) -> None:
        """Removes a socket that no process has any more. No other file is removed, nor a symbolic link to a socket."""
        found = identity(path)
        if found is None:
            return
        if found.kind != stat.S_IFSOCK:
            raise self._refused(f"{path} is there, and it is not a socket")
        # A datagram socket is refused by a file without a process, and never connects to a socket of another kind.
        with socket.socket(socket.AF_UNIX, socket.SOCK_DGRAM) as probe:
            try:
                probe.connect(path)
            except ConnectionRefusedError:
                os.unlink(path)
            except OSError:
                pass  # a process has it, and this one cannot


@dataclass(frozen=True)
class Listener:
    """A socket that listens, and its address in words. A Unix socket has a file, whose identity is kept."""

    sock: socket.socket
    place: str
    path: str | None = None
    file: Identity | None = None

    def close(self) -> None:
        """Closes the socket, and removes its file, but no other one that has come to its place."""
        if self.path is not None and self.file is not None and identity(self.path) == self.file:
            with contextlib.suppress(OSError):
                os.unlink(self.path)
        self.sock.close()


@contextlib.contextmanager
def locked(folder: str) -> Iterator[None]:
    """Locks a folder, so that no other exchange looks for unused sockets there at the same time."""
    handle = os.open(folder, os.O_RDONLY)
    try:
        last = time.monotonic() + LOCK_SECONDS
        while not is_locked(handle):
            if time.monotonic() > last:
                raise BlockingIOError(0, f"another process has locked the folder {folder}")
            time.sleep(0.01)
        yield
    finally:
        os.close(handle)


def is_locked(handle: int) -> bool:
    """Locks a file, and returns whether that is done; a file system without locks does not need it."""
    try:
        fcntl.flock(handle, fcntl.LOCK_EX | fcntl.LOCK_NB)
    except BlockingIOError:
        return False
    except OSError:
        pass
    return True


def read_address(word: str) -> Address:
    kind, _, rest = word.partition(":")
    if kind == "unix" and rest:
        return Address(word, path=rest)
    host, colon, port = rest.rpartition(":")
    if kind == "tcp" and colon and port.isdecimal() and int(port) < 1 << 16:
        return Address(word, host=host.strip("[]"), port=int(port))
    raise Refused(f"{word} is no address: it is unix:PATH or tcp:HOST:PORT")


def receive(connection: socket.socket, most: int = PIECE) -> bytes | None:
    """What has come over a connection: no octets if its other side is closed, and None if nothing has come yet."""
    try:
        return connection.recv(most)
    except BlockingIOError:
        return None
    except OSError:
        return b""


def without_delay(connection: socket.socket) -> socket.socket:
    """A connection of TCP that sends a line at once."""
    if connection.family != socket.AF_UNIX:
        connection.setsockopt(socket.IPPROTO_TCP, socket.TCP_NODELAY, 1)
    return connection
