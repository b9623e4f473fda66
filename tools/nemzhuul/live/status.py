"""Serves the state of a running exchange over HTTP, from a thread of its own. Nothing that it serves changes anything.

The loop of the exchange never waits for it. If a request wants a state, the loop leaves one at the start of a period. The
thread has a bounded share of a processor, and works for about a millisecond at once. What a client can use is bounded too:
the number of connections, and the octets and the time of a request. A new connection takes the place of the oldest.
"""

from __future__ import annotations

import contextlib
import io
import os
import selectors
import socket
import threading
import time
from functools import partial
from http import HTTPStatus
from http.server import BaseHTTPRequestHandler
from ipaddress import ip_address
from typing import Any

from nemzhuul.command_line import NAME, Refused, say
from nemzhuul.live.site import POLICY, Document, Site
from nemzhuul.live.snapshots import Snapshot

LOOPBACK = "127.0.0.1"
MAX_CONNECTIONS = 32
MAX_REQUEST = 8192  # octets of a request line and its headers
CONNECTION_SECONDS = 10  # until a connection is closed, whatever it does
PIECE = 1 << 16  # octets of a write or a read
MAX_AGE = 0.5  # seconds of a state that is served
STATE_SECONDS = 0.5  # that a request waits for a newer state
TICK = 0.5  # seconds between two looks at the times of connections
WORK_SECONDS = 0.001  # of processor time, after which the thread rests
REST = 4  # times as long: it has a fifth of a processor
METHODS = "GET, HEAD"
ENDS = (b"\r\n\r\n", b"\n\n")


class Pacer:
    """Lets a thread rest, so that it has a share of a processor and never works long at once."""

    def __init__(self) -> None:
        self.begun = time.thread_time()

    def rest(self) -> None:
        """Rests if it has worked for some time."""
        used = time.thread_time() - self.begun
        if used >= WORK_SECONDS:
            time.sleep(used * REST)
            self.begun = time.thread_time()


class Request(BaseHTTPRequestHandler):
    """A request whose head has come, and the response to it."""

    protocol_version = "HTTP/1.1"
    default_request_version = "HTTP/1.0"  # of a request that states none: the response has headers

    def __init__(self, head: bytes, server: StatusServer) -> None:
        self.rfile, self.wfile = io.BytesIO(head), io.BytesIO()
        self.client_address = ("", 0)
        self.status_server = server
        self.raw_requestline = self.rfile.readline()
        if self.parse_request():
            self._respond()

    def version_string(self) -> str:
        return "Nemzhuul"

    def log_message(self, format: str, *args: Any) -> None:
        """Says nothing of a request."""

    @property
    def response(self) -> bytes:
        return self.wfile.getvalue()  # type: ignore[attr-defined, no-any-return]

    def _respond(self) -> None:
        path = self.path.partition("?")[0]
        if self.command not in METHODS.split(", "):
            self._write(HTTPStatus.METHOD_NOT_ALLOWED, Document("text/plain", f"only {METHODS}\n"), Allow=METHODS)
        elif not self.status_server.is_own(self.headers.get("Host")):
            self._write(HTTPStatus.MISDIRECTED_REQUEST, Document("text/plain", "this server has another name\n"))
        elif path not in self.status_server.site.makers:
            self._write(HTTPStatus.NOT_FOUND, Document("text/plain", "there are /, /calls.json and /metrics\n"))
        elif (document := self.status_server.document(path)) is None:
            self._write(HTTPStatus.SERVICE_UNAVAILABLE, Document("text/plain", "the exchange has not begun\n"))
        else:
            self._write(HTTPStatus.OK, document)

    def _write(self, status: HTTPStatus, document: Document, **headers: str) -> None:
        content = document.text.encode("utf-8", "backslashreplace")
        self.send_response(status)
        for name, value in {
            **headers,
            "Content-Type": document.content_type,
            "Content-Length": str(len(content)),
            "Cache-Control": "no-store",
            "Content-Security-Policy": POLICY,
            "X-Content-Type-Options": "nosniff",
            "Referrer-Policy": "no-referrer",
            "Connection": "close",
        }.items():
            self.send_header(name, value)
        self.end_headers()
        if self.command != "HEAD":
            self.wfile.write(content)


class Connection:
    """A client. It sends a request, gets the response, and closes its side."""

    def __init__(self, sock: socket.socket) -> None:
        self.sock = sock
        self.last = time.monotonic() + CONNECTION_SECONDS
        self.received = bytearray()
        self.unsent = memoryview(b"")
        self.has_response = False

    @property
    def has_request(self) -> bool:
        return len(self.received) > MAX_REQUEST or any(end in self.received for end in ENDS)


class StatusServer:
    """The socket, its connections, and the thread that serves them."""

    def __init__(self, word: str, name: str) -> None:
        self.host, self.port = read_place(word)
        self.site = Site(name)
        self.listener = listen(self.host, self.port, word)
        self.port = self.listener.getsockname()[1]
        self.connections: dict[int, Connection] = {}  # by descriptor, the oldest first
        self.selector = selectors.DefaultSelector()
        self.waker, self.wakened = socket.socketpair()
        self.pacer = Pacer()
        self.has_ended = False
        self.is_wanted = False  # a state
        self.is_left = threading.Event()
        self.state: tuple[float, Snapshot] | None = None  # with the time at which it was left
        self.shown: tuple[float, Snapshot] | None = None  # the state of which documents were made
        self.documents: dict[str, Document] = {}
        self.thread = threading.Thread(target=self._serve, name="status", daemon=True)

    @property
    def url(self) -> str:
        host = f"[{self.host}]" if ":" in self.host else self.host
        return f"http://{host}:{self.port}/"

    def is_own(self, host: str | None) -> bool:
        """Whether a request is for this server. On loopback, no other site can have a browser read it under its own name."""
        if host is None or not is_loopback(self.host):
            return True
        name = host.rpartition(":")[0] if host.rpartition(":")[2].isdecimal() else host
        return name.lower() in ("localhost", self.host.lower()) or is_loopback(name.strip("[]"))

    # ---- for the loop of the exchange

    def begin(self) -> None:
        for sock in (self.listener, self.wakened):
            sock.setblocking(False)
        self.selector.register(self.listener, selectors.EVENT_READ, self._accept)
        self.selector.register(self.wakened, selectors.EVENT_READ, lambda: self.wakened.recv(PIECE))
        self.thread.start()
        say(f"{NAME}: the state of the exchange is at {self.url}")

    def leave(self, state: Snapshot) -> None:
        """Leaves a state for the requests that want one."""
        self.state = (time.monotonic(), state)
        self.is_wanted = False
        self.is_left.set()

    def close(self) -> None:
        self.has_ended = True
        self.is_left.set()
        self.waker.send(b"\0")
        if self.thread.is_alive():
            self.thread.join(CONNECTION_SECONDS)
        for sock in (self.listener, self.waker, self.wakened, *(connection.sock for connection in self.connections.values())):
            sock.close()

    # ---- documents

    def document(self, path: str) -> Document | None:
        """The document of a path by a state of this moment; None if there is no state so far."""
        if self.state is None or time.monotonic() > self.state[0] + MAX_AGE:
            self.is_left.clear()
            self.is_wanted = True
            self.is_left.wait(STATE_SECONDS)
        state = self.state
        if state is None:
            return None
        if state is not self.shown:
            self.shown, self.documents = state, {}
        if path not in self.documents:
            self.documents[path] = self.site.makers[path](state[1], self.pacer.rest)
        return self.documents[path]

    # ---- connections

    def _serve(self) -> None:
        self.pacer = Pacer()
        while not self.has_ended:
            for key, _ in self.selector.select(TICK):
                key.data()  # on a connection that another one has replaced meanwhile, it does nothing
                self.pacer.rest()
            now = time.monotonic()
            for connection in [connection for connection in self.connections.values() if connection.last < now]:
                self._leave(connection)

    def _accept(self) -> None:
        try:
            sock, _ = self.listener.accept()
        except OSError:  # it has gone again, or there is no descriptor
            return
        sock.setblocking(False)
        if len(self.connections) == MAX_CONNECTIONS:
            self._leave(next(iter(self.connections.values())))
        connection = Connection(sock)
        self.connections[sock.fileno()] = connection
        self.selector.register(sock, selectors.EVENT_READ, partial(self._read, connection))

    def _read(self, connection: Connection) -> None:
        """Reads a request. When the response is sent, what still comes is discarded: else the client might not get it."""
        try:
            octets = connection.sock.recv(MAX_REQUEST)
        except BlockingIOError:
            return
        except OSError:
            octets = b""
        if not octets:
            self._leave(connection)
        elif not connection.has_response:
            connection.received += octets
            if connection.has_request:
                self._respond(connection)

    def _respond(self, connection: Connection) -> None:
        connection.has_response = True
        head = bytes(connection.received)
        if len(head) > MAX_REQUEST and not any(end in head[:MAX_REQUEST] for end in ENDS):
            connection.unsent = memoryview(b"HTTP/1.1 431 Request Header Fields Too Large\r\nConnection: close\r\n\r\n")
        else:
            connection.unsent = memoryview(Request(head, self).response)
        self.selector.modify(connection.sock, selectors.EVENT_WRITE, partial(self._write, connection))

    def _write(self, connection: Connection) -> None:
        try:
            connection.unsent = connection.unsent[connection.sock.send(connection.unsent[:PIECE]) :]
            if not connection.unsent:
                connection.sock.shutdown(socket.SHUT_WR)
                self.selector.modify(connection.sock, selectors.EVENT_READ, partial(self._read, connection))
        except BlockingIOError:
            pass
        except OSError:
            self._leave(connection)

    def _leave(self, connection: Connection) -> None:
        number = connection.sock.fileno()  # -1 once it is closed
        if number in self.connections:
            del self.connections[number]
            self.selector.unregister(connection.sock)
            connection.sock.close()


# ---- the address


def read_place(word: str) -> tuple[str, int]:
    """The host and the port of `HOST:PORT`, or of `PORT` on loopback."""
    host, colon, port = word.rpartition(":")
    if not port.isdecimal() or int(port) >= 1 << 16 or (colon and not host):
        raise Refused(f"{word} is no address of a page: it is HOST:PORT or PORT")
    return host.strip("[]") or LOOPBACK, int(port)


def listen(host: str, port: int, word: str) -> socket.socket:
    """A socket that listens there."""
    try:
        family = socket.getaddrinfo(host, port, type=socket.SOCK_STREAM, flags=socket.AI_PASSIVE)[0][0]
        return socket.create_server((host, port), family=family, backlog=MAX_CONNECTIONS)
    except OSError as error:
        why = os.strerror(error.errno) if error.errno and error.errno > 0 else error.strerror or error  # else no such host
        raise Refused(f"{word} cannot be listened on: {why}") from None


def is_loopback(host: str) -> bool:
    with contextlib.suppress(ValueError):
        return ip_address(host).is_loopback
    return host == "localhost"
