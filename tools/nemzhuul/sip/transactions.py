"""SIP over UDP: its socket, and the transactions of RFC 3261.

`Transport` reads datagrams and gives each new request to its user. A request that repeats one that is kept gets the last
response again and reaches nobody. The user keeps a request only when it knows whose it is, so that a stranger's costs no
memory.
"""

from __future__ import annotations

import socket
from collections.abc import Callable, Iterable
from typing import TYPE_CHECKING, Optional, Protocol, Tuple

from nemzhuul.command_line import Refused
from nemzhuul.live.processes import Loop
from nemzhuul.sip.limits import Networks, Rates
from nemzhuul.sip.messages import (
    MAX_DATAGRAM,
    Field,
    Malformed,
    Message,
    Received,
    SocketAddress,
    read_message,
    request,
    response,
    token,
)
from nemzhuul.sip.timers import Timers

if TYPE_CHECKING:
    from nemzhuul.sip.dialogs import Incoming

T1, T2, T4 = 0.5, 4.0, 5.0  # seconds (RFC 3261)
TIMEOUT = 64 * T1
MAX_TRANSACTIONS = 5_000  # of servers, from which on requests are not answered
MAX_TURN, MAX_TURN_SECONDS = 16, 0.005  # datagrams that are read, and their time, before frames are looked at again
MAX_UNREAD = 1 << 22  # octets of datagrams that wait to be read
MAGIC = "z9hG4bK"
METHODS = "INVITE, ACK, CANCEL, BYE, OPTIONS, REGISTER, INFO"

Key = Tuple[str, str, str, str]  # the branch, the sender, the address and the method of a server
ResponseHandler = Callable[[Optional[Received]], object]


class TransportUser(Protocol):
    """Is told what comes."""

    def take_new_request(self, server: ServerTransaction) -> None:
        """A new request has come."""

    def take_ack(self, message: Received) -> None:
        """An ACK has come that belongs to no transaction."""

    def note(self, text: str) -> None:
        """Something is to be said to the person who runs the program."""


class Transport:
    """The socket, with its transactions by key."""

    def __init__(self, loop: Loop, timers: Timers, end: socket.socket, user: TransportUser, networks: Networks) -> None:
        self.timers = timers
        self.user = user
        self.networks = networks
        self.rates = Rates(timers.now)
        self.socket = end
        self.address = SocketAddress(*self.socket.getsockname())
        self.servers: dict[Key, ServerTransaction] = {}
        self.clients: dict[tuple[str, str], ClientTransaction] = {}
        self.received = self.sent = self.repeated = self.malformed = self.refused = self.failed = 0
        loop.watch(self.socket, self.receive)

    def send(self, message: Message, address: SocketAddress) -> None:
        self.sent += 1
        try:
            self.socket.sendto(message.text(), address)
        except (OSError, UnicodeError):
            self.failed += 1

    def receive(self) -> None:
        begun = self.timers.now()
        for _ in range(MAX_TURN):
            if self.timers.now() - begun >= MAX_TURN_SECONDS:
                return
            try:
                octets, source = self.socket.recvfrom(MAX_DATAGRAM + 1)
            except BlockingIOError:
                return
            except OSError:  # an earlier datagram did not reach its port
                continue
            self.received += 1
            address = SocketAddress(*source)
            if not self.networks.is_allowed(address.host) or not self.rates.admits(address.host) or len(octets) > MAX_DATAGRAM:
                self.refused += 1
            elif octets.strip(b"\r\n\0 "):  # else it keeps a hole in a NAT open
                self.take_datagram(octets, address)

    def take_datagram(self, octets: bytes, source: SocketAddress) -> None:
        try:
            message = read_message(octets, source)
        except Malformed as fault:
            self.malformed += 1
            self.user.note(f"{source.host}:{source.port} sent a datagram that is not a message: {fault}")
            if fault.request is not None and fault.request.method != "ACK":
                self.send(response(fault.request, 400, token()), fault.request.reply_to)
            return
        if message.method:
            self.take_request(message)
            return
        client = self.clients.get((message.via.branch, message.sequence.method))
        if client is not None and message.call_id == client.request.get("call-id"):
            client.receive(message)

    def take_request(self, message: Received) -> None:
        key = key_of(message, "INVITE" if message.method == "ACK" else message.method)
        server = self.servers.get(key)
        if message.method == "ACK":
            if server is None or not server.acknowledge():
                self.user.take_ack(message)
        elif server is not None:
            self.repeated += 1
            server.repeat()
        elif len(self.servers) < MAX_TRANSACTIONS:
            self.take_new(ServerTransaction(self, message, key))

    def take_new(self, server: ServerTransaction) -> None:
        source = server.request.source
        try:
            self.user.take_new_request(server)
        except Malformed as fault:
            self.malformed += 1
            self.user.note(f"{source.host}:{source.port} sent a request with a wrong field: {fault}")
            if server.status < 200:
                server.answer(400, token())

    def invite_of(self, cancel: Received) -> ServerTransaction | None:
        """The transaction of the INVITE that a CANCEL ends (RFC 3261); None if there is none."""
        server = self.servers.get(key_of(cancel, "INVITE"))
        return server if server and server.request.call_id == cancel.call_id else None

    def request(
        self,
        method: str,
        uri: str,
        address: SocketAddress,
        fields: Iterable[Field],
        on_response: ResponseHandler,
        body: bytes = b"",
    ) -> ClientTransaction:
        """Sends a request; `on_response` gets each response, and None if there is none in time."""
        own = [Field("via", self.new_via()), Field("max-forwards", "70")]
        return ClientTransaction(self, request(method, uri, [*own, *fields], body), address, on_response)

    def new_via(self) -> str:
        return f"SIP/2.0/UDP {self.address.host}:{self.address.port};branch={MAGIC}{token()};rport"


def listening_socket(address: SocketAddress) -> socket.socket:
    """A UDP socket at an address of this machine, or a refusal."""
    end = socket.socket(socket.AF_INET, socket.SOCK_DGRAM)
    try:
        end.setsockopt(socket.SOL_SOCKET, socket.SO_RCVBUF, MAX_UNREAD)
        end.bind(address)
    except OSError as error:
        end.close()
        raise Refused(f"{address.host}:{address.port} cannot be listened on: {error.strerror}") from None
    end.setblocking(False)
    return end


def key_of(message: Received, method: str) -> Key:
    """The key of the transaction of a request (RFC 3261)."""
    branch = message.via.branch
    if not branch.startswith(MAGIC):
        branch = f"{message.call_id} {message.sequence.number}"
    return branch, message.via.sent_by, message.source.host, method


class ServerTransaction:
    """A request that came, and its responses."""

    def __init__(self, transport: Transport, request: Received, key: Key) -> None:
        self.transport, self.request, self.key = transport, request, key
        self.status = 0  # of the last response
        self.message: Message | None = None
        self.is_kept = self.is_acknowledged = False
        self.leg: Incoming | None = None  # of an INVITE

    def keep(self) -> None:
        """Has repetitions of the request answered as it was, until some time after its last response."""
        self.is_kept = True
        self.transport.servers[self.key] = self

    def answer(self, status: int, tag: str = "", fields: Iterable[Field] = (), body: bytes = b"") -> None:
        self.status = status
        self.message = response(self.request, status, tag, fields, body)
        self.repeat()
        if status >= 200 and self.is_kept:
            self.transport.timers.after(TIMEOUT, lambda: self.transport.servers.pop(self.key, None))
            if self.request.method == "INVITE" and status >= 300:
                self.repeat_later(T1)

    def repeat(self) -> None:
        if self.message is not None:
            self.transport.send(self.message, self.request.reply_to)

    def repeat_later(self, wait: float) -> None:
        """Repeats a refusal until its ACK comes."""

        def again() -> None:
            if not self.is_acknowledged and self.key in self.transport.servers:
                self.transport.repeated += 1
                self.repeat()
                self.repeat_later(min(2 * wait, T2))

        self.transport.timers.after(wait, again)

    def acknowledge(self) -> bool:
        """Takes an ACK; false if it is of a 2xx, which belongs to the dialog."""
        self.is_acknowledged = True
        return self.status >= 300


class ClientTransaction:
    """A request that was sent, and is repeated until a response comes."""

    def __init__(self, transport: Transport, request: Message, address: SocketAddress, on_response: ResponseHandler) -> None:
        self.transport, self.request, self.address, self.on_response = transport, request, address, on_response
        self.is_invite = request.method == "INVITE"
        branch = request.get("via").partition("branch=")[2].partition(";")[0]
        self.key = branch, request.method
        self.has_provisional = self.is_over = False
        transport.clients[self.key] = self
        transport.send(request, address)
        self.repeats = transport.timers.after(T1, lambda: self.repeat(T1))
        self.deadline = transport.timers.after(TIMEOUT, self.expire)

    def repeat(self, wait: float) -> None:
        self.transport.repeated += 1
        self.transport.send(self.request, self.address)
        wait = 2 * wait if self.is_invite else min(2 * wait, T2)
        self.repeats = self.transport.timers.after(wait, lambda: self.repeat(wait))

    def expire(self) -> None:
        self.end(0)
        self.on_response(None)

    def give_up_later(self) -> None:
        """Expires if no final response comes in time after CANCEL (RFC 3261)."""
        if not self.is_over:
            self.deadline.cancel()
            self.deadline = self.transport.timers.after(TIMEOUT, self.expire)

    def receive(self, answer: Received) -> None:
        if answer.status < 200:
            if not self.is_over:
                if self.is_invite and not self.has_provisional:
                    self.repeats.cancel()
                    self.deadline.cancel()
                self.has_provisional = True
                self.on_response(answer)
            return
        if self.is_invite and answer.status >= 300:
            self.acknowledge(answer)
        was_over = self.is_over
        if not was_over:
            self.end(TIMEOUT if self.is_invite else T4)
        if not was_over or (self.is_invite and answer.status < 300):
            self.on_response(answer)

    def acknowledge(self, answer: Received) -> None:
        """Acknowledges a refusal (RFC 3261)."""
        fields = [*self.own("via", "max-forwards", "from", "call-id"), Field("to", answer.get("to"))]
        fields.append(Field("cseq", f"{answer.sequence.number} ACK"))
        self.transport.send(request("ACK", self.request.uri, [*fields, *self.routes()]), self.address)

    def cancel(self) -> None:
        """Sends CANCEL (RFC 3261). The final response to the INVITE follows."""
        number = self.request.get("cseq").partition(" ")[0]
        fields = [*self.own("via", "max-forwards", "from", "to", "call-id"), Field("cseq", f"{number} CANCEL")]
        message = request("CANCEL", self.request.uri, [*fields, *self.routes()])
        ClientTransaction(self.transport, message, self.address, lambda answer: None)
        self.give_up_later()

    def own(self, *names: str) -> list[Field]:
        return [Field(name, self.request.get(name)) for name in names]

    def routes(self) -> list[Field]:
        return [Field("route", route) for route in self.request.all("route")]

    def end(self, wait: float) -> None:
        self.is_over = True
        self.repeats.cancel()
        self.deadline.cancel()
        self.transport.timers.after(wait, lambda: self.transport.clients.pop(self.key, None))
