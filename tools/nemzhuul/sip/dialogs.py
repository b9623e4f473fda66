"""The two sides of a SIP call (RFC 3261): `Incoming`, which a user made, and `Outgoing`, which is made to one."""

from __future__ import annotations

import re
from typing import Dict, NamedTuple, Protocol, Tuple

from nemzhuul.sip.messages import (
    Field,
    Malformed,
    Received,
    SocketAddress,
    q850_cause,
    read_name_address,
    read_uri,
    reason,
    request,
    token,
)
from nemzhuul.sip.registrar import Target
from nemzhuul.sip.transactions import METHODS, T1, T2, TIMEOUT, ResponseHandler, ServerTransaction, Transport

SDP = Field("content-type", "application/sdp")
ALLOW = Field("allow", METHODS)
NO_ANSWER_TO_2XX = 102  # recovery on timer expiry
EARLY, CONFIRMED, OVER = "early", "confirmed", "over"
KEY = re.compile(rb"^Signal[ \t]*=[ \t]*([0-9A-D*#])", re.M | re.I)


class LegUser(Protocol):
    """Is told what the other side of a leg does."""

    def rings(self, status: int) -> None:
        """A provisional response has come."""

    def answers(self, body: bytes) -> None:
        """The called user has answered, with a description."""

    def refuses(self, status: int, value: int | None) -> None:
        """The called user has refused, with a cause of Q.850 or without."""

    def ends(self, value: int | None) -> None:
        """The user has ended the call."""

    def offers(self, body: bytes) -> bytes | None:
        """The user offers other media. Returns the answer, or None for a refusal."""

    def acknowledges(self, body: bytes) -> None:
        """The user has answered an offer of this side, in ACK."""

    def presses(self, key: str) -> None:
        """The user has pressed a key, by INFO."""


Dialogs = Dict[Tuple[str, str], "Leg"]  # by Call-ID and the tag of this side


class Party(NamedTuple):
    """The other side of a dialog, and its routes."""

    to: str  # the value of To in requests of this side
    target: str
    routes: tuple[str, ...] = ()


class Leg:
    """A dialog."""

    def __init__(self, transport: Transport, dialogs: Dialogs, user: LegUser) -> None:
        self.transport, self.dialogs, self.user = transport, dialogs, user
        self.state = EARLY
        self.tag = token()
        self.local_sequence = 0  # the last CSeq that was sent
        self.remote_sequence = -1
        self.unacknowledged: ServerTransaction | None = None  # its 2xx has no ACK yet

    def open(self, call_id: str, local: str, party: Party, address: SocketAddress) -> None:
        self.call_id, self.local, self.party, self.first_address = call_id, local, party, address
        self.dialogs[call_id, self.tag] = self

    @property
    def contact(self) -> Field:
        return Field("contact", f"<sip:{self.transport.address.host}:{self.transport.address.port}>")

    def next_hop(self) -> SocketAddress:
        """Where requests go: the first route or the target if it has an address that is heard, else where the first one went."""
        uri = read_uri(read_name_address(self.party.routes[0]).uri) if self.party.routes else read_uri(self.party.target)
        return uri.address if self.transport.networks.is_allowed(uri.host) else self.first_address

    def fields(self, method: str, number: int) -> list[Field]:
        return [
            Field("from", self.local),
            Field("to", self.party.to),
            Field("call-id", self.call_id),
            Field("cseq", f"{number} {method}"),
            self.contact,
            *(Field("route", route) for route in self.party.routes),
        ]

    def send(self, method: str, on_response: ResponseHandler, fields: list[Field]) -> None:
        """Sends a request within the dialog."""
        self.local_sequence += 1
        own = self.fields(method, self.local_sequence)
        self.transport.request(method, self.party.target, self.next_hop(), [*own, *fields], on_response)

    def bye(self, cause: int | None = None) -> None:
        """Ends an answered call."""
        if self.state == CONFIRMED:
            self.end()
            self.send("BYE", lambda answer: None, reason(cause))

    def probe(self, on_response: ResponseHandler) -> None:
        """Asks the other side of an answered call whether it still has it; `on_response` gets its response or None."""
        self.send("OPTIONS", on_response, [])

    def end(self) -> None:
        self.state = OVER
        self.transport.timers.after(TIMEOUT, lambda: self.dialogs.pop((self.call_id, self.tag), None))

    # ---- requests within the dialog

    def take_request(self, server: ServerTransaction) -> None:
        number, method = server.request.sequence
        if server.request.sender.tag != read_name_address(self.party.to).tag:
            server.answer(481)
            return
        if number <= self.remote_sequence:
            server.answer(500)
            return
        self.remote_sequence = number
        if self.state == OVER:
            server.answer(481)
        elif method == "BYE":
            self.take_bye(server)
        elif method == "INVITE":
            self.take_offer(server)
        elif method == "INFO":
            self.take_info(server)
        elif method == "OPTIONS":
            server.answer(200, fields=[ALLOW])
        else:
            server.answer(405, fields=[ALLOW])

    def take_bye(self, server: ServerTransaction) -> None:
        server.answer(200)
        self.end()
        self.user.ends(q850_cause(server.request))

    def take_offer(self, server: ServerTransaction) -> None:
        """A further INVITE: it holds, retrieves, or moves the media."""
        if self.state != CONFIRMED or self.unacknowledged is not None:
            server.answer(491)
            return
        contact = server.request.get("contact")
        if contact:
            target = read_name_address(contact).uri
            read_uri(target)
            self.party = self.party._replace(target=target)
        body = self.user.offers(server.request.body)
        if body is None:
            server.answer(488)
        else:
            self.answer_invite(server, body)

    def take_info(self, server: ServerTransaction) -> None:
        key = KEY.search(server.request.body)
        if key and self.state == CONFIRMED:
            self.user.presses(key[1].decode().upper())
        server.answer(200)

    def answer_invite(self, server: ServerTransaction, body: bytes) -> None:
        """Sends a 2xx until its ACK comes (RFC 3261)."""
        server.answer(200, self.tag, [self.contact, ALLOW, SDP], body)
        self.unacknowledged = server
        self.repeat_answer(server, T1, TIMEOUT)

    def repeat_answer(self, server: ServerTransaction, wait: float, left: float) -> None:
        def again() -> None:
            if self.unacknowledged is not server or self.state == OVER:
                return
            if left <= 0:
                self.unacknowledged = None
                self.bye(NO_ANSWER_TO_2XX)
                self.user.ends(NO_ANSWER_TO_2XX)
                return
            self.transport.repeated += 1
            server.repeat()
            self.repeat_answer(server, min(2 * wait, T2), left - wait)

        self.transport.timers.after(wait, again)

    def take_ack(self, message: Received) -> None:
        waiting = self.unacknowledged
        if waiting is not None and message.sequence.number == waiting.request.sequence.number:
            self.unacknowledged = None
            if message.body and self.state == CONFIRMED:
                self.user.acknowledges(message.body)


class Incoming(Leg):
    """A call that a SIP user makes."""

    def __init__(self, transport: Transport, dialogs: Dialogs, user: LegUser, server: ServerTransaction) -> None:
        super().__init__(transport, dialogs, user)
        self.server = server
        came = server.request
        contact = came.get("contact")
        target = read_name_address(contact).uri if contact else came.sender.uri
        read_uri(target)
        routes = tuple(came.all("record-route"))
        for route in routes:
            read_uri(read_name_address(route).uri)
        self.remote_sequence = came.sequence.number
        self.open(came.call_id, f"{came.get('to')};tag={self.tag}", Party(came.get("from"), target, routes), came.reply_to)
        server.leg = self
        server.answer(100)

    def progress(self, status: int, body: bytes = b"") -> None:
        if self.state == EARLY:
            self.server.answer(status, self.tag, [self.contact, ALLOW, *([SDP] if body else [])], body)

    def answer(self, body: bytes) -> None:
        if self.state == EARLY:
            self.state = CONFIRMED
            self.answer_invite(self.server, body)

    def refuse(self, status: int, cause: int | None = None) -> None:
        if self.state == EARLY:
            self.end()
            self.server.answer(status, self.tag, reason(cause))

    def take_cancel(self, message: Received) -> None:
        if self.state == EARLY:
            self.refuse(487)
            self.user.ends(q850_cause(message))

    def take_bye(self, server: ServerTransaction) -> None:
        if self.state == EARLY:
            self.refuse(487)
        super().take_bye(server)


class Outgoing(Leg):
    """A call to a SIP user."""

    def __init__(self, transport: Transport, dialogs: Dialogs, user: LegUser, target: Target) -> None:
        super().__init__(transport, dialogs, user)
        self.target = target
        self.is_cancelled = self.is_cancel_sent = False

    def invite(self, caller: str, body: bytes) -> None:
        address = self.transport.address
        local = f"<sip:{caller}@{address.host}:{address.port}>;tag={self.tag}"
        self.open(f"{token()}@{address.host}", local, Party(f"<{self.target.uri}>", self.target.uri), self.target.address)
        self.local_sequence = 1
        fields = [*self.fields("INVITE", 1), ALLOW, SDP]
        self.client = self.transport.request("INVITE", self.target.uri, self.target.address, fields, self.take_response, body)

    def take_response(self, answer: Received | None) -> None:
        if answer is None:
            self.finish(408, None)
        elif answer.status < 200:
            if self.is_cancelled and not self.client.is_over:
                self.send_cancel()
            elif self.state == EARLY and answer.status > 100:
                self.user.rings(answer.status)
        elif answer.status >= 300:
            self.finish(answer.status, q850_cause(answer))
        elif self.state == EARLY:
            self.take_answer(answer)
        elif answer.receiver.tag == read_name_address(self.party.to).tag:
            self.acknowledge()
        else:
            self.end_branch(answer)

    def finish(self, status: int, cause: int | None) -> None:
        if self.state == EARLY:
            self.end()
            if not self.is_cancelled:
                self.user.refuses(status, cause)

    def take_answer(self, answer: Received) -> None:
        try:
            self.party = self.party_of(answer)
        except Malformed:
            self.finish(502, None)
            return
        self.state = CONFIRMED
        self.acknowledge()
        if self.is_cancelled:
            self.bye()
        else:
            self.user.answers(answer.body)

    def party_of(self, answer: Received) -> Party:
        contact = answer.get("contact")
        target = read_name_address(contact).uri if contact else self.party.target
        routes = tuple(answer.all("record-route")[::-1])
        for uri in (target, *(read_name_address(route).uri for route in routes)):
            read_uri(uri)
        return Party(answer.get("to"), target, routes)

    def end_branch(self, answer: Received) -> None:
        """Another branch of a fork answered too: it is taken, and ended."""
        first = self.party
        try:
            self.party = self.party_of(answer)
        except Malformed:
            return
        self.acknowledge()
        self.send("BYE", lambda answer: None, [])
        self.party = first

    def acknowledge(self) -> None:
        own = [Field("via", self.transport.new_via()), Field("max-forwards", "70")]
        self.transport.send(request("ACK", self.party.target, [*own, *self.fields("ACK", 1)]), self.next_hop())

    def cancel(self, cause: int | None = None) -> None:
        """Ends the call in any state."""
        if self.state == CONFIRMED:
            self.bye(cause)
        elif self.state == EARLY and not self.is_cancelled:
            self.is_cancelled = True
            if self.client.has_provisional:
                self.send_cancel()

    def send_cancel(self) -> None:
        if not self.is_cancel_sent:
            self.is_cancel_sent = True
            self.client.cancel()
