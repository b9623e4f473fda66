"""The registrar: where the telephone of each number is (RFC 3261)."""

from __future__ import annotations

import re
from dataclasses import dataclass
from typing import NamedTuple

from nemzhuul.sip.messages import Field, Fields, Received, SocketAddress, read_name_address, read_uri
from nemzhuul.sip.timers import Now
from nemzhuul.sip.users import UsersFile

MIN_SECONDS, DEFAULT_SECONDS, MAX_SECONDS = 60, 3600, 3600  # of a registration
MAX_BINDINGS = 10_000
NUMBER = re.compile("[0-9]{1,20}")

UNALLOCATED, SUBSCRIBER_ABSENT = 1, 20  # causes


class Target(NamedTuple):
    """The SIP URI of a number, and where requests for it go."""

    uri: str
    address: SocketAddress


class Outcome(NamedTuple):
    """The status and the fields of the response to REGISTER."""

    status: int
    fields: Fields = ()


@dataclass(frozen=True)
class Binding:
    """Where a telephone is, until some time, by a REGISTER."""

    target: Target
    until: float
    call_id: str
    number: int


class Registrar:
    def __init__(self, users: UsersFile, now: Now) -> None:
        self.users = users
        self.now = now
        self.bindings: dict[str, Binding] = {}  # by digits

    def find(self, digits: str) -> Target | int:
        """Where a number is. Cause 20 if it has a password but no telephone, and 1 for another."""
        binding = self.binding(digits)
        if binding is not None:
            return binding.target
        peer = self.users.peer_of(digits)
        if peer is not None and NUMBER.fullmatch(digits):
            return Target(f"sip:{digits}@{peer.address.host}:{peer.address.port}", peer.address)
        return SUBSCRIBER_ABSENT if digits in self.users.passwords else UNALLOCATED

    def binding(self, digits: str) -> Binding | None:
        binding = self.bindings.get(digits)
        if binding is not None and binding.until <= self.now():
            del self.bindings[digits]
            return None
        return binding

    def register(self, request: Received, digits: str) -> Outcome:
        """Takes a REGISTER that is from the user with these digits."""
        if not NUMBER.fullmatch(digits):
            return Outcome(404)
        if read_uri(request.receiver.uri).user != digits:
            return Outcome(403)
        binding = self.binding(digits)
        if binding and binding.call_id == request.call_id and request.sequence.number <= binding.number:
            return Outcome(500)
        contacts = request.all("contact")
        if contacts == ["*"]:
            if request.get("expires") != "0":
                return Outcome(400)
            self.bindings.pop(digits, None)
        elif contacts:
            refusal = self.bind(digits, contacts[-1], request)
            if refusal is not None:
                return refusal
        return self.outcome(digits)

    def bind(self, digits: str, contact: str, request: Received) -> Outcome | None:
        """Stores where a telephone is. It is sent to where its request came from."""
        contact_address = read_name_address(contact)
        read_uri(contact_address.uri)
        text = contact_address.parameters.get("expires") or request.get("expires") or str(DEFAULT_SECONDS)
        if not re.fullmatch("[0-9]{1,10}", text):
            return Outcome(400)
        seconds = min(int(text), MAX_SECONDS)
        if not seconds:
            self.bindings.pop(digits, None)
            return None
        if seconds < MIN_SECONDS:
            return Outcome(423, (Field("min-expires", str(MIN_SECONDS)),))
        if digits not in self.bindings and len(self.bindings) >= MAX_BINDINGS:
            return Outcome(503)
        target = Target(contact_address.uri, request.source)
        self.bindings[digits] = Binding(target, self.now() + seconds, request.call_id, request.sequence.number)
        return None

    def outcome(self, digits: str) -> Outcome:
        binding = self.binding(digits)
        if binding is None:
            return Outcome(200)
        left = max(1, round(binding.until - self.now()))
        return Outcome(200, (Field("contact", f"<{binding.target.uri}>;expires={left}"),))
