"""What the tests of tools/sip share: a gateway in this process by a clock of the test, a line of an exchange that makes
frames when the test says so, and telephones on UDP ports of this machine that read and write SIP by themselves."""

from __future__ import annotations

import hashlib
import re
import socket
import struct
from collections.abc import Callable, Mapping, Sequence
from dataclasses import dataclass, field
from typing import Protocol
from unittest import mock

from support import IDLE, InFolder
from nemzhuul.live.wire import Address
from nemzhuul.signalling.q931 import (
    CALLED_PARTY_NUMBER,
    CALLING_PARTY_NUMBER,
    CALL_PROCEEDING,
    CONNECT,
    CONNECT_ACKNOWLEDGE,
    SETUP,
    Element,
    Message,
    channel_identification,
    number,
    read_message,
    write_message,
)
from nemzhuul.sip.gateway import Gateway
from nemzhuul.sip.options import Settings
from nemzhuul.sip.messages import SocketAddress
from nemzhuul.sip.users import read_users

PLACES = 30
PERIOD = 160  # frames
HOST = "127.0.0.1"
USERS = ("101 one-secret", "102 two-secret", "103 three-secret")
ALL_TIMERS = 100  # seconds after which each timer of a call has ended


class Clock:
    def __init__(self) -> None:
        self.time = 1000.0

    def __call__(self) -> float:
        return self.time


@dataclass
class Sip:
    """A message of SIP: its first line, its fields with names in lower case, and its body."""

    first: str
    fields: list[tuple[str, str]]
    body: bytes = b""

    def __getitem__(self, name: str) -> str:
        return next((value for key, value in self.fields if key == name), "")

    @property
    def status(self) -> int:
        return int(self.first.split()[1]) if self.first.startswith("SIP") else 0

    @property
    def method(self) -> str:
        return self.first.split()[0]

    @property
    def tag(self) -> str:
        found = re.search(r"tag=([^;>]*)", self["to"])
        return found[1] if found else ""

    @property
    def media_port(self) -> int:
        found = re.search(rb"m=audio ([0-9]+)", self.body)
        assert found, self.body
        return int(found[1])


def read_sip(octets: bytes) -> Sip:
    head, _, body = octets.partition(b"\r\n\r\n")
    first, *lines = head.decode("utf-8", "surrogateescape").split("\r\n")
    pairs = (line.partition(":") for line in lines)
    return Sip(first, [(name.strip().lower(), value.strip()) for name, _, value in pairs], body)


def description(port: int, kinds: str = "8", more: Sequence[str] = (), host: str = HOST) -> bytes:
    """A session description of one stream."""
    lines = ["v=0", f"o=- 1 1 IN IP4 {host}", "s=-", f"c=IN IP4 {host}", "t=0 0", f"m=audio {port} RTP/AVP {kinds}", *more, ""]
    return "\r\n".join(lines).encode()


def udp() -> socket.socket:
    end = socket.socket(socket.AF_INET, socket.SOCK_DGRAM)
    end.bind((HOST, 0))
    end.setblocking(False)
    return end


def port_of(end: socket.socket) -> int:
    port: int = end.getsockname()[1]
    return port


def md5(text: str) -> str:
    return hashlib.md5(text.encode()).hexdigest()


def authorization(challenge: str, digits: str, password: str, method: str, uri: str, count: int = 1) -> str:
    """The reply to a challenge, by RFC 2617."""
    found = re.search(r'realm="([^"]*)", nonce="([^"]*)"', challenge)
    assert found, challenge
    realm, nonce = found.groups()
    first, second = md5(f"{digits}:{realm}:{password}"), md5(f"{method}:{uri}")
    response = md5(f"{first}:{nonce}:{count:08x}:abc:auth:{second}")
    return (
        f'Digest username="{digits}", realm="{realm}", nonce="{nonce}", uri="{uri}", response="{response}", '
        f'qop=auth, nc={count:08x}, cnonce="abc", algorithm=MD5'
    )


@dataclass
class Talk:
    """A dialog of a telephone."""

    call_id: str
    own: str  # From of its requests
    other: str  # To of its requests
    uri: str
    number: int = 1
    answer: Sip = field(default_factory=lambda: Sip("", []))


class Side(Protocol):
    """The gateway, as a telephone sees it."""

    @property
    def address(self) -> SocketAddress: ...

    def pump(self) -> None:
        """Has the gateway do all that there is to do."""

    def addCleanup(self, function: Callable[[], object], /) -> None: ...


class Telephone:
    """A telephone: a socket for SIP, one for speech, and what came."""

    count = 0

    def __init__(self, test: Side, digits: str, password: str = "") -> None:
        self.test, self.digits, self.password = test, digits, password
        self.sip, self.media = udp(), udp()
        test.addCleanup(self.sip.close)
        test.addCleanup(self.media.close)
        self.sequence = 0

    @property
    def port(self) -> int:
        return port_of(self.sip)

    # ---- SIP

    def send(self, text: bytes) -> None:
        self.sip.sendto(text, self.test.address)
        self.test.pump()

    def get(self) -> Sip | None:
        """The next message that has come."""
        try:
            return read_sip(self.sip.recv(65_536))
        except BlockingIOError:
            return None

    def all(self) -> list[Sip]:
        found = []
        while (message := self.get()) is not None:
            found.append(message)
        return found

    def statuses(self) -> list[int]:
        return [message.status for message in self.all()]

    def text(self, method: str, talk: Talk, more: Sequence[str] = (), body: bytes = b"", branch: str = "") -> bytes:
        Telephone.count += 1
        lines = [
            f"{method} {talk.uri} SIP/2.0",
            f"Via: SIP/2.0/UDP {HOST}:{self.port};branch={branch or f'z9hG4bK{Telephone.count}'};rport",
            "Max-Forwards: 70",
            f"From: {talk.own}",
            f"To: {talk.other}",
            f"Call-ID: {talk.call_id}",
            f"CSeq: {talk.number} {method}",
            f"Contact: <sip:{self.digits}@{HOST}:{self.port}>",
            *more,
            f"Content-Length: {len(body)}",
        ]
        return "\r\n".join([*lines, "", ""]).encode() + body

    def talk(self, digits: str) -> Talk:
        Telephone.count += 1
        own = f"<sip:{self.digits}@{HOST}>;tag=t{Telephone.count}"
        return Talk(f"call{Telephone.count}@{HOST}", own, f"<sip:{digits}@{HOST}>", f"sip:{digits}@{HOST}")

    def proves(self, method: str, talk: Talk, more: Sequence[str] = (), body: bytes = b"") -> str:
        """Sends a request, and again with the reply to its challenge. Returns the branch."""
        self.send(self.text(method, talk, more, body))
        challenge = self.get()
        assert challenge is not None and challenge.status == 401, challenge
        talk.number += 1
        words = authorization(challenge["www-authenticate"], self.digits, self.password, method, talk.uri)
        branch = f"z9hG4bKproved{Telephone.count}"
        self.send(self.text(method, talk, [f"Authorization: {words}", *more], body, branch))
        return branch

    def register(self, seconds: int = 3600) -> list[int]:
        """Registers, and returns the statuses."""
        talk = self.talk(self.digits)
        talk.uri = f"sip:{HOST}"
        self.proves("REGISTER", talk, [f"Expires: {seconds}"])
        return self.statuses()

    def calls(self, digits: str, body: bytes | None = None) -> Talk:
        """Calls a number, with the stream of its own socket."""
        talk = self.talk(digits)
        offer = description(port_of(self.media)) if body is None else body
        self.proves("INVITE", talk, ["Content-Type: application/sdp"] if offer else [], offer)
        return talk

    def acknowledges(self, talk: Talk, answer: Sip, body: bytes = b"") -> None:
        talk.answer, talk.other = answer, answer["to"]
        self.send(self.text("ACK", talk, body=body))

    def answers(self, status: int, request: Sip, body: bytes = b"", more: Sequence[str] = (), branch: str = "") -> None:
        """Responds to a request that came, as one of the telephones that a proxy has sent it to."""
        lines = [f"SIP/2.0 {status} R", *(f"Via: {value}" for name, value in request.fields if name == "via")]
        tag = "" if request.tag or status == 100 else f";tag=called{self.digits}{branch}"
        lines += [f"From: {request['from']}", f"To: {request['to']}{tag}"]
        lines += [f"Call-ID: {request['call-id']}", f"CSeq: {request['cseq']}"]
        contact = [] if any(field.startswith("Contact:") for field in more) else [f"Contact: <sip:{self.digits}@{HOST}:{self.port}>"]
        lines += [*contact, *more, f"Content-Length: {len(body)}", "", ""]
        self.send("\r\n".join(lines).encode() + body)

    def within(self, method: str, talk: Talk, body: bytes = b"", more: Sequence[str] = ()) -> None:
        talk.number += 1
        self.send(self.text(method, talk, more, body))

    # ---- speech

    def speaks(self, octets: bytes, port: int, at: int = 0, kind: int = 8, end: socket.socket | None = None) -> None:
        """Sends a packet of speech, whose first octet has a time stamp."""
        head = struct.pack("!BBHII", 0x80, kind, at // PERIOD & 0xFFFF, at, 7)
        (end or self.media).sendto(head + octets, (HOST, port))

    def hears(self) -> bytes:
        """The octets of the packets that have come."""
        found = b""
        while True:
            try:
                found += self.media.recv(2_048)[12:]
            except BlockingIOError:
                return found


class GatewayTest(InFolder):
    """A gateway, and the line of the exchange that it is attached to."""

    LINES: Sequence[str] = USERS
    LEAD = 0

    def setUp(self) -> None:
        super().setUp()
        self.said: list[str] = []
        for module in ("gateway", "lines"):
            saying = mock.patch(f"nemzhuul.sip.{module}.say", self.said.append)
            saying.start()
            self.addCleanup(saying.stop)
        self.clock = Clock()
        users = read_users("users", self.LINES)
        settings = Settings([self.listen()], users, SocketAddress(HOST, 0), lead=self.LEAD)
        self.gateway = Gateway(settings, self.clock)
        self.addCleanup(self.gateway.close)
        self.accept()

    def listen(self) -> Address:
        """Has the exchange listen for the endpoint of its line."""
        self.listener = socket.socket(socket.AF_UNIX)
        self.addCleanup(self.listener.close)
        path = str(self.folder / "line")
        self.listener.bind(path)
        self.listener.listen()
        return Address(f"unix:{path}", path)

    @property
    def address(self) -> SocketAddress:
        return self.gateway.transport.address

    def accept(self) -> None:
        self.line, _ = self.listener.accept()
        self.addCleanup(self.line.close)
        self.line.setblocking(False)
        self.begun = b""
        self.frames: list[bytes] = []
        self.messages: list[Message] = []
        self.silences = 0  # how often it has said that no frames follow
        self.line.sendall(b"line 0\n")
        self.pump()

    def pump(self) -> None:
        """Has the gateway do all that there is to do."""
        gateway = self.gateway
        gateway.timers.act()
        while gateway.loop.selector.select(0):
            gateway.loop.wait(0)
            gateway.timers.act()
        self.read()

    def passes(self, seconds: float) -> None:
        """Time passes, from each timer to the next."""
        end = self.clock.time + seconds
        while self.clock.time < end:
            heap = self.gateway.timers.heap
            self.clock.time = min(end, max(self.clock.time, heap[0][0])) if heap else end
            self.pump()

    def read(self) -> None:
        """Takes what the gateway has sent on the line."""
        try:
            text = self.begun + self.line.recv(1 << 22)
        except BlockingIOError:
            return
        *lines, self.begun = text.split(b"\n")
        for line in lines:
            if line.startswith(b"M "):
                message = read_message(bytes.fromhex(line[2:].decode()))
                assert message is not None
                self.messages.append(message)
            elif line == b"F none":
                self.silences += 1
            else:
                self.frames.append(bytes.fromhex(line[2:].decode()))

    def message(self, kind: int) -> Message:
        """The next message that the gateway has sent, which is of this kind."""
        self.pump()
        assert self.messages, "the gateway has sent no message"
        message = self.messages.pop(0)
        self.assertEqual(message.kind, kind, message.name)
        return message

    def sends(self, flag: int, reference: int, kind: int, *elements: Element) -> None:
        """The exchange sends a message."""
        self.line.sendall(b"M " + write_message(flag, reference, kind, *elements).hex().encode() + b"\n")
        self.pump()

    def period(self, octets: Mapping[int, bytes] | None = None) -> list[bytes]:
        """The exchange makes the frames of a period, with these octets by place. Returns the frames that it gets."""
        rows = bytearray([IDLE]) * (PLACES * PERIOD)
        for place, some in (octets or {}).items():
            rows[place::PLACES] = some
        self.frames.clear()
        text = b"".join(b"F " + rows[at : at + PLACES].hex().encode() + b"\n" for at in range(0, len(rows), PLACES))
        self.line.sendall(text)
        self.pump()
        return list(self.frames)

    def telephone(self, at: int) -> Telephone:
        digits, password = USERS[at].split()
        return Telephone(self, digits, password)

    # ---- calls

    def answered(self, telephone: Telephone, digits: str = "102", channel: int = 3) -> tuple[Talk, Message]:
        """A call of a telephone that the exchange answers."""
        talk = telephone.calls(digits)
        setup = self.message(SETUP)
        self.sends(1, setup.reference, CALL_PROCEEDING, channel_identification(channel))
        self.sends(1, setup.reference, CONNECT)
        self.message(CONNECT_ACKNOWLEDGE)
        *_, answer = telephone.all()
        self.assertEqual(answer.status, 200)
        telephone.acknowledges(talk, answer)
        return talk, setup

    def called(self, telephone: Telephone, digits: str, caller: str = "101", channel: int = 5, reference: int = 9) -> Sip:
        """A call of the exchange to a registered telephone. Returns its INVITE."""
        elements = [channel_identification(channel), number(CALLING_PARTY_NUMBER, caller), number(CALLED_PARTY_NUMBER, digits)]
        self.sends(0, reference, SETUP, *elements)
        self.message(CALL_PROCEEDING)
        invite = telephone.get()
        assert invite is not None
        self.assertEqual(invite.method, "INVITE")
        return invite


class ClearedTest(GatewayTest):
    """A test at whose end the gateway has no call, no transaction and no dialog left, and has printed no password."""

    def tearDown(self) -> None:
        for line in self.gateway.lines:
            for call in list(line.calls.values()):
                call.drop()
        self.passes(ALL_TIMERS)
        gateway = self.gateway
        self.assertEqual((gateway.lines[0].calls, gateway.lines[0].streams, gateway.dialogs), ({}, [], {}))
        self.assertEqual((gateway.transport.servers, gateway.transport.clients), ({}, {}))
        for user in USERS:
            _, password = user.split()
            self.assertNotIn(password, "\n".join([*self.said, gateway.text(), repr(gateway.settings)]))
