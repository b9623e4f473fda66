"""SIP messages as RFC 3261 writes them: reading, writing, URIs and addresses.

`read_message` refuses a datagram with `Malformed`. Each value of a field that may be a list is a field. No text of
a message is in the words of `Malformed`: a URI may have a password.
"""

from __future__ import annotations

import os
import re
from collections.abc import Iterable, Mapping
from dataclasses import dataclass, replace
from typing import NamedTuple, Optional, Tuple

MAX_DATAGRAM = 8_192  # octets
MAX_FIELDS = 200
MAX_CSEQ = 1 << 31
DEFAULT_PORT = 5060

COMPACT = {
    "c": "content-type", "e": "content-encoding", "f": "from", "i": "call-id", "k": "supported", "l": "content-length",
    "m": "contact", "s": "subject", "t": "to", "v": "via",
}  # fmt: skip
LISTS = {"via", "route", "record-route", "contact", "allow", "supported", "require", "proxy-require"}
NAMES = {"call-id": "Call-ID", "cseq": "CSeq", "www-authenticate": "WWW-Authenticate"}
MANDATORY = ("via", "from", "to", "call-id", "cseq")

REASONS = {
    100: "Trying", 180: "Ringing", 183: "Session Progress", 200: "OK", 400: "Bad Request", 401: "Unauthorized",
    403: "Forbidden", 404: "Not Found", 405: "Method Not Allowed", 408: "Request Timeout", 410: "Gone",
    415: "Unsupported Media Type", 416: "Unsupported URI Scheme", 420: "Bad Extension", 423: "Interval Too Brief",
    480: "Temporarily Unavailable", 481: "Call/Transaction Does Not Exist", 482: "Loop Detected", 483: "Too Many Hops",
    484: "Address Incomplete", 486: "Busy Here", 487: "Request Terminated", 488: "Not Acceptable Here",
    491: "Request Pending", 500: "Server Internal Error", 501: "Not Implemented", 502: "Bad Gateway",
    503: "Service Unavailable", 504: "Server Time-out", 505: "Version Not Supported", 603: "Decline",
}  # fmt: skip

TOKEN = re.compile(r"[A-Za-z0-9.!%*_+`'~-]+")
HOST = r"(\[[0-9A-Fa-f:.]+\]|[A-Za-z0-9.-]+)"
URI = re.compile(r"(sips?):(?:([^@\s<>\"]*)@)?" + HOST + r"(?::([0-9]{1,5}))?((?:;[^?\s<>\"]*)?)(?:\?[^\s<>\"]*)?", re.I)
VIA = re.compile(r"SIP\s*/\s*2\.0\s*/\s*([A-Z]+)\s+" + HOST + r"(?:\s*:\s*([0-9]{1,5}))?\s*((?:;.*)?)", re.I)


class Malformed(Exception):
    """A datagram is not a SIP message, or a field is wrong. `request` can be answered with 400."""

    request: Optional[Received] = None


class Field(NamedTuple):
    """A field: its name in lower case, and its value."""

    name: str
    value: str


class SocketAddress(NamedTuple):
    """An address of IP, and a UDP port."""

    host: str
    port: int


class Sequence(NamedTuple):
    """The value of CSeq."""

    number: int
    method: str


Fields = Tuple[Field, ...]


def token(octets: int = 8) -> str:
    """A random token, for a tag, a branch or a Call-ID."""
    return os.urandom(octets).hex()


def split_outside(text: str, separator: str) -> list[str]:
    """The parts of a text at a separator outside quotes and angle brackets."""
    if '"' not in text and "<" not in text:
        return [part for part in map(str.strip, text.split(separator)) if part]
    parts: list[str] = []
    begin, quoted, angle, escaped = 0, False, False, False
    for at, char in enumerate(text):
        if escaped:
            escaped = False
        elif quoted:
            escaped = char == "\\"
            quoted = char != '"'
        elif char == '"':
            quoted = True
        elif char in "<>":
            angle = char == "<"
        elif char == separator and not angle:
            parts.append(text[begin:at])
            begin = at + 1
    parts.append(text[begin:])
    return [part for part in map(str.strip, parts) if part]


def read_parameters(text: str) -> dict[str, str]:
    """The parameters after the first semicolon of a text, by lower-case name."""
    found: dict[str, str] = {}
    for part in split_outside(text, ";"):
        name, _, value = part.partition("=")
        found.setdefault(name.strip().lower(), value.strip().strip('"'))
    return found


@dataclass(frozen=True)
class Uri:
    user: str
    host: str
    port: int

    @property
    def address(self) -> SocketAddress:
        return SocketAddress(self.host.strip("[]"), self.port)


def read_uri(text: str) -> Uri:
    found = URI.fullmatch(text.strip())
    if not found:
        raise Malformed("a URI is not of SIP")
    _, user, host, port, _ = found.groups()
    user = re.sub("%([0-9A-Fa-f]{2})", lambda code: chr(int(code[1], 16)), (user or "").partition(":")[0])
    return Uri(user.partition(";")[0], host, read_port(port))


def read_port(text: str | None) -> int:
    port = int(text or DEFAULT_PORT)
    if not 0 < port < 1 << 16:
        raise Malformed("a port is wrong")
    return port


@dataclass(frozen=True)
class NameAddress:
    """The value of a From, To, Contact, Route or Record-Route field."""

    uri: str
    parameters: Mapping[str, str]

    @property
    def tag(self) -> str:
        return self.parameters.get("tag", "")


def read_name_address(text: str) -> NameAddress:
    text = text.strip()
    quoted = re.match(r'"(?:[^"\\]|\\.)*"', text)
    begin = text.find("<", quoted.end() if quoted else 0)
    if begin < 0:
        uri, _, rest = text.partition(";")
        return NameAddress(uri.strip(), read_parameters(rest))
    end = text.find(">", begin)
    if end < 0:
        raise Malformed("an address has no >")
    return NameAddress(text[begin + 1 : end].strip(), read_parameters(text[end + 1 :]))


@dataclass(frozen=True)
class Via:
    host: str
    port: int
    parameters: Mapping[str, str]

    @property
    def sent_by(self) -> str:
        return f"{self.host.lower()}:{self.port}"

    @property
    def branch(self) -> str:
        return self.parameters.get("branch", "")


def read_via(text: str) -> Via:
    found = VIA.fullmatch(text.strip())
    if not found:
        raise Malformed("a Via is wrong")
    return Via(found[2], read_port(found[3]), read_parameters(found[4]))


@dataclass(frozen=True)
class Message:
    """A request, which has a method and a URI, or a response, which has a status."""

    method: str
    uri: str
    status: int
    reason: str
    fields: Fields
    body: bytes

    def get(self, name: str) -> str:
        """The value of the first field of a name; empty if there is none."""
        return next((value for key, value in self.fields if key == name), "")

    def has(self, name: str) -> bool:
        return any(key == name for key, _ in self.fields)

    def all(self, name: str) -> list[str]:
        return [value for key, value in self.fields if key == name]

    def text(self) -> bytes:
        first = f"{self.method} {self.uri} SIP/2.0" if self.method else f"SIP/2.0 {self.status} {self.reason}"
        lines = [first]
        lines += [f"{NAMES.get(name, name.title())}: {value}" for name, value in self.fields]
        lines += [f"Content-Length: {len(self.body)}", "", ""]
        return "\r\n".join(lines).encode("utf-8", "surrogateescape") + self.body


@dataclass(frozen=True)
class Received(Message):
    """A message that came, with what is read of its fields."""

    source: SocketAddress  # where it came from
    reply_to: SocketAddress  # where the responses to a request go
    via: Via
    sender: NameAddress  # From
    receiver: NameAddress  # To
    sequence: Sequence

    @property
    def call_id(self) -> str:
        return self.get("call-id")


def request(method: str, uri: str, fields: Iterable[Field], body: bytes = b"") -> Message:
    return Message(method, uri, 0, "", tuple(fields), body)


# ---- reading


def read_message(octets: bytes, source: SocketAddress) -> Received:
    """The message of a datagram that came from an address."""
    head, end, body = octets.partition(b"\r\n\r\n")
    if not end:
        raise Malformed("it has no empty line")
    text = re.sub(r"\r\n[ \t]+", " ", head.decode("utf-8", "surrogateescape")).lstrip("\r\n")
    bare = text.replace("\r\n", "")
    if "\0" in text or "\n" in bare or "\r" in bare:
        raise Malformed("it has a control character")
    first, *lines = text.split("\r\n")
    message = read_first_line(first, read_fields(lines))
    missing = [name for name in MANDATORY if not message.get(name)]
    if missing:
        raise Malformed(f"it has no {missing[0]}")
    return with_body(received(message, source), body)


def read_first_line(text: str, fields: Fields) -> Message:
    words = text.split(" ", 2)
    if words[0].upper() == "SIP/2.0":
        if len(words) < 2 or not re.fullmatch("[1-6][0-9][0-9]", words[1]):
            raise Malformed("its status is wrong")
        return Message("", "", int(words[1]), words[2] if len(words) > 2 else "", fields, b"")
    if len(words) < 3 or not TOKEN.fullmatch(words[0]) or words[2].upper() != "SIP/2.0":
        raise Malformed("its first line is wrong")
    return Message(words[0], words[1], 0, "", fields, b"")


def read_fields(lines: list[str]) -> Fields:
    if len(lines) > MAX_FIELDS:
        raise Malformed("it has too many fields")
    fields: list[Field] = []
    for line in lines:
        name, colon, value = line.partition(":")
        name = name.strip().lower()
        if not colon or not TOKEN.fullmatch(name):
            raise Malformed("a field has no name")
        name = COMPACT.get(name, name)
        values = split_outside(value, ",") if name in LISTS else [value.strip()]
        fields += [Field(name, part) for part in values]
    if len(fields) > MAX_FIELDS:
        raise Malformed("it has too many fields")
    return tuple(fields)


def received(message: Message, source: SocketAddress) -> Received:
    """A message with its addresses. The Via of a request says where it came from (RFC 3261, RFC 3581)."""
    via = read_via(message.get("via"))
    has_rport = "rport" in via.parameters
    fields = list(message.fields)
    if message.method:
        at = next(at for at, (name, _) in enumerate(fields) if name == "via")
        parts = [part for part in fields[at].value.split(";") if part.strip().lower() not in ("rport", "rport=")]
        parts += [f"received={source.host}"] if has_rport or via.host != source.host else []
        parts += [f"rport={source.port}"] if has_rport else []
        fields[at] = Field("via", ";".join(parts))
    return Received(
        method=message.method, uri=message.uri, status=message.status, reason=message.reason, fields=tuple(fields),
        body=b"", source=source, reply_to=source if has_rport else SocketAddress(source.host, via.port), via=via,
        sender=read_name_address(message.get("from")), receiver=read_name_address(message.get("to")), sequence=Sequence(0, ""),
    )  # fmt: skip


def with_body(message: Received, body: bytes) -> Received:
    """The message with its body and its CSeq; one that is wrong there can be answered."""
    try:
        sequence = read_sequence(message)
        length = message.get("content-length")
        if length and (not re.fullmatch("[0-9]{1,9}", length) or int(length) > len(body)):
            raise Malformed("Content-Length is wrong")
        if not message.sender.uri or not message.receiver.uri:
            raise Malformed("From or To has no URI")
        if message.method and not re.match(r"[A-Za-z][A-Za-z0-9+.-]*:\S", message.uri):
            raise Malformed("its URI is wrong")
    except Malformed as fault:
        fault.request = message if message.method else None
        raise
    return replace(message, body=body[: int(length)] if length else body, sequence=sequence)


def read_sequence(message: Received) -> Sequence:
    found = re.fullmatch(r"([0-9]{1,10})\s+(\S+)", message.get("cseq"))
    if not found or int(found[1]) >= MAX_CSEQ or message.method not in ("", found[2]):
        raise Malformed("CSeq is wrong")
    return Sequence(int(found[1]), found[2])


# ---- writing


def response(to: Received, status: int, tag: str = "", fields: Iterable[Field] = (), body: bytes = b"") -> Message:
    """The response to a request (RFC 3261)."""
    own = [Field("via", value) for value in to.all("via")]
    if 100 < status < 300:
        own += [Field("record-route", value) for value in to.all("record-route")]
    receiver = to.get("to")
    if tag and status > 100 and not to.receiver.tag:
        receiver += f";tag={tag}"
    own += [Field("from", to.get("from")), Field("to", receiver)]
    own += [Field(name, to.get(name)) for name in ("call-id", "cseq")]
    return Message("", "", status, REASONS.get(status, "Unknown"), (*own, *fields), body)


def reason(cause: int | None) -> list[Field]:
    """The Reason field of a cause (RFC 3326)."""
    return [Field("reason", f"Q.850;cause={cause}")] if cause else []


def q850_cause(message: Message) -> int | None:
    """The cause that a message gives in Reason (RFC 3326); None if it gives none."""
    for value in message.all("reason"):
        protocol, _, rest = value.partition(";")
        cause = read_parameters(rest).get("cause", "")
        if protocol.strip().lower() == "q.850" and re.fullmatch("[0-9]{1,3}", cause) and 0 < int(cause) < 128:
            return int(cause)
    return None
