"""Session descriptions (RFC 4566) with one stream of G.711, and the answers to offers (RFC 3264)."""

from __future__ import annotations

import ipaddress
import re
from collections.abc import Sequence
from dataclasses import dataclass

from nemzhuul.sip.limits import ANYWHERE, MIN_MEDIA_PORT
from nemzhuul.sip.messages import SocketAddress

PCMA, PCMU = 8, 0
NAMES = {PCMA: "PCMA", PCMU: "PCMU"}
BACK = {"sendonly": "recvonly", "recvonly": "sendonly"}
DIRECTION = re.compile(r"^a=(sendrecv|sendonly|recvonly|inactive)[ \t]*$", re.M)
ADDRESS = re.compile(r"^c=IN IP4 ([0-9.]{1,15})[ \t]*$", re.M)
STREAM = re.compile(r"m=audio ([0-9]{1,5})(?:/[0-9]{1,5})? RTP/AVP((?: [0-9]{1,3})+)[ \t]*\n?")
EVENTS = re.compile(r"^a=rtpmap:([0-9]{1,3}) telephone-event/8000", re.M | re.I)
PTIME = re.compile(r"^a=ptime:([0-9]{1,3})[ \t]*$", re.M)
MAX_MEDIA = 20
MIN_PTIME, DEFAULT_PTIME, MAX_PTIME = 10, 20, 60  # milliseconds
KEYS = 101  # the payload type of telephone events that this side chooses


class Unacceptable(Exception):
    """A description has no stream of G.711 over RTP on IPv4, to a port that a telephone can have."""


@dataclass(frozen=True)
class Media:
    """What a description says of its first acceptable audio stream."""

    address: SocketAddress
    payload_type: int
    direction: str  # of the other side
    keys: int | None  # the payload type of telephone events
    ptime: int
    parts: tuple[str, ...]  # the m= lines of the description
    at: int  # which of them it is

    @property
    def wants_octets(self) -> bool:
        """Whether the other side receives."""
        return self.direction in ("sendrecv", "recvonly") and self.address.host != ANYWHERE

    @property
    def gives_octets(self) -> bool:
        """Whether the other side sends."""
        return self.direction in ("sendrecv", "sendonly") and self.address.host != ANYWHERE


def read_sdp(body: bytes) -> Media:
    text = body.decode("utf-8", "replace").replace("\r\n", "\n")
    session, *parts = re.split(r"^(?=m=)", text, flags=re.M)
    if not text.startswith("v=0\n") or len(parts) > MAX_MEDIA:
        raise Unacceptable("no description")
    for at, part in enumerate(parts):
        media = read_media(session, part, parts, at)
        if media is not None:
            return media
    raise Unacceptable("no stream of G.711")


def read_media(session: str, part: str, parts: Sequence[str], at: int) -> Media | None:
    words = STREAM.match(part)
    if not words or not MIN_MEDIA_PORT <= int(words[1]) < 1 << 16:
        return None
    types = [int(word) for word in words[2].split()]
    payload_type = next((number for number in types if number in NAMES), None)
    host = read_host(session, part)
    if payload_type is None or host is None:
        return None
    found = DIRECTION.search(part) or DIRECTION.search(session)
    direction = found[1] if found else "sendrecv"
    if host == ANYWHERE:  # hold as RFC 2543 had it
        direction = "inactive" if direction in ("inactive", "recvonly") else "sendonly"
    events = EVENTS.search(part)
    keys = int(events[1]) if events and int(events[1]) in types else None
    ptime = PTIME.search(part)
    milliseconds = int(ptime[1]) if ptime else DEFAULT_PTIME
    if not MIN_PTIME <= milliseconds <= MAX_PTIME:
        milliseconds = DEFAULT_PTIME
    first_lines = tuple(part.split("\n")[0] for part in parts)
    return Media(SocketAddress(host, int(words[1])), payload_type, direction, keys, milliseconds, first_lines, at)


def read_host(session: str, part: str) -> str | None:
    """The address of IPv4 of a stream. A name is never resolved."""
    where = ADDRESS.search(part) or ADDRESS.search(session)
    try:
        return str(ipaddress.IPv4Address(where[1])) if where else None
    except ValueError:
        return None


def offer(address: SocketAddress, version: int = 1) -> bytes:
    return written(address, version, [stream_lines(address.port, (PCMA, PCMU), KEYS, DEFAULT_PTIME, "sendrecv")])


def answer(media: Media, address: SocketAddress, version: int = 1) -> bytes:
    """The answer to an offer: its stream is taken, and each other one refused."""
    streams = []
    for at, first in enumerate(media.parts):
        if at == media.at:
            direction = BACK.get(media.direction, media.direction)
            streams.append(stream_lines(address.port, (media.payload_type,), media.keys, media.ptime, direction))
        else:
            streams.append([re.sub(r"^(m=\S+) \S+", r"\1 0", first)])
    return written(address, version, streams)


def stream_lines(port: int, types: Sequence[int], keys: int | None, ptime: int, direction: str) -> list[str]:
    events = [] if keys is None else [keys]
    lines = [f"m=audio {port} RTP/AVP {' '.join(map(str, [*types, *events]))}"]
    lines += [f"a=rtpmap:{number} {NAMES[number]}/8000" for number in types]
    if keys is not None:
        lines += [f"a=rtpmap:{keys} telephone-event/8000", f"a=fmtp:{keys} 0-15"]
    return [*lines, f"a=ptime:{ptime}", f"a={direction}"]


def written(address: SocketAddress, version: int, streams: Sequence[Sequence[str]]) -> bytes:
    lines = ["v=0", f"o=- {address.port} {version} IN IP4 {address.host}", "s=-", f"c=IN IP4 {address.host}", "t=0 0"]
    return "\r\n".join([*lines, *(line for stream in streams for line in stream), ""]).encode("utf-8", "replace")
