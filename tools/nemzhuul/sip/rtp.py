"""A stream of RTP (RFC 3550) with G.711, between a telephone and a bearer channel. The frames of the exchange drive it.

It sends to the address and port of the call's description. It takes packets from that port only, of that address or of
the address that the call is signalled from. Octets of A-law go through it as they are.
"""

from __future__ import annotations

import errno
import os
import socket
import struct
from collections import Counter
from collections.abc import Callable

from nemzhuul.sip.dtmf import KEYS, PROMPT, Tones
from nemzhuul.sip.jitter import MILLISECOND, Depths, JitterBuffer
from nemzhuul.sip.messages import SocketAddress
from nemzhuul.sip.mu_law import A_OF_MU, MU_OF_A
from nemzhuul.sip.sdp import PCMA, PCMU, Media
from nemzhuul.traces.events import IDLE

HEAD = struct.Struct("!BBHII")
MAX_PACKET = 2_048  # octets
MAX_PACKETS = 100  # of a stream in a period
MARKER = 0x80
COUNTS = ("sent", "received", "lost", "late", "other", "dropped", "gaps", "slips", "failed")


class Ports:
    """Even UDP ports of an address, each of which is taken for a stream."""

    def __init__(self, host: str, first: int, last: int) -> None:
        self.host = host
        self.numbers = range(first + first % 2, last, 2)
        self.next = 0

    def open(self) -> socket.socket:
        for _ in self.numbers:
            port = self.numbers[self.next % len(self.numbers)]
            self.next += 1
            end = socket.socket(socket.AF_INET, socket.SOCK_DGRAM)
            try:
                end.bind((self.host, port))
            except OSError as error:
                end.close()
                if error.errno != errno.EADDRINUSE:
                    raise
                continue
            end.setblocking(False)
            return end
        raise OSError(errno.EADDRINUSE, "no port is free")


class Stream:
    """The octets of a channel, both ways. In each period, `take_octets` takes what the exchange sent, and `play` gives what it gets."""

    def __init__(self, ports: Ports, depths: Depths, on_key: Callable[[str], object]) -> None:
        self.socket = ports.open()
        self.address = SocketAddress(*self.socket.getsockname())
        self.channel_place: int | None = None  # among the places of the line
        self.media: Media | None = None
        self.sources: tuple[SocketAddress, ...] = ()  # from which packets are taken
        self.sequence = int.from_bytes(os.urandom(2), "big")
        self.timestamp = int.from_bytes(os.urandom(4), "big")
        self.ssrc = int.from_bytes(os.urandom(4), "big")
        self.marker = MARKER
        self.unsent = bytearray()
        self.buffer = JitterBuffer(depths)
        self.tones = Tones()
        self.prompt = Tones(PROMPT)  # for the telephone, while it has no channel
        self.on_key = on_key
        self.key_timestamp: int | None = None
        self.quiet = 0  # octets since a packet came
        self.sent = self.received = self.other = self.failed = 0

    def agree(self, media: Media, host: str) -> None:
        """Takes what was agreed on with the other side, whose signalling comes from a host."""
        if self.media is None or self.media.payload_type != media.payload_type:
            self.unsent.clear()
        self.media = media
        self.sources = (media.address, SocketAddress(host, media.address.port)) if media.gives_octets else ()

    def close(self) -> None:
        self.socket.close()

    def counts(self) -> Counter[str]:
        own, buffer = self, self.buffer
        return Counter(
            sent=own.sent, received=own.received, other=own.other, failed=own.failed, lost=buffer.lost, late=buffer.late,
            dropped=buffer.dropped, gaps=buffer.gaps, slips=buffer.slips,
        )  # fmt: skip

    # ---- to the telephone

    def take_octets(self, octets: bytes) -> None:
        """Takes octets that the exchange sent, and sends whole packets."""
        media = self.media
        if media is None:
            return
        self.unsent += octets if media.payload_type == PCMA else octets.translate(MU_OF_A)
        size = media.ptime * MILLISECOND
        while len(self.unsent) >= size:
            if media.wants_octets:
                self.send_packet(media, bytes(self.unsent[:size]))
            else:
                self.marker = MARKER
            self.timestamp = self.timestamp + size & 0xFFFFFFFF
            del self.unsent[:size]

    def send_packet(self, media: Media, octets: bytes) -> None:
        head = HEAD.pack(0x80, media.payload_type | self.marker, self.sequence, self.timestamp, self.ssrc)
        self.marker = 0
        self.sequence = self.sequence + 1 & 0xFFFF
        try:
            self.socket.sendto(head + octets, media.address)
            self.sent += 1
        except OSError:
            self.failed += 1

    # ---- from the telephone

    def receive(self) -> None:
        """Takes the packets that have come, and not more than belong to a second or two."""
        for _ in range(MAX_PACKETS):
            try:
                packet, source = self.socket.recvfrom(MAX_PACKET)
            except BlockingIOError:
                return
            except OSError:  # an earlier packet did not reach its port
                self.failed += 1
                continue
            if self.media is not None and source in self.sources:
                self.take(packet, self.media)
            else:
                self.other += 1

    def take(self, packet: bytes, media: Media) -> None:
        if len(packet) < HEAD.size or packet[0] >> 6 != 2:
            self.other += 1
            return
        _, payload_type, _, timestamp, ssrc = HEAD.unpack_from(packet)
        payload = payload_of(packet)
        payload_type &= 0x7F
        if payload_type == media.keys and len(payload) >= 4:
            self.take_key(payload[0], timestamp)
        elif payload_type in (PCMA, PCMU) and payload:
            self.received += 1
            self.quiet = 0
            self.buffer.put(payload if payload_type == PCMA else payload.translate(A_OF_MU), timestamp, ssrc)
        else:
            self.other += 1

    def take_key(self, code: int, timestamp: int) -> None:
        """A telephone event is played as a tone. Its packets all have the timestamp of its start."""
        self.quiet = 0
        if timestamp != self.key_timestamp and code < len(KEYS):
            self.key_timestamp = timestamp
            self.on_key(KEYS[code])

    # ---- without a channel

    def pass_by(self, count: int) -> None:
        """Frames pass in which the telephone hears a prompt, and only its keys are taken."""
        self.take_octets(self.prompt.over(bytes([IDLE]) * count, count))
        self.receive()
        self.buffer.play(count)

    # ---- to the exchange

    def play(self, count: int) -> bytes:
        """The next octets for the channel; fewer if there are no more, and the rest is idle."""
        self.quiet += count
        return self.tones.over(self.buffer.play(count), count)


def payload_of(packet: bytes) -> bytes:
    """The payload of a packet; empty if the packet is malformed."""
    at = HEAD.size + 4 * (packet[0] & 15)
    if packet[0] & 0x10:
        if len(packet) < at + 4:
            return b""
        at += 4 + 4 * int.from_bytes(packet[at + 2 : at + 4], "big")
    return packet[at : max(0, len(packet) - (packet[-1] if packet[0] & 0x20 else 0))]
