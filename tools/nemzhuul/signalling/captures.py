"""Capture files of libpcap, in its two formats, and the messages of ITU-T Q.931 over LAPD in them."""

from __future__ import annotations

import struct
from collections import Counter
from collections.abc import Collection, Iterator
from dataclasses import dataclass
from fractions import Fraction
from pathlib import Path
from typing import NamedTuple

from nemzhuul.command_line import Refused, watch
from nemzhuul.signalling.lapd import I_FRAME_HEADER, MODULUS, LinkFrame, read_address, write_frame
from nemzhuul.traces.events import FRAMES_PER_SECOND

MAGIC = 0xA1B2C3D4  # of a pcap file with microseconds, in the order of octets that its writer uses
NANOSECONDS = 0xA1B23C4D  # of one with nanoseconds
VERSION = (2, 4)
MAX_PACKET = 65_535
FILE_HEADER, PACKET_HEADER = 24, 16

SECTION, INTERFACE, SIMPLE_PACKET, PACKET = 0x0A0D0D0A, 1, 3, 6  # the blocks of a pcapng file
SECTION_MAGIC = 0x1A2B3C4D
TIME_RESOLUTION = 9  # the option of an interface

LINUX_LAPD = 177  # the link type: 16 octets in front of a LAPD frame without its check sequence
LAPD = 203  # the link type without them
PSEUDO_HEADER = 16

TO_US = 0  # the types of packet of the pseudo header
FROM_US = 4
LAPD_HARDWARE = 8445  # ARPHRD_LAPD
LAPD_PROTOCOL = 0x0030  # ETH_P_LAPD
NETWORK_SIDE = 1  # first octet of the address: the capture was taken at the network side

MICROSECONDS = 1_000_000
MICROSECONDS_PER_FRAME = MICROSECONDS // FRAMES_PER_SECOND


@dataclass(frozen=True)
class Packet:
    """A packet of a capture."""

    time: Fraction | None  # in seconds
    link: int
    octets: bytes


@dataclass(frozen=True)
class Signal:
    """A message of a capture."""

    packet: int  # counted from 1
    time: Fraction | None  # in seconds
    terminal: int  # the TEI of its endpoint
    is_from_user: bool
    octets: bytes


class Interface(NamedTuple):
    """An interface of a pcapng file: its link type, and how many ticks a second has."""

    link: int
    ticks: int


class Block(NamedTuple):
    """A block of a pcapng file: its kind, and what is between its two lengths."""

    kind: int
    body: bytes


def read_capture(path: str) -> list[Signal]:
    """The messages of signalling in a capture: the information of each I frame of SAPI 0, in order."""
    content = Path(path).read_bytes()
    for order in "<>":
        magic = struct.unpack_from(order + "I", content)[0] if len(content) >= 4 else None
        if magic in (MAGIC, NANOSECONDS):
            packets = list(read_packets(path, content, order, 10**6 if magic == MAGIC else 10**9))
            break
        if magic == SECTION:
            packets = list(read_blocks(path, content))
            break
    else:
        raise Refused(f"{path} is no capture")
    signals = []
    for number, packet in enumerate(watch(packets, path), start=1):
        signal = read_signal(path, number, packet)
        if signal is not None:
            signals.append(signal)
    return signals


def link_type(path: str, link: int) -> int:
    """The link type of a capture, which has to be one of LAPD."""
    link &= 0xFFFF  # the upper bits tell of check sequences
    if link not in (LINUX_LAPD, LAPD):
        raise Refused(f"{path} has link type {link}, and neither LINUX_LAPD ({LINUX_LAPD}) nor LAPD ({LAPD})")
    return link


def whole_packet(path: str, number: int, octets: bytes, whole: int) -> bytes:
    """The octets of a packet, none of which the capture left out."""
    if len(octets) < whole:
        raise Refused(f"{path} has {len(octets)} of the {whole} octets of packet {number}")
    return octets


# ---- pcap


def read_packets(path: str, content: bytes, order: str, ticks: int) -> Iterator[Packet]:
    """The packets of a pcap file, whose times count this number of ticks a second."""
    if len(content) < FILE_HEADER:
        raise Refused(f"{path} is no capture: its header is cut short")
    (link,) = struct.unpack_from(order + "I", content, FILE_HEADER - 4)
    link = link_type(path, link)
    at, number = FILE_HEADER, 0
    while at < len(content):
        number += 1
        if at + PACKET_HEADER > len(content):
            raise Refused(f"{path} ends within the header of packet {number}")
        seconds, rest, length, whole = struct.unpack_from(order + "IIII", content, at)
        at += PACKET_HEADER
        if at + length > len(content):
            raise Refused(f"{path} ends within packet {number}")
        octets = whole_packet(path, number, content[at : at + length], whole)
        yield Packet(seconds + Fraction(rest, ticks), link, octets)
        at += length


# ---- pcapng


def read_blocks(path: str, content: bytes) -> Iterator[Packet]:
    """The packets of a pcapng file, in enhanced and in simple packet blocks of every section."""
    at, number, order = 0, 0, "<"
    interfaces: list[Interface] = []  # of the section
    while at < len(content):
        if content[at : at + 4] == struct.pack(">I", SECTION):  # reads the same in either order
            order = section_order(path, content, at)
            interfaces = []
        block = read_block(path, content, at, order)
        if block.kind == INTERFACE:
            interfaces.append(read_interface(path, block.body, order))
        elif block.kind in (PACKET, SIMPLE_PACKET):
            number += 1
            yield read_block_packet(path, number, block, order, interfaces)
        at += len(block.body) + 12


def section_order(path: str, content: bytes, at: int) -> str:
    """The order of octets of the section that begins here."""
    for order in "<>":
        if content[at + 8 : at + 12] == struct.pack(order + "I", SECTION_MAGIC):
            return order
    raise Refused(f"{path} is no capture: a section has no order of octets")


def read_block(path: str, content: bytes, at: int, order: str) -> Block:
    """The block that begins here."""
    kind, length = struct.unpack_from(order + "II", content, at) if at + 8 <= len(content) else (0, 0)
    if length < 12 or length % 4 or at + length > len(content):
        raise Refused(f"{path} is cut short or damaged at octet {at}")
    return Block(kind, content[at + 8 : at + length - 4])


def read_interface(path: str, body: bytes, order: str) -> Interface:
    """The interface of a block. Its ticks are microseconds, if no option says otherwise."""
    link = struct.unpack_from(order + "H", body.ljust(8, b"\0"))[0]
    at, ticks = 8, 10**6
    while at + 4 <= len(body):
        code, length = struct.unpack_from(order + "HH", body, at)
        if code == TIME_RESOLUTION and length == 1:
            exponent = body[at + 4] & 0x7F
            ticks = 2**exponent if body[at + 4] & 0x80 else 10**exponent
        at += 4 + length + -length % 4
    return Interface(link_type(path, link), ticks)


def read_block_packet(path: str, number: int, block: Block, order: str, interfaces: list[Interface]) -> Packet:
    """The packet of a block; a simple one is of the first interface, and has no time."""
    body = block.body
    interface, time, start, length, whole = 0, None, 4, 0, 0
    if block.kind == PACKET and len(body) >= 20:
        interface, high, low, length, whole = struct.unpack_from(order + "IIIII", body)
        time, start = high << 32 | low, 20
    elif block.kind == SIMPLE_PACKET and len(body) >= 4:
        (whole,) = struct.unpack_from(order + "I", body)
        length = min(whole, len(body) - start)
    if start + length > len(body) or interface >= len(interfaces):
        raise Refused(f"{path} has a damaged packet {number}")
    link, ticks = interfaces[interface]
    octets = whole_packet(path, number, body[start : start + length], whole)
    return Packet(None if time is None else Fraction(time, ticks), link, octets)


# ---- LAPD


def read_signal(path: str, number: int, packet: Packet) -> Signal | None:
    """The message in a packet; None where it is no I frame of signalling."""
    header = PSEUDO_HEADER if packet.link == LINUX_LAPD else 0
    frame = packet.octets[header:]
    if len(frame) < 3:
        raise Refused(f"{path} has a packet {number} that is too short for a frame of LAPD")
    address = read_address(frame)
    if address.sapi != 0 or frame[2] & 1:
        return None
    if len(frame) < I_FRAME_HEADER:
        raise Refused(f"{path} has a packet {number} that is too short for an I frame")
    is_from_user = address.cr == 0  # C/R of a command is 1 from the network
    return Signal(number, packet.time, address.tei, is_from_user, frame[I_FRAME_HEADER:])


# ---- a capture that is written


class CaptureWriter:
    """Writes a capture of LINUX_LAPD. The frames of a line with a data link are in it as they are. On another line each
    message is an I frame of SAPI 0, whose numbers count it on its line."""

    HEADER = struct.pack(">IHHiIII", MAGIC, *VERSION, 0, 0, MAX_PACKET, LINUX_LAPD)

    def __init__(self, linked: Collection[int] = ()) -> None:
        self.linked = linked  # the lines with a data link
        self.count: Counter[tuple[int, bool]] = Counter()  # of the messages by line and direction
        self.start = 0  # when frame 0 begins, in microseconds

    def packet(self, frames: int, line: int, is_sent: bool, octets: bytes) -> bytes:
        """A message or a frame with the frames of the exchange before it, its line, and whether the exchange sent it."""
        if line not in self.linked:
            own, other = self.count[line, is_sent], self.count[line, not is_sent]
            self.count[line, is_sent] += 1
            frame = LinkFrame("I", True, nr=other % MODULUS, ns=own % MODULUS, information=octets)
            octets = write_frame(frame, is_from_user=not is_sent, tei=line)
        packet = pseudo_header(line, is_sent) + octets
        return record_header(self.start + frames * MICROSECONDS_PER_FRAME, len(packet)) + packet


def record_header(time: int, length: int) -> bytes:
    """The header of a packet at a time in microseconds."""
    return struct.pack(">IIII", *divmod(time, MICROSECONDS), length, length)


def pseudo_header(line: int, is_sent: bool) -> bytes:
    """The header of a Linux capture: type of packet, hardware, an address of 8 octets, protocol. The number of the line
    in the address is an addition, because each line with a data link has TEI 0."""
    kind = FROM_US if is_sent else TO_US
    return struct.pack(">HHHBB6xH", kind, LAPD_HARDWARE, 2, NETWORK_SIDE, line, LAPD_PROTOCOL)
