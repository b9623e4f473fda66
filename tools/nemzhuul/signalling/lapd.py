"""Frames of a data link (LAPD, ITU-T Q.921) with SAPI 0, TEI 0 and modulo 128: their octets, their names, their check sequence.

The octets of a frame here have no flags and no check sequence. A command has C/R 0 from the user and 1 from the
network, and a response the other value.
"""

from __future__ import annotations

from collections.abc import Iterator
from dataclasses import dataclass
from typing import NamedTuple

from nemzhuul.signalling.q931 import message_text

MAX_INFORMATION = 260  # N201: octets of the information field of an I frame
I_FRAME_HEADER = 4  # two octets of address and two of control
MAX_FRAME = I_FRAME_HEADER + MAX_INFORMATION + 1  # octets of a frame that a trace takes: one more than an I frame has
FCS = 2  # octets of the check sequence
MODULUS = 128
TEI = 0x01  # the second octet of the address: TEI 0, EA 1

# The timers of a data link, and how many frames of the exchange each runs if a trace does not set it.
USUAL_TIMERS = {"T200": 8_000, "T203": 80_000}

SUPERVISORY = {0x01: "RR", 0x05: "RNR", 0x09: "REJ"}
COMMANDS = {0x6F: "SABME", 0x43: "DISC"}
RESPONSES = {0x63: "UA", 0x0F: "DM"}
WITH_INFORMATION = {0x03: "UI", 0xAF: "XID"}  # commands and responses, with any information field
FRMR = 0x87
POLL_FINAL = 0x10  # in the control octet of a U frame
CODES = {name: code for names in (SUPERVISORY, COMMANDS, RESPONSES) for code, name in names.items()}

INVALID = "invalid"  # the kind of a frame that the rules reject


@dataclass(frozen=True)
class LinkFrame:
    """A frame. Only an I frame has N(S) and information, and only I and S frames have N(R)."""

    kind: str
    is_command: bool
    pf: bool = False
    nr: int = 0
    ns: int = 0
    information: bytes = b""


class Address(NamedTuple):
    """The address of a frame."""

    sapi: int
    cr: int
    tei: int


# ---- octets


def read_address(octets: bytes) -> Address:
    return Address(octets[0] >> 2, octets[0] >> 1 & 1, octets[1] >> 1)


def read_frame(octets: bytes, is_from_user: bool) -> LinkFrame | None:
    """The frame of these octets; None where they are discarded: another address, or less than a control field."""
    if len(octets) < 3 or octets[0] not in (0, 2) or octets[1] != TEI:
        return None
    is_command = (octets[0] == 0) == is_from_user
    control, rest = octets[2], octets[3:]
    if control % 4 == 3:
        return _unnumbered(is_command, control, rest)
    if not rest:
        return None
    pf, nr = bool(rest[0] & 1), rest[0] >> 1
    if control % 2 == 0 and is_command and len(rest) <= 1 + MAX_INFORMATION:
        return LinkFrame("I", True, pf, nr, control >> 1, rest[1:])
    if control in SUPERVISORY and len(rest) == 1:
        return LinkFrame(SUPERVISORY[control], is_command, pf, nr)
    return LinkFrame(INVALID, is_command)


def _unnumbered(is_command: bool, control: int, rest: bytes) -> LinkFrame:
    pf, code = bool(control & POLL_FINAL), control & ~POLL_FINAL
    if code in WITH_INFORMATION:
        return LinkFrame(WITH_INFORMATION[code], is_command, pf)
    if code == FRMR and not is_command:
        return LinkFrame("FRMR", False, pf)
    kind = (COMMANDS if is_command else RESPONSES).get(code)
    return LinkFrame(INVALID, is_command) if kind is None or rest else LinkFrame(kind, is_command, pf)


def write_frame(frame: LinkFrame, is_from_user: bool, tei: int = 0) -> bytes:
    """The octets of a frame that a link sends: I, RR, RNR, REJ, SABME, DISC, UA or DM."""
    address = bytes([0 if frame.is_command == is_from_user else 2, tei << 1 | 1])
    if frame.kind == "I":
        return address + bytes([frame.ns << 1, frame.nr << 1 | frame.pf]) + frame.information
    code = CODES[frame.kind]
    if code in SUPERVISORY:
        return address + bytes([code, frame.nr << 1 | frame.pf])
    return address + bytes([code | frame.pf * POLL_FINAL])


# ---- names


def frame_text(octets: bytes, is_from_user: bool) -> str:
    """A frame in words."""
    frame = read_frame(octets, is_from_user)
    if frame is None:
        return "octets that are discarded"
    if frame.kind == INVALID:
        return "a frame that is rejected"
    bit = f"{'P' if frame.is_command else 'F'}={int(frame.pf)}"
    if frame.kind == "I":
        return f"I, {bit}, N(S)={frame.ns}, N(R)={frame.nr}: {message_text(frame.information)}"
    return f"{frame.kind}, {bit}" + (f", N(R)={frame.nr}" if frame.kind in SUPERVISORY.values() else "")


# ---- the check sequence (Q.921, 2)


def _remainders() -> Iterator[int]:
    """The remainder of each octet by the polynomial x^16 + x^12 + x^5 + 1, the lowest bit first."""
    for value in range(256):
        for _ in range(8):
            value = value >> 1 ^ (0x8408 if value & 1 else 0)
        yield value


REMAINDERS = tuple(_remainders())


def check_sequence(octets: bytes) -> bytes:
    """The two octets of the check sequence that are sent after these octets."""
    value = 0xFFFF
    for octet in octets:
        value = value >> 8 ^ REMAINDERS[(value ^ octet) & 0xFF]
    return (value ^ 0xFFFF).to_bytes(FCS, "little")
