"""Reads messages of ITU-T Q.931 as the exchange does, names what they say, and writes an endpoint's messages.

Only codeset 0 is read, elements may come in any order, and the first of a kind counts.
"""

from __future__ import annotations

from collections.abc import Mapping
from dataclasses import dataclass
from typing import NamedTuple

# The codes of information elements.
BEARER_CAPABILITY = 0x04
CAUSE = 0x08
CALL_STATE = 0x14
CHANNEL_IDENTIFICATION = 0x18
PROGRESS_INDICATOR = 0x1E
CALLING_PARTY_NUMBER = 0x6C
CALLED_PARTY_NUMBER = 0x70
RESTART_INDICATOR = 0x79
SENDING_COMPLETE = 0xA1

# The types of messages.
ALERTING = 0x01
CALL_PROCEEDING = 0x02
PROGRESS = 0x03
SETUP = 0x05
CONNECT = 0x07
SETUP_ACKNOWLEDGE = 0x0D
CONNECT_ACKNOWLEDGE = 0x0F
USER_INFORMATION = 0x20
DISCONNECT = 0x45
RESTART = 0x46
RELEASE = 0x4D
RESTART_ACKNOWLEDGE = 0x4E
RELEASE_COMPLETE = 0x5A
FACILITY = 0x62
NOTIFY = 0x6E
STATUS_ENQUIRY = 0x75
INFORMATION = 0x7B
STATUS = 0x7D

TYPES = {
    ALERTING: "ALERTING",
    CALL_PROCEEDING: "CALL PROCEEDING",
    PROGRESS: "PROGRESS",
    SETUP: "SETUP",
    CONNECT: "CONNECT",
    SETUP_ACKNOWLEDGE: "SETUP ACKNOWLEDGE",
    CONNECT_ACKNOWLEDGE: "CONNECT ACKNOWLEDGE",
    USER_INFORMATION: "USER INFORMATION",
    DISCONNECT: "DISCONNECT",
    RESTART: "RESTART",
    RELEASE: "RELEASE",
    RESTART_ACKNOWLEDGE: "RESTART ACKNOWLEDGE",
    RELEASE_COMPLETE: "RELEASE COMPLETE",
    FACILITY: "FACILITY",
    NOTIFY: "NOTIFY",
    STATUS_ENQUIRY: "STATUS ENQUIRY",
    INFORMATION: "INFORMATION",
    STATUS: "STATUS",
}

# Causes that the exchange or an endpoint sends.
NORMAL_CALL_CLEARING = 16
USER_BUSY = 17
NO_USER_RESPONDING = 18
NO_ANSWER_FROM_USER = 19
CALL_REJECTED = 21
DESTINATION_OUT_OF_ORDER = 27
ADDRESS_INCOMPLETE = 28
RESPONSE_TO_STATUS_ENQUIRY = 30
TEMPORARY_FAILURE = 41

# The names of all causes, by ITU-T Q.850.
CAUSES = {
    1: "unallocated (unassigned) number",
    2: "no route to specified transit network",
    3: "no route to destination",
    4: "send special information tone",
    5: "misdialled trunk prefix",
    6: "channel unacceptable",
    7: "call awarded and being delivered in an established channel",
    8: "preemption",
    9: "preemption, circuit reserved for reuse",
    16: "normal call clearing",
    17: "user busy",
    18: "no user responding",
    19: "no answer from user (user alerted)",
    20: "subscriber absent",
    21: "call rejected",
    22: "number changed",
    26: "non-selected user clearing",
    27: "destination out of order",
    28: "invalid number format (address incomplete)",
    29: "facility rejected",
    30: "response to STATUS ENQUIRY",
    31: "normal, unspecified",
    34: "no circuit/channel available",
    38: "network out of order",
    39: "permanent frame mode connection out of service",
    40: "permanent frame mode connection operational",
    41: "temporary failure",
    42: "switching equipment congestion",
    43: "access information discarded",
    44: "requested circuit/channel not available",
    46: "precedence call blocked",
    47: "resource unavailable, unspecified",
    49: "quality of service not available",
    50: "requested facility not subscribed",
    53: "outgoing calls barred within closed user group",
    55: "incoming calls barred within closed user group",
    57: "bearer capability not authorized",
    58: "bearer capability not presently available",
    62: "inconsistency in designated outgoing access information and subscriber class",
    63: "service or option not available, unspecified",
    65: "bearer capability not implemented",
    66: "channel type not implemented",
    69: "requested facility not implemented",
    70: "only restricted digital information bearer capability is available",
    79: "service or option not implemented, unspecified",
    81: "invalid call reference value",
    82: "identified channel does not exist",
    83: "a suspended call exists, but this call identity does not",
    84: "call identity in use",
    85: "no call suspended",
    86: "call having the requested call identity has been cleared",
    87: "user not member of closed user group",
    88: "incompatible destination",
    90: "non-existent closed user group",
    91: "invalid transit network selection",
    95: "invalid message, unspecified",
    96: "mandatory information element is missing",
    97: "message type non-existent or not implemented",
    98: "message not compatible with call state or message type non-existent",
    99: "information element non-existent or not implemented",
    100: "invalid information element contents",
    101: "message not compatible with call state",
    102: "recovery on timer expiry",
    103: "parameter non-existent or not implemented, passed on",
    110: "message with unrecognized parameter discarded",
    111: "protocol error, unspecified",
    127: "interworking, unspecified",
}

# The call states that the exchange keeps a leg in, and those that only its user reports.
NULL, ACTIVE = 0, 10
STATES = {
    NULL: "null",
    1: "call initiated",
    2: "overlap sending",
    3: "outgoing call proceeding",
    4: "call delivered",
    6: "call present",
    7: "call received",
    8: "connect request",
    9: "incoming call proceeding",
    ACTIVE: "active",
    11: "disconnect request",
    12: "disconnect indication",
    19: "release request",
}

# The timers of calls, and how many frames of the exchange each runs if a trace does not set it.
USUAL_TIMERS = {"T301": 1_440_000, "T302": 120_000, "T303": 32_000, "T305": 240_000, "T308": 32_000, "T309": 48_000, "T310": 80_000}


class Channel(NamedTuple):
    """The channel that a message names."""

    number: int
    is_exclusive: bool  # whether no other one will do


class Element(NamedTuple):
    """An information element. It has no contents if it is a single octet."""

    code: int
    contents: bytes | None


@dataclass(frozen=True)
class Message:
    flag: int  # 0 from the side that chose the call reference, 1 towards it
    reference: int
    kind: int
    elements: Mapping[int, bytes]  # the contents by code, of the first of each code
    octets: bytes = b""

    @property
    def name(self) -> str:
        return TYPES.get(self.kind, f"type {self.kind:02X}")

    @property
    def reference_digits(self) -> str:
        """The two octets of the call reference, flag and all."""
        return f"{self.flag << 15 | self.reference:04X}"

    @property
    def cause(self) -> int | None:
        contents = self.elements.get(CAUSE, b"")
        at = 1 if contents and contents[0] & 0x80 else 2
        return contents[at] & 0x7F if len(contents) > at else None

    @property
    def call_state(self) -> int | None:
        contents = self.elements.get(CALL_STATE)
        return contents[0] & 0x3F if contents else None

    @property
    def digits(self) -> str | None:
        contents = self.elements.get(CALLED_PARTY_NUMBER)
        return "".join(chr(octet & 0x7F) for octet in contents[1:]) if contents else None

    @property
    def channel(self) -> Channel | None:
        """The channel that is named; None if there is none."""
        contents = self.elements.get(CHANNEL_IDENTIFICATION, b"")
        if len(contents) == 3 and contents[0] in (0xA9, 0xA1) and contents[1] == 0x83:
            return Channel(contents[2] & 0x7F, contents[0] == 0xA9)
        return None

    @property
    def restarts_line(self) -> bool | None:
        """Whether the restart indicator asks for the whole line; None where it is unknown."""
        indicator = self.elements.get(RESTART_INDICATOR, b"")[:1]
        return {b"\x80": False, b"\x86": True, b"\x87": True}.get(indicator)

    def restarts(self, channel: int | None) -> bool:
        """Whether a RESTART is of a channel."""
        return bool(self.restarts_line) or (self.channel is not None and self.channel.number == channel)


def read_message(octets: bytes) -> Message | None:
    """The message that these octets are; None where the exchange ignores them."""
    if len(octets) < 5 or octets[0] != 0x08 or octets[1] != 0x02:
        return None
    reference = octets[2] << 8 | octets[3]
    return Message(reference >> 15, reference & 0x7FFF, octets[4], read_elements(octets[5:]), octets)


def read_elements(octets: bytes) -> dict[int, bytes]:
    """The first element of each code; of one octet (top bit set), or with a length and contents."""
    elements: dict[int, bytes] = {}
    at = 0
    hidden = False
    while at < len(octets):
        code = octets[at]
        if code & 0x80:
            contents, end = b"", at + 1
        else:
            start = at + 2
            end = start + (octets[at + 1] if at + 1 < len(octets) else 0)
            if start > len(octets) or end > len(octets):
                break  # cut short: the list ends before it
            contents = octets[start:end]
        if hidden:
            hidden = False
        elif 0x90 <= code <= 0x97:
            break  # a locking shift: the rest is of another codeset
        elif 0x98 <= code <= 0x9F:
            hidden = True
        else:
            elements.setdefault(code, contents)
        at = end
    return elements


# ---- what an endpoint writes

SPEECH = Element(BEARER_CAPABILITY, b"\x80\x90\xa3")  # 64 kbit/s in circuit mode, coded by A-law
USER = 0x80  # the location of a cause


def write_message(flag: int, reference: int, kind: int, *elements: Element) -> bytes:
    """The octets of a message."""
    octets = [bytes([0x08, 0x02, flag << 7 | reference >> 8, reference & 0xFF, kind])]
    for code, contents in elements:
        octets.append(bytes([code]) if contents is None else bytes([code, len(contents)]) + contents)
    return b"".join(octets)


def channel_identification(channel: int, is_exclusive: bool = True) -> Element:
    return Element(CHANNEL_IDENTIFICATION, bytes([0xA9 if is_exclusive else 0xA1, 0x83, 0x80 | channel]))


def number(code: int, digits: str) -> Element:
    """A calling or called party number, whose type and plan are unknown."""
    return Element(code, b"\x80" + digits.encode("ascii"))


def sending_complete() -> Element:
    return Element(SENDING_COMPLETE, None)


def cause(value: int) -> Element:
    return Element(CAUSE, bytes([USER, 0x80 | value]))


def restart_indicator(is_whole_line: bool) -> Element:
    return Element(RESTART_INDICATOR, b"\x86" if is_whole_line else b"\x80")


def status(flag: int, reference: int, state: int) -> bytes:
    """The reply to STATUS ENQUIRY."""
    return write_message(flag, reference, STATUS, cause(RESPONSE_TO_STATUS_ENQUIRY), Element(CALL_STATE, bytes([state])))


def restart_acknowledge(restart: Message) -> bytes:
    """The reply to RESTART, with its elements."""
    codes = [code for code in (CHANNEL_IDENTIFICATION, RESTART_INDICATOR) if code in restart.elements]
    return write_message(1, 0, RESTART_ACKNOWLEDGE, *(Element(code, restart.elements[code]) for code in codes))


# ---- in words


def cause_name(cause: int | None) -> str | None:
    """The name of a cause; None if it has none."""
    return None if cause is None else CAUSES.get(cause)


def cause_text(cause: int | None) -> str:
    name = cause_name(cause)
    return f"cause {cause}" if name is None else f"cause {cause}, {name}"


def state_text(state: int) -> str:
    name = STATES.get(state)
    return f"state {state}" if name is None else f"state {state}, {name}"


def printable(digits: str) -> str:
    """Digits as they are where each is printable, and else quoted."""
    return digits if digits.isprintable() and " " not in digits else repr(digits)


def contents_text(message: Message) -> str:
    """What a message says beside its type and reference, in a line."""
    said = []
    if message.digits is not None:
        said.append(f"number {printable(message.digits)}")
    if message.channel is not None:
        number, is_exclusive = message.channel
        said.append(f"channel {number}" + ("" if is_exclusive else " preferred"))
    if message.cause is not None:
        said.append(cause_text(message.cause))
    if message.call_state is not None:
        said.append(state_text(message.call_state))
    if message.kind == INFORMATION and SENDING_COMPLETE in message.elements:
        said.append("sending complete")
    if message.restarts_line:
        said.append("the whole line")
    if PROGRESS_INDICATOR in message.elements:
        said.append("tone in band")
    return "; ".join(said)


def message_text(octets: bytes) -> str:
    """The name of a message, its call reference, and what it says."""
    message = read_message(octets)
    if message is None:
        return "octets that are no message"
    contents = contents_text(message)
    return f"{message.name} {message.reference_digits}" + (f": {contents}" if contents else "")
