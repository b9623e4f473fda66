"""The users file: the passwords of telephones, the PINs of numbers such as rooms, and the peers, which need no password.

A peer is a fixed telephone, `DIGITS sip:HOST:PORT`, or a trunk to a proxy or another exchange, `DIGITS* sip:HOST:PORT`,
to which all numbers that begin so go. It is recognised by its address and port.
"""

from __future__ import annotations

import ipaddress
import re
from collections.abc import Iterable, Mapping, Sequence
from dataclasses import dataclass, field
from pathlib import Path

from nemzhuul.command_line import Refused
from nemzhuul.sip.pins import Pin
from nemzhuul.sip.messages import Malformed, SocketAddress, read_uri


@dataclass(frozen=True)
class Peer:
    digits: str
    is_trunk: bool
    address: SocketAddress

    def takes(self, digits: str) -> bool:
        return digits.startswith(self.digits) if self.is_trunk else digits == self.digits


@dataclass(frozen=True)
class UsersFile:
    passwords: Mapping[str, str] = field(repr=False)  # by digits
    peers: tuple[Peer, ...] = ()
    pins: Mapping[str, str] = field(default_factory=dict, repr=False)  # by the digits with which a number begins

    def is_peer(self, address: SocketAddress) -> bool:
        return any(peer.address == address for peer in self.peers)

    def peer_of(self, digits: str) -> Peer | None:
        """The peer to which a number goes; of some, the one with the most digits."""
        peers = [peer for peer in self.peers if peer.takes(digits)]
        return max(peers, key=lambda peer: (len(peer.digits), not peer.is_trunk)) if peers else None


    def pin_of(self, digits: str) -> Pin | None:
        """The PIN of a called number. The exchange routes a number by its first digits, and so the PIN is found by them."""
        found = [Pin(start, pin) for start, pin in self.pins.items() if digits.startswith(start)]
        return max(found, key=lambda pin: len(pin.start)) if found else None


def read_users_file(path: str) -> UsersFile:
    return read_users(path, Path(path).read_text(encoding="utf-8", errors="surrogateescape").splitlines())


def read_users(path: str, lines: Iterable[str]) -> UsersFile:
    """The users of the lines of a file. What a line says is not printed: it may be a password."""
    passwords: dict[str, str] = {}
    pins: dict[str, str] = {}
    peers: list[Peer] = []
    for number, line in enumerate(lines, start=1):
        words = line.split()
        if not words or line.startswith("#"):
            continue
        digits, value = words if len(words) == 2 else ("", "")
        if is_pin(words) and words[0] not in pins:
            pins[words[0]] = words[2]
        elif value.startswith("sip:") and re.fullmatch(r"[0-9]{1,20}\*?", digits):
            peers.append(Peer(digits.rstrip("*"), digits.endswith("*"), read_peer_address(f"{path}: line {number}", value)))
        elif re.fullmatch("[0-9]{1,20}", digits) and not value.startswith("sip:") and digits not in passwords:
            passwords[digits] = value
        else:
            wanted = "is not `DIGITS PASSWORD`, `DIGITS sip:HOST:PORT`, `DIGITS* sip:HOST:PORT` or `DIGITS PIN DIGITS`"
            raise Refused(f"{path}: line {number} {wanted}, or its digits have a password or a PIN already")
    return UsersFile(passwords, tuple(peers), pins)


def is_pin(words: Sequence[str]) -> bool:
    return re.fullmatch("[0-9]{1,20} PIN [0-9]{1,20}", " ".join(words)) is not None


def read_peer_address(where: str, text: str) -> SocketAddress:
    try:
        address = read_uri(text).address
        ipaddress.IPv4Address(address.host)
    except (Malformed, ValueError):
        raise Refused(f"{where} has no address of IPv4 after sip:") from None
    return address
