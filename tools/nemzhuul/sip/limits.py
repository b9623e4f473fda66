"""Which addresses are heard and sent to, and how much one of them may ask for."""

from __future__ import annotations

import functools
import ipaddress
import socket
from collections.abc import Sequence

from nemzhuul.sip.timers import Now

MAX_DATAGRAMS = 2_000  # of SIP from an address in a second; the others are dropped before they are read
MAX_ADDRESSES = 10_000  # that are counted
FAILURE_SECONDS = 60  # from the first failure on, after which it is forgotten
MAX_PAIRS = 10_000  # of those who failed and what they failed at, which are counted
MIN_MEDIA_PORT = 1_024  # of a description: no telephone has a port of a service of the system

ANYWHERE = "0.0.0.0"  # of a description: to nobody


class Networks:
    """The networks that are heard: this machine, and those that the user allows."""

    def __init__(self, allowed: Sequence[str]) -> None:
        self.networks = [ipaddress.IPv4Network(text) for text in ("127.0.0.0/8", *allowed)]
        self.is_allowed = functools.lru_cache(maxsize=4096)(self._is_allowed)
        self.may_send_to = functools.lru_cache(maxsize=4096)(self._may_send_to)

    def _is_allowed(self, host: str) -> bool:
        try:
            address = ipaddress.IPv4Address(host)
        except ValueError:
            return False
        return any(address in network for network in self.networks)

    def _may_send_to(self, host: str) -> bool:
        """Whether octets may be sent to an address, so that nobody else is flooded: what is heard, or this machine."""
        return self._is_allowed(host) or is_own(host)


def is_own(host: str) -> bool:
    """Whether an address of IP is this machine's: such an address can be bound, and is not one of many machines."""
    address = ipaddress.IPv4Address(host)
    if address.is_multicast or address.is_unspecified or address.is_reserved:
        return False
    with socket.socket(socket.AF_INET, socket.SOCK_DGRAM) as end:
        try:
            end.bind((host, 0))
        except OSError:
            return False
    return True


class Failures:
    """Wrong passwords or PINs, by who gave them and for what. After too many, further ones are ignored for some time."""

    def __init__(self, now: Now, most: int) -> None:
        self.now = now
        self.most = most
        self.counts: dict[tuple[str, str], tuple[int, float]] = {}  # how many, and since when

    def add(self, who: str, what: str) -> None:
        self.is_muted(who, what)  # forgets failures of long ago
        if len(self.counts) >= MAX_PAIRS:
            del self.counts[next(iter(self.counts))]
        count, since = self.counts.get((who, what), (0, self.now()))
        self.counts[who, what] = count + 1, since

    def is_muted(self, who: str, what: str) -> bool:
        count, since = self.counts.get((who, what), (0, 0.0))
        if count and self.now() - since > FAILURE_SECONDS:
            del self.counts[who, what]
            return False
        return count >= self.most


class Rates:
    """The datagrams of each address in this second."""

    def __init__(self, now: Now) -> None:
        self.now = now
        self.since = now()
        self.counts: dict[str, int] = {}

    def admits(self, host: str) -> bool:
        """Counts a datagram of an address. False if it has sent too many."""
        if self.now() - self.since >= 1 or len(self.counts) > MAX_ADDRESSES:
            self.since = self.now()
            self.counts.clear()
        count = self.counts[host] = self.counts.get(host, 0) + 1
        return count <= MAX_DATAGRAMS
