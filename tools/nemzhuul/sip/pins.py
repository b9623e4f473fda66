"""The PIN of a called number, which its caller dials as keys after the gateway has answered, before the exchange gets the call."""

from __future__ import annotations

import hmac
from typing import NamedTuple

PIN_SECONDS = 30  # that a caller has to dial it
MAX_WRONG_PINS = 3  # of a caller for a number, until its calls to that are refused for some time


class Pin(NamedTuple):
    start: str  # the digits with which the number begins
    digits: str


class PinEntry:
    """The keys that were pressed for a PIN. The key * begins again."""

    def __init__(self, pin: Pin, who: str) -> None:
        self.pin = pin
        self.who = who  # dials it
        self.keys = ""

    def press(self, key: str) -> bool | None:
        """Whether the PIN is right, once it has all its digits; None before."""
        if key == "*":
            self.keys = ""
        elif key.isdecimal():
            self.keys += key
        if len(self.keys) < len(self.pin.digits):
            return None
        return hmac.compare_digest(self.keys, self.pin.digits)
