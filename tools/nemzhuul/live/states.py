"""What is said of a data link: when it is up or down, and why it never comes up."""

from __future__ import annotations

from typing import Callable

from nemzhuul.signalling.lapd import COMMANDS, POLL_FINAL, TEI, LinkFrame, write_frame

DISC = write_frame(LinkFrame("DISC", is_command=True, pf=True), is_from_user=False)  # from the network
WRONG_SIDE = "its endpoint sends SABME as the network's side; the link comes up only if it is the user's side"


class LinkState:
    """Whether a data link is up. Each change is said once, and for each endpoint once that it is of the wrong side."""

    def __init__(self, say: Callable[[str], None]) -> None:
        self.say = say
        self.is_up: bool | None = False  # None if it is not known
        self.is_warned = False

    def begin(self) -> None:
        """Another endpoint is attached."""
        self.is_warned = False

    def set(self, is_up: bool) -> None:
        if is_up != self.is_up:
            self.is_up = is_up
            self.say(f"its data link is {'up' if is_up else 'down'}")

    def check(self, octets: bytes) -> None:
        """Looks at a frame of the endpoint: SABME of the user has C/R 0."""
        is_sabme = len(octets) == 3 and COMMANDS.get(octets[2] & ~POLL_FINAL) == "SABME"
        if is_sabme and octets[:2] == bytes([2, TEI]) and not self.is_warned:
            self.is_warned = True
            self.say(WRONG_SIDE)
