"""A data link (LAPD, ITU-T Q.921) of the user or the network: a model for tests, and for endpoints that are simulated.

Times are numbers of one unit: frames of the exchange, or seconds. A link counts its timers from the times that its
caller gives. The messages that it gets, the frames that it sends and what it indicates are lists that its caller empties.
"""

from __future__ import annotations

from collections.abc import Callable, Mapping
from typing import NamedTuple, Optional

from nemzhuul.signalling.lapd import INVALID, MODULUS, SUPERVISORY, USUAL_TIMERS, LinkFrame, read_frame, write_frame

WINDOW = 7  # k: sent I frames that are not acknowledged
MAX_RETRIES = 3  # N200
MAX_WAITING = 64  # messages that are not acknowledged

ASSIGNED, ESTABLISHING, ESTABLISHED, RECOVERY = 4, 5, 7, 8  # the states of Q.921
TOOK, UP, DOWN = "took", "up", "down"  # what is indicated to layer 3


class Indication(NamedTuple):
    """What is indicated to layer 3. Only TOOK has a message."""

    what: str
    message: bytes | None = None


Act = Callable[[LinkFrame, float], Optional[Indication]]  # what is done for a frame, at a time


class Timer(NamedTuple):
    """The timer that runs, and since when."""

    name: str
    since: float


class Link:
    """A link in state 4, whose T200 starts at a time."""

    def __init__(self, is_user: bool, now: float = 0, times: Mapping[str, float] | None = None) -> None:
        self.is_user = is_user
        self.times = times or USUAL_TIMERS
        self.state = ASSIGNED
        self.asked = True  # layer 3 initiated
        self.waiting: list[bytes] = []  # messages that are not acknowledged
        self.sent = 0  # how many of them were sent
        self.acked = self.received = 0  # V(A), V(R)
        self.busy = self.rejecting = self.pending = self.owed = False
        self.retries = 0
        self.timer = Timer("T200", now)
        self.out: list[bytes] = []  # the octets of the frames that are sent

    @property
    def is_multiple_frame(self) -> bool:
        return self.state in (ESTABLISHED, RECOVERY)

    @property
    def is_up(self) -> bool:
        return self.is_multiple_frame or (self.state == ESTABLISHING and not self.asked)

    # ---- what happens to it

    def establish(self, now: float) -> None:
        """Layer 3 requests the link."""
        self._establish(now, asked=True)

    def release(self, now: float) -> None:
        """Layer 3 releases the link, and does not wait for the peer's response."""
        self._send("DISC", True, True)
        self._lose()
        self._assign(now)

    def receive(self, octets: bytes, now: float) -> Indication | None:
        """Takes a frame of the peer. Returns the indication, or None. `finish` comes after it."""
        frame = read_frame(octets, not self.is_user)
        if frame is None:
            return None
        if frame.kind in SUPERVISORY.values():
            self._supervisory(frame, now)
            return None
        acts: dict[str, Act] = {"SABME": self._sabme, "DISC": self._disc, "UA": self._ua, "DM": self._dm, "I": self._information}
        acts |= dict.fromkeys(("FRMR", INVALID), self._rejection)
        return acts[frame.kind](frame, now) if frame.kind in acts else None

    def submit(self, message: bytes, now: float) -> None:
        """Takes a message of layer 3. It is lost if the link is not up."""
        if not self.is_up:
            return
        if len(self.waiting) < MAX_WAITING:
            self.waiting.append(message)
            self._flush(now)
            return
        self.waiting, self.sent, self.owed = [], 0, True
        if self.state == ESTABLISHING:
            self.asked = True
        else:
            self._establish(now, asked=True)

    def finish(self, now: float) -> None:
        """The end of a step: what may be sent is sent, and what was received is acknowledged."""
        self._flush(now)
        if self.pending and self.is_multiple_frame:
            self._numbered("RR", False, False)
        self.pending = False

    def turn(self, now: float) -> Indication | None:
        """Looks at the timer. Returns the indication, or None."""
        if self.owed:
            self.owed = False
            return Indication(DOWN)
        name, since = self.timer
        return self._expired(name, now) if since + self.times[name] <= now else None

    # ---- frames (annex B of Q.921)

    def _sabme(self, frame: LinkFrame, now: float) -> Indication | None:
        self._send("UA", False, frame.pf)
        if self.state == ESTABLISHING:
            return None
        return self._begin(now, self.state == ASSIGNED or self.sent > 0)

    def _disc(self, frame: LinkFrame, now: float) -> Indication | None:
        if not self.is_multiple_frame:
            self._send("DM", False, frame.pf)
            return None
        self._send("UA", False, frame.pf)
        return self._end(now)

    def _ua(self, frame: LinkFrame, now: float) -> Indication | None:
        if self.state != ESTABLISHING or not frame.pf:
            return None
        if not self.owed:
            return self._begin(now, self.asked or self.sent > 0)
        self._lose()
        self._establish(now, asked=True)
        return Indication(DOWN)

    def _dm(self, frame: LinkFrame, now: float) -> Indication | None:
        if self.state == ESTABLISHING and frame.pf:
            return self._end(now)
        if self.state == ASSIGNED and not frame.pf:
            self._establish(now, asked=True)
        elif self.state == RECOVERY or (self.state == ESTABLISHED and not frame.pf):
            self._establish(now, asked=False)
        return None

    def _rejection(self, _: LinkFrame, now: float) -> None:
        if self.is_multiple_frame:
            self._establish(now, asked=False)

    def _supervisory(self, frame: LinkFrame, now: float) -> None:
        if not self.is_multiple_frame:
            return
        self.busy = frame.kind == "RNR"
        if frame.is_command and frame.pf:
            self._numbered("RR", False, True)
        if not self._is_valid(frame.nr):
            self._establish(now, asked=False)
        elif self.state == RECOVERY:
            self._acknowledge(frame.nr)
            if not frame.is_command and frame.pf:
                self.sent = 0
                self.state = ESTABLISHED
                self.timer = Timer("T200" if self.busy else "T203", now)
        else:
            self._supervised(frame, now)

    def _supervised(self, frame: LinkFrame, now: float) -> None:
        """RR, RNR or REJ in state 7."""
        has_moved = self._acknowledge(frame.nr)
        if frame.kind == "RNR":
            self.timer = Timer("T200", now)
        elif frame.kind == "REJ":
            self.sent = 0
            self.timer = Timer("T203", now)
        else:
            self._restart_timer(has_moved, now)

    def _information(self, frame: LinkFrame, now: float) -> Indication | None:
        if not self.is_multiple_frame:
            return None
        is_next = frame.ns == self.received
        if is_next:
            self.received = (self.received + 1) % MODULUS
            self.rejecting = False
        if is_next and not frame.pf:
            self.pending = True
        elif is_next or (self.rejecting and frame.pf):
            self._numbered("RR", False, True)
        elif not self.rejecting:
            self.rejecting = True
            self._numbered("REJ", False, frame.pf)
        if not self._is_valid(frame.nr):
            self._establish(now, asked=False)
        else:
            has_moved = self._acknowledge(frame.nr)
            if self.state == ESTABLISHED and not self.busy:
                self._restart_timer(has_moved, now)
        return Indication(TOOK, frame.information) if is_next else None

    def _expired(self, name: str, now: float) -> Indication | None:
        if self.state == ASSIGNED:
            self._establish(now, asked=True)
        elif self.state == ESTABLISHING and self.retries == MAX_RETRIES:
            return self._end(now)
        elif self.state == ESTABLISHING:
            self.retries += 1
            self._send("SABME", True, True)
            self.timer = Timer("T200", now)
        elif self.state == RECOVERY and self.retries == MAX_RETRIES:
            self._establish(now, asked=False)
        else:
            self.retries = self.retries + 1 if self.state == RECOVERY else int(name == "T200")
            self.state = RECOVERY
            self._numbered("RR", True, True)
            self.timer = Timer("T200", now)
        return None

    # ---- what it does

    def _send(self, kind: str, is_command: bool, pf: bool, nr: int = 0, ns: int = 0, information: bytes = b"") -> None:
        self.out.append(write_frame(LinkFrame(kind, is_command, pf, nr, ns, information), self.is_user))

    def _numbered(self, kind: str, is_command: bool, pf: bool) -> None:
        """RR or REJ, which acknowledges what was received."""
        self._send(kind, is_command, pf, nr=self.received)
        self.pending = False

    def _flush(self, now: float) -> None:
        while self.state == ESTABLISHED and not self.busy and self.sent < min(WINDOW, len(self.waiting)):
            number = (self.acked + self.sent) % MODULUS
            self._send("I", True, False, nr=self.received, ns=number, information=self.waiting[self.sent])
            self.sent += 1
            self.pending = False
            if self.timer.name != "T200":
                self.timer = Timer("T200", now)

    def _is_valid(self, nr: int) -> bool:
        return (nr - self.acked) % MODULUS <= self.sent

    def _acknowledge(self, nr: int) -> bool:
        """V(A) becomes a valid N(R). Returns whether it moved."""
        count = (nr - self.acked) % MODULUS
        del self.waiting[:count]
        self.sent -= count
        self.acked = nr
        return count > 0

    def _restart_timer(self, has_moved: bool, now: float) -> None:
        if self.sent == 0:
            self.timer = Timer("T203", now)
        elif has_moved:
            self.timer = Timer("T200", now)

    def _establish(self, now: float, asked: bool) -> None:
        self.state, self.asked, self.retries = ESTABLISHING, asked, 0
        self.busy = self.rejecting = self.pending = False
        self._send("SABME", True, True)
        self.timer = Timer("T200", now)

    def _begin(self, now: float, is_new: bool) -> Indication | None:
        """Multiple frame operation begins. If it is new for layer 3, the messages before it are lost."""
        if is_new:
            self._lose()
        self.state, self.asked = ESTABLISHED, False
        self.sent = self.acked = self.received = 0
        self.busy = self.rejecting = self.pending = False
        self.timer = Timer("T203", now)
        return Indication(UP) if is_new else None

    def _end(self, now: float) -> Indication:
        self._lose()
        self._assign(now)
        return Indication(DOWN)

    def _lose(self) -> None:
        self.waiting, self.sent, self.owed = [], 0, False

    def _assign(self, now: float) -> None:
        self.state, self.asked = ASSIGNED, True
        self.timer = Timer("T200", now)
