"""The buffer between packets, which come when they want, and a bearer channel, whose frames are the clock.

A buffer holds the octets that came and were not played. Every 5 s its least depth is looked at: if it is low, single
octets are repeated, and if it is high, single octets are left out, until it is neither. That is the slip of a
plesiochronous line, at most ten a second. A sender on the same clock has none. Frames measure all times.
"""

from __future__ import annotations

from dataclasses import dataclass

from nemzhuul.traces.events import FRAMES_PER_SECOND, IDLE

MILLISECOND = FRAMES_PER_SECOND // 1000
FAR = FRAMES_PER_SECOND  # octets from which on a timestamp begins anew
LOOK = 5 * FRAMES_PER_SECOND  # frames between two looks at the least depth
SLIP = FRAMES_PER_SECOND // 10  # frames between two slips, at least
HALF, WHOLE = 1 << 31, (1 << 32) - 1  # of the timestamps


@dataclass(frozen=True)
class Depths:
    """Depths of a buffer, in octets."""

    ready: int  # that are there before it plays
    low: int  # between this and `ready` the least depth stays: a packet, and its jitter
    most: int  # that may wait


def depths_of(milliseconds: int) -> Depths:
    ready = milliseconds * MILLISECOND
    return Depths(ready, ready * 2 // 5, ready * 4)


class JitterBuffer:
    def __init__(self, depths: Depths) -> None:
        self.depths = depths
        self.octets = bytearray()
        self.end: int | None = None  # the timestamp after the last octet
        self.ssrc = -1  # of the stream that came last
        self.is_playing = False
        self.least = depths.most  # depth since the last look
        self.since_look = self.since_slip = 0  # frames
        self.slips_due = 0  # octets to leave out, or if negative to repeat
        self.lost = self.late = self.dropped = self.gaps = self.slips = 0

    # ---- packets

    def put(self, octets: bytes, timestamp: int, ssrc: int) -> None:
        """Takes the octets of a packet, at the place that its timestamp has."""
        is_new = ssrc != self.ssrc or self.end is None
        ahead = FAR if is_new or self.end is None else (timestamp - self.end + HALF & WHOLE) - HALF
        if abs(ahead) >= FAR or (ahead > 0 and not self.octets and not self.is_playing):
            self.ssrc, self.end, ahead = ssrc, timestamp, 0
        if ahead < 0:
            self.fill(octets, ahead)
            return
        if ahead:
            self.lost += 1
            self.octets += bytes([IDLE]) * min(ahead, self.depths.most)
        self.octets += octets
        self.end = timestamp + len(octets) & WHOLE
        if len(self.octets) > self.depths.most:
            excess = len(self.octets) - self.depths.ready
            del self.octets[:excess]
            self.dropped += excess

    def fill(self, octets: bytes, ahead: int) -> None:
        """Puts octets where they belong, which are not the newest; octets whose time has passed are late."""
        begin = len(self.octets) + ahead
        if begin < 0 or begin + len(octets) > len(self.octets):
            self.late += 1
        else:
            self.octets[begin : begin + len(octets)] = octets

    # ---- frames

    def play(self, count: int) -> bytes:
        """The octets of the next frames; fewer if there are no more."""
        if not self.is_playing:
            if len(self.octets) < max(self.depths.ready, count):
                return b""
            self.is_playing = True
            self.least, self.since_look, self.slips_due = self.depths.most, 0, 0
        taken = count + self.slip(count)
        octets = bytes(self.octets[:taken])
        del self.octets[:taken]
        if taken > count:
            octets = octets[:count]
        elif taken < count:
            octets += octets[-1:]
        if len(octets) < count:
            self.is_playing = False
            self.gaps += 1
        else:
            self.least = min(self.least, len(self.octets))
        return octets

    def slip(self, count: int) -> int:
        """1 if an octet is to be left out, because the buffer was too full at the last look, and -1 if one is repeated."""
        self.since_look += count
        self.since_slip += count
        if self.since_look >= LOOK:
            self.slips_due = max(0, self.least - self.depths.ready) or min(0, self.least - self.depths.low)
            self.least, self.since_look = self.depths.most, 0
        if not self.slips_due or self.since_slip < SLIP:
            return 0
        slip = 1 if self.slips_due > 0 else -1
        self.slips_due -= slip
        self.slips += 1
        self.since_slip = 0
        return slip
