"""The keys of a telephone, as tones of ITU-T Q.23 in A-law."""

from __future__ import annotations

import functools
from collections.abc import Sequence
from math import pi, sin

from nemzhuul.sound import alaw
from nemzhuul.traces.events import FRAMES_PER_SECOND, IDLE

KEYS = "0123456789*#ABCD"  # by the code of a telephone event
ROWS, COLUMNS = (697, 770, 852, 941), (1209, 1336, 1477, 1633)  # hertz
PAD = ("123A", "456B", "789C", "*0#D")
TONE, PAUSE = FRAMES_PER_SECOND // 10, FRAMES_PER_SECOND * 6 // 100  # octets
LOUD = 6_000
MAX_WAITING = FRAMES_PER_SECOND  # octets of tones that wait; further keys are left out


@functools.lru_cache(maxsize=len(KEYS))
def key_tone(key: str) -> bytes:
    """The A-law octets of a key, and a pause."""
    row = next(at for at, keys in enumerate(PAD) if key in keys)
    return tone((ROWS[row], COLUMNS[PAD[row].index(key)]), TONE) + bytes([IDLE]) * PAUSE


def tone(pitches: Sequence[int], count: int) -> bytes:
    samples = (sum(round(LOUD * sin(2 * pi * pitch * at / FRAMES_PER_SECOND)) for pitch in pitches) for at in range(count))
    return bytes(map(alaw.octet_of, samples))


PROMPT = tone((1_000,), 2 * TONE)  # after which a PIN is to be dialled


class Tones:
    """Tones that replace the speech, such as the tones of pressed keys."""

    def __init__(self, first: bytes = b"") -> None:
        self.waiting = bytearray(first)

    def press(self, key: str) -> None:
        if len(self.waiting) < MAX_WAITING:
            self.waiting += key_tone(key)

    def over(self, octets: bytes, count: int) -> bytes:
        """The next octets of a channel, with the tones in them."""
        if not self.waiting:
            return octets
        first = bytes(self.waiting[:count])
        del self.waiting[:count]
        return first + octets[len(first) :]
