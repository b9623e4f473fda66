"""A-law of ITU-T G.711 (11/88), table 1a: the octet of a sample, and the value of an octet, by the decision values."""

from __future__ import annotations

from bisect import bisect_right
from itertools import accumulate

# How wide the intervals are, from the lowest on; their ends are the 129 decision values from 0 to 4096.
WIDTHS = [2] * 32 + [4] * 16 + [8] * 16 + [16] * 16 + [32] * 16 + [64] * 16 + [128] * 16
DECISION_VALUES = list(accumulate(WIDTHS, initial=0))

POSITIVE = 0x80  # the first bit of a character signal
EVEN_BITS = 0x55  # they are inverted on the line
STEPS = 8  # of a sample of 16 bits to a unit of the table

# The number of the interval that holds a magnitude; the lower end belongs to it.
INTERVALS = bytes(bisect_right(DECISION_VALUES, magnitude) - 1 for magnitude in range(DECISION_VALUES[-1]))


def octet_of(sample: int) -> int:
    """The octet on the line of a sample of 16 bits: its sign, 0 being positive, and its magnitude's interval."""
    interval = INTERVALS[min(abs(sample) // STEPS, len(INTERVALS) - 1)]
    return (interval | (POSITIVE if sample >= 0 else 0)) ^ EVEN_BITS


def value_of(octet: int) -> int:
    """The value of an octet, from -4032 to 4032: the middle of its interval, with its sign."""
    character = octet ^ EVEN_BITS
    interval = character & ~POSITIVE
    middle = (DECISION_VALUES[interval] + DECISION_VALUES[interval + 1]) // 2
    return middle if character & POSITIVE else -middle
