"""The tables between mu-law and A-law of ITU-T G.711, by the values of their octets."""

from __future__ import annotations

from nemzhuul.sound import alaw

BIAS = 132  # of a magnitude of 16 bits, which makes each segment begin at a power of two
MAX_MAGNITUDE = 32_635


def linear_of_mu(octet: int) -> int:
    """The sample of 16 bits of a mu-law octet."""
    inverted = ~octet & 0xFF
    magnitude = ((inverted & 15) * 8 + BIAS << (inverted >> 4 & 7)) - BIAS
    return -magnitude if inverted & 0x80 else magnitude


def mu_of_linear(sample: int) -> int:
    """The mu-law octet of a sample of 16 bits."""
    magnitude = min(abs(sample), MAX_MAGNITUDE) + BIAS
    segment = magnitude.bit_length() - 8
    return ~((sample < 0) << 7 | segment << 4 | magnitude >> segment + 3 & 15) & 0xFF


A_OF_MU = bytes(alaw.octet_of(linear_of_mu(octet)) for octet in range(256))
MU_OF_A = bytes(mu_of_linear(alaw.value_of(octet) * alaw.STEPS) for octet in range(256))
