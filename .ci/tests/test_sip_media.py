"""The speech of tools/sip without a call: the buffer, the tones of keys, the tables of the laws, and streams of RTP."""

from __future__ import annotations

import random
import struct
import unittest
from collections.abc import Iterator
from math import cos, pi

import support
from sip_peers import HOST, PERIOD, description, port_of, udp
from support import IDLE
from nemzhuul.sip import jitter, rtp, sdp
from nemzhuul.sip.dtmf import PAUSE, TONE, Tones, key_tone
from nemzhuul.sip.jitter import JitterBuffer, depths_of
from nemzhuul.sip.mu_law import A_OF_MU, MU_OF_A, linear_of_mu, mu_of_linear
from nemzhuul.sip.rtp import MAX_PACKETS, Ports, Stream, payload_of
from nemzhuul.sound import alaw

START = (1 << 32) - 1000  # of time stamps, which begin again at 0 soon


def packets(octets: bytes, size: int = PERIOD) -> Iterator[tuple[bytes, int]]:
    for at in range(0, len(octets), size):
        yield octets[at : at + size], START + at & jitter.WHOLE


class Buffers(unittest.TestCase):
    SOUND = random.Random(1).randbytes(100 * PERIOD)

    def setUp(self) -> None:
        self.buffer = JitterBuffer(depths_of(50))

    def run_with(self, arrivals: dict[int, list[tuple[bytes, int]]], periods: int = 120) -> bytes:
        """Plays periods, before each of which some packets arrive."""
        heard = b""
        for at in range(periods):
            for octets, stamp in arrivals.get(at, []):
                self.buffer.put(octets, stamp, 7)
            heard += self.buffer.play(PERIOD).ljust(PERIOD, bytes([IDLE]))
        return heard

    def in_time(self) -> dict[int, list[tuple[bytes, int]]]:
        return {at: [packet] for at, packet in enumerate(packets(self.SOUND))}

    def test_packets_in_time(self) -> None:
        heard = self.run_with(self.in_time())
        self.assertTrue(self.SOUND in heard)
        self.assertEqual(heard.index(self.SOUND), 2 * PERIOD)
        self.assertEqual((self.buffer.slips, self.buffer.lost, self.buffer.late, self.buffer.dropped), (0, 0, 0, 0))

    def test_another_depth(self) -> None:
        self.buffer = JitterBuffer(depths_of(100))
        self.assertEqual(self.run_with(self.in_time()).index(self.SOUND), 4 * PERIOD)

    def test_packets_out_of_order(self) -> None:
        arrivals = self.in_time()
        arrivals[50], arrivals[51] = arrivals[51], arrivals[50]
        self.assertTrue(self.SOUND in self.run_with(arrivals))

    def test_a_lost_packet(self) -> None:
        arrivals = self.in_time()
        del arrivals[50]
        wanted = self.SOUND[: 50 * PERIOD] + bytes([IDLE]) * PERIOD + self.SOUND[51 * PERIOD :]
        self.assertTrue(wanted in self.run_with(arrivals))
        self.assertEqual(self.buffer.lost, 1)

    def test_doubles_and_late_packets(self) -> None:
        first = self.in_time()
        arrivals = {at: [*some, *some, *(first[at - 9] if at >= 9 else [])] for at, some in first.items()}
        self.assertTrue(self.SOUND in self.run_with(arrivals))
        self.assertGreater(self.buffer.late, 5)

    def test_a_late_burst(self) -> None:
        """Of more than the buffer holds, the newest octets stay, and it is never deeper than its limit."""
        self.run_with({0: list(packets(self.SOUND))}, 1)
        self.assertLessEqual(len(self.buffer.octets), self.buffer.depths.most)
        self.assertGreater(self.buffer.dropped, 0)

    def test_a_jump_of_the_time_stamp(self) -> None:
        arrivals = {at: [(octets, stamp + (at >= 50) * 1_000_000)] for at, (octets, stamp) in enumerate(packets(self.SOUND))}
        self.assertTrue(self.SOUND in self.run_with(arrivals))

    def test_drift(self) -> None:
        """A sender whose clock is off costs single octets, no gap, and at most ten slips a second, in any period of frames."""
        seconds = 120
        for faster, count in ((1.0005, PERIOD), (0.9995, PERIOD), (1.0005, 8), (0.995, 8)):
            with self.subTest(faster=faster, count=count):
                self.buffer = JitterBuffer(depths_of(50))
                sent = 0
                for at in range(0, seconds * 8_000, count):
                    while sent < at / PERIOD * faster + 1:
                        self.buffer.put(bytes(PERIOD), START + sent * PERIOD & jitter.WHOLE, 7)
                        sent += 1
                    self.buffer.play(count)
                self.assertTrue(100 < self.buffer.slips <= 10 * seconds, self.buffer.slips)
                if faster > 0.999:
                    self.assertEqual((self.buffer.gaps, self.buffer.lost, self.buffer.dropped), (0, 0, 0))

    def test_jitter(self) -> None:
        """Packets up to 20 ms late leave no gap and no slip."""
        drawn = random.Random(5)
        sound = drawn.randbytes(500 * PERIOD)
        arrivals: dict[int, list[tuple[bytes, int]]] = {}
        for at, packet in enumerate(packets(sound)):
            arrivals.setdefault(at + drawn.randint(0, 1) * (at > 5), []).append(packet)
        self.assertTrue(sound in self.run_with(arrivals, 520))


class Tables(unittest.TestCase):
    def test_mu_law(self) -> None:
        self.assertEqual([linear_of_mu(octet) for octet in (0xFF, 0x80, 0x00)], [0, 32_124, -32_124])
        for octet in range(256):
            if octet != 0x7F:  # minus 0
                self.assertEqual(mu_of_linear(linear_of_mu(octet)), octet)

    def test_between_the_laws(self) -> None:
        """A value changes by less than an interval of the coarser law."""
        for octet in range(256):
            value = alaw.value_of(octet) * alaw.STEPS
            self.assertLess(abs(linear_of_mu(MU_OF_A[octet]) - value), max(20, abs(value) / 16))
            if octet != 0x7F:
                self.assertEqual(MU_OF_A[A_OF_MU[octet]] & 0x80, octet & 0x80)


class Keys(unittest.TestCase):
    def power(self, octets: bytes, hertz: int) -> float:
        """The power of a pitch, by the formula of Goertzel."""
        factor = 2 * cos(2 * pi * hertz / 8000)
        one = two = 0.0
        for octet in octets:
            one, two = alaw.value_of(octet) + factor * one - two, one
        return one * one + two * two - factor * one * two

    def test_the_pitches(self) -> None:
        pitches = (697, 770, 852, 941, 1209, 1336, 1477, 1633)
        for key, wanted in (("1", (697, 1209)), ("5", (770, 1336)), ("#", (941, 1477)), ("D", (941, 1633))):
            with self.subTest(key=key):
                powers = {pitch: self.power(key_tone(key)[:TONE], pitch) for pitch in pitches}
                loudest = sorted(pitches, key=lambda pitch: -powers[pitch])[:2]
                self.assertEqual(tuple(sorted(loudest)), wanted)

    def test_tones_replace_speech(self) -> None:
        tones = Tones()
        self.assertEqual(tones.over(b"speech", 6), b"speech")
        for _ in range(100):
            tones.press("5")
        self.assertLess(len(tones.waiting), 3 * 8000)
        self.assertEqual(tones.over(b"", PERIOD), key_tone("5")[:PERIOD])
        self.assertEqual(key_tone("5")[TONE:], bytes([IDLE]) * PAUSE)


class Streams(unittest.TestCase):
    def setUp(self) -> None:
        self.end = udp()
        self.addCleanup(self.end.close)
        self.keys: list[str] = []
        self.stream = Stream(Ports(HOST, 30_000, 30_999), depths_of(20), self.keys.append)
        self.addCleanup(self.stream.close)

    def agree(self, kinds: str = "8 101", more: tuple[str, ...] = ("a=rtpmap:101 telephone-event/8000",), host: str = HOST) -> None:
        self.stream.agree(sdp.read_sdp(description(port_of(self.end), kinds, more, host)), HOST)

    def gives(self, packet: bytes) -> bytes:
        self.end.sendto(packet, self.stream.address)
        self.stream.receive()
        return self.stream.play(PERIOD)

    def packet(self, octets: bytes, kind: int = 8, first: int = 0x80, stamp: int = 0, more: bytes = b"") -> bytes:
        return struct.pack("!BBHII", first, kind, 1, stamp, 7) + more + octets

    def test_mu_law_is_converted(self) -> None:
        self.agree("0")
        sound = bytes(range(256))[:PERIOD]
        self.stream.take_octets(sound)
        packet = self.end.recv(2_048)
        self.assertEqual((packet[1], packet[12:]), (0x80, sound.translate(MU_OF_A)))
        self.assertEqual(self.gives(self.packet(sound, 0)), sound.translate(A_OF_MU))

    def test_heads(self) -> None:
        """Contributing sources, an extension and padding are passed over."""
        self.agree()
        sound = bytes(range(PERIOD))
        more = bytes(8) + struct.pack("!HH", 1, 1) + bytes(4)
        self.assertEqual(self.gives(self.packet(sound + b"\0\0\3", first=0x80 | 0x20 | 0x10 | 2, more=more)), sound)

    def test_malformed_packets(self) -> None:
        self.agree()
        drawn = random.Random(3)
        for length in range(40):
            self.gives(drawn.randbytes(length))
            payload_of(b"\xbf".ljust(12, b"\xff") + drawn.randbytes(length))
        for first in range(256):
            self.gives(self.packet(b"\xff", first=first, more=drawn.randbytes(3)))

    def test_a_flood_waits(self) -> None:
        """In a period, not more packets are read than belong to some seconds."""
        self.agree()
        for at in range(MAX_PACKETS + 20):
            self.end.sendto(self.packet(bytes(PERIOD), stamp=at * PERIOD), self.stream.address)
        self.stream.receive()
        self.assertEqual(self.stream.received, MAX_PACKETS)

    def test_events(self) -> None:
        """The packets of one event are one key."""
        self.agree()
        for end in (0, 0, 0x80, 0x80):
            self.end.sendto(self.packet(bytes([5, end, 0, 160]), 101, stamp=5), self.stream.address)
        self.stream.receive()
        self.gives(self.packet(bytes([99, 0, 0, 160]), 101, stamp=6))
        self.gives(self.packet(bytes([11, 0, 0, 160]), 101, stamp=7))
        self.assertEqual(self.keys, ["5", "#"])

    def test_hold(self) -> None:
        self.agree("8", ("a=inactive",))
        self.stream.take_octets(bytes(PERIOD))
        self.assertEqual((self.gives(self.packet(bytes(PERIOD))), self.stream.sent), (b"", 0))
        self.agree("8", (), "0.0.0.0")
        self.stream.take_octets(bytes(PERIOD))
        self.assertEqual((self.gives(self.packet(bytes(PERIOD))), self.stream.sent), (b"", 0))

    def test_no_module_of_speech_has_a_clock(self) -> None:
        for module in (rtp, jitter):
            self.assertFalse({"time", "Timers", "threading", "select"} & set(vars(module)), module)


if __name__ == "__main__":
    support.main()
