"""Datagrams of an enemy: none ends tools/sip, costs more than its share, becomes a call, or leaves anything."""

from __future__ import annotations

import itertools
import random
import time
from collections.abc import Callable
from functools import partial
from unittest import mock

import support
from sip_peers import HOST, PERIOD, GatewayTest, Talk, Telephone, authorization, description, port_of, udp
from support import slow
from nemzhuul.signalling.q931 import CALL_PROCEEDING, CONNECT, DISCONNECT, RELEASE_COMPLETE, SETUP, channel_identification
from nemzhuul.sip.limits import MAX_DATAGRAMS
from nemzhuul.sip.messages import MAX_DATAGRAM
from nemzhuul.sip.transactions import MAX_TURN, MAX_TURN_SECONDS

MUTATIONS = 2_000
MAX_SECONDS = 0.25  # of the processor, for a datagram, with the frames and responses that it causes
SCRAPS = (b"\r\n", b"\r\n ", b";", b",", b'"', b"<", b">", b"\0", b"\xff", b"%", b"%41", b":", b"sip:", b"a" * 300, b"9" * 40, b"-1")


class Hostile(GatewayTest):
    def setUp(self) -> None:
        super().setUp()
        self.drawn = random.Random(76)
        self.enemy = self.telephone(1)

    def mutated(self, octets: bytes) -> bytes:
        """Octets with some changes: cut, doubled, replaced, and with scraps of SIP."""
        changed = bytearray(octets)
        for _ in range(self.drawn.randint(1, 5)):
            at = self.drawn.randrange(len(changed) + 1)
            end = min(len(changed), at + self.drawn.choice((0, 1, 1, 4, 40)))
            new = self.drawn.choice((b"", self.drawn.randbytes(self.drawn.randint(1, 4)), self.drawn.choice(SCRAPS), changed[at:end] * 2))
            changed[at:end] = new
        return bytes(changed)

    def invite(self, talk: Talk) -> bytes:
        """An INVITE with a right digest, whose description is mutated too."""
        self.enemy.send(self.enemy.text("INVITE", talk))
        challenge = self.enemy.all()[-1]["www-authenticate"]
        talk.number += 1
        words = authorization(challenge, "102", "two-secret", "INVITE", talk.uri)
        body = description(port_of(self.enemy.media), "0 8 101", ["a=rtpmap:101 telephone-event/8000", "a=sendrecv"])
        return self.enemy.text("INVITE", talk, [f"Authorization: {words}", "Record-Route: <sip:p;lr>"], self.mutated(body))

    def outside(self, method: str) -> bytes:
        return self.enemy.text(method, self.enemy.talk("103"), ["Expires: 60"])

    def within(self, method: str, call: Talk) -> bytes:
        return self.enemy.text(method, call, ["Contact: <sip:x@h>"], self.mutated(description(4000)))

    def bases(self, call: Talk) -> list[Callable[[], bytes]]:
        """Datagrams of each kind, of a call and of none."""
        enemy = self.enemy
        kinds: list[Callable[[], bytes]] = []
        for method in ("INVITE", "ACK", "BYE", "CANCEL", "OPTIONS", "REGISTER", "INFO", "UPDATE"):
            kinds.append(partial(self.outside, method))
        for method in ("INVITE", "ACK", "INFO", "OPTIONS"):
            kinds.append(partial(self.within, method, call))
        kinds.append(lambda: enemy.text("INVITE", enemy.talk("103")).replace(b"INVITE sip:103", b"SIP/2.0 200 OK"))
        kinds.append(lambda: self.drawn.randbytes(self.drawn.randint(1, 200)))
        return kinds

    def good_call(self) -> None:
        """Registers and calls, speaks both ways, and ends."""
        telephone = self.telephone(0)
        self.assertEqual(telephone.register(), [200])
        self.messages.clear()
        talk, setup = self.answered(telephone)
        heard = b""
        for at in range(8):
            telephone.speaks(b"\x44" * PERIOD, talk.answer.media_port, at * PERIOD)
            heard += bytes(row[2] for row in self.period({2: b"\x55" * PERIOD}))
        self.assertTrue(b"\x44" * (4 * PERIOD) in heard)
        self.assertTrue(telephone.hears().startswith(b"\x55" * (6 * PERIOD)))
        telephone.within("BYE", talk)
        self.message(DISCONNECT)
        self.sends(1, setup.reference, RELEASE_COMPLETE)

    def assert_empty(self) -> None:
        gateway = self.gateway
        for line in gateway.lines:
            for call in list(line.calls.values()):
                call.drop()
        self.passes(140)
        tables = (gateway.transport.servers, gateway.transport.clients, gateway.dialogs, gateway.lines[0].calls)
        self.assertEqual(tables, ({}, {}, {}, {}))

    def reply(self) -> None:
        """The exchange answers each SETUP, and refuses some."""
        for message in self.messages:
            if message.kind == SETUP and self.drawn.random() < 0.5:
                self.sends(1, message.reference, CALL_PROCEEDING, channel_identification(7))
                self.sends(1, message.reference, CONNECT)
            elif message.kind == SETUP:
                self.sends(1, message.reference, RELEASE_COMPLETE)
        self.messages.clear()

    @slow
    def test_mutated_datagrams(self) -> None:
        """2,000 mutated datagrams during a call, and then a good call."""
        call, _ = self.answered(self.enemy)
        bases = self.bases(call)
        slowest = 0.0
        for at in range(MUTATIONS):
            octets = self.invite(self.enemy.talk("103")) if at % 8 == 0 else self.drawn.choice(bases)()
            begin = time.process_time()
            self.enemy.send(octets if at % 16 == 0 else self.mutated(octets))
            slowest = max(slowest, time.process_time() - begin)
            self.reply()
            if at % 50 == 0:
                self.period()
                self.passes(1)
                self.enemy.all()
        self.assertLess(slowest, MAX_SECONDS)
        self.assertGreater(self.gateway.transport.malformed, MUTATIONS / 5)
        self.passes(61)
        self.assertFalse("two-secret" in "".join(self.said))
        self.good_call()
        self.assert_empty()

    def test_mutated_speech(self) -> None:
        """2,000 mutated packets to the port of a call, and the telephone is heard after them."""
        telephone = self.telephone(0)
        talk, _ = self.answered(telephone)
        for at in range(MUTATIONS):
            packet = self.mutated(bytes.fromhex("8008000000000000" "00000007") + bytes(PERIOD))
            telephone.media.sendto(packet[:2_000], (HOST, talk.answer.media_port))
            if at % 20 == 0:
                self.period()
        heard = b""
        for at in range(20):
            telephone.speaks(b"\x44" * PERIOD, talk.answer.media_port, 1_000_000 + at * PERIOD)
            heard += bytes(row[2] for row in self.period())
        self.assertTrue(b"\x44" * (5 * PERIOD) in heard)

    def test_strangers_leave_nothing(self) -> None:
        """Requests without a password cost no memory: neither transactions nor dialogs."""
        for method, status in (("INVITE", 401), ("REGISTER", 401), ("OPTIONS", 200), ("BYE", 481), ("SUBSCRIBE", 405)):
            for _ in range(100):
                self.enemy.send(self.enemy.text(method, self.enemy.talk("103")))
                self.assertEqual(self.enemy.statuses(), [status])
        gateway = self.gateway
        self.assertEqual((gateway.transport.servers, gateway.dialogs, gateway.authenticator.counts), ({}, {}, {}))

    def test_a_flood(self) -> None:
        """An address has a limit of datagrams in a second, and a datagram has a limit of octets. Others are not read."""
        for _ in range(MAX_DATAGRAMS + 100):
            self.enemy.send(b"x")
        self.assertEqual((self.gateway.transport.malformed, self.gateway.transport.refused), (MAX_DATAGRAMS, 100))
        self.clock.time += 1
        self.enemy.send(b"x" * (MAX_DATAGRAM + 1))
        self.assertEqual(self.gateway.transport.refused, 101)
        self.good_call()

    def test_frames_are_not_kept_waiting(self) -> None:
        """Frames come before more datagrams, once these have taken some milliseconds."""
        transport = self.gateway.transport
        for _ in range(MAX_TURN):
            self.enemy.sip.sendto(b"x", transport.address)
        times = itertools.count(self.clock.time, MAX_TURN_SECONDS / 2.5)
        with mock.patch.object(transport.timers, "now", lambda: next(times)):
            transport.receive()
        self.assertTrue(0 < transport.received < 4, transport.received)
        self.pump()
        self.assertEqual(transport.received, MAX_TURN)

    def test_nobody_else_is_sent_to(self) -> None:
        """No port of the machine gets speech that a description of another address asked for."""
        victim = udp()
        self.addCleanup(victim.close)
        talk, _ = self.answered(self.enemy)
        for host in ("127.0.0.1", "192.0.2.1"):
            body = description(port_of(victim), host=host).replace(b"IN IP4 127.0.0.1", b"IN IP4 localhost")
            self.enemy.within("INVITE", talk, body)
        self.period()
        with self.assertRaises(BlockingIOError):
            victim.recv(2_048)
        self.assertEqual(len(Telephone.hears(self.enemy)), PERIOD)


if __name__ == "__main__":
    support.main()
