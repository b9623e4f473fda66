"""Calls between telephones and a line of the exchange: tools/sip, by frames and a clock of the test."""

from __future__ import annotations

import re

import support
from sip_peers import HOST, PERIOD, GatewayTest, authorization, description, port_of, udp
from support import IDLE
from nemzhuul.signalling.q931 import (
    ALERTING,
    CALLED_PARTY_NUMBER,
    CALL_PROCEEDING,
    CONNECT,
    CONNECT_ACKNOWLEDGE,
    DISCONNECT,
    RELEASE,
    RELEASE_COMPLETE,
    SETUP,
    cause,
    channel_identification,
    number,
)

EVERY_OCTET = bytes(range(256)) * 5  # eight periods


class Calls(GatewayTest):
    """The calls of a telephone, and to one."""

    # ---- signalling

    def test_a_telephone_registers(self) -> None:
        telephone = self.telephone(0)
        self.assertEqual(telephone.register(), [200])
        self.assertEqual(telephone.register(30), [423])
        self.assertEqual(telephone.register(0), [200])
        self.assertEqual(self.gateway.registrar.find("101"), 20)
        self.assertEqual(self.gateway.registrar.find("999"), 1)

    def test_a_telephone_calls(self) -> None:
        telephone = self.telephone(0)
        talk = telephone.calls("+1(0)2")
        self.assertEqual(telephone.statuses(), [100])
        setup = self.message(SETUP)
        self.assertEqual((setup.digits, setup.flag), ("102", 0))
        self.sends(1, setup.reference, CALL_PROCEEDING, channel_identification(3))
        self.sends(1, setup.reference, ALERTING)
        self.assertEqual(telephone.statuses(), [180])
        self.sends(1, setup.reference, CONNECT)
        self.message(CONNECT_ACKNOWLEDGE)
        answer = telephone.get()
        assert answer is not None
        self.assertEqual(answer.status, 200)
        telephone.acknowledges(talk, answer)
        telephone.within("BYE", talk)
        self.assertEqual(telephone.statuses(), [200])
        self.assertEqual(self.message(DISCONNECT).cause, 16)
        self.sends(1, setup.reference, RELEASE)
        self.message(RELEASE_COMPLETE)
        self.assertEqual(self.gateway.lines[0].calls, {})

    def test_a_telephone_is_called(self) -> None:
        telephone = self.telephone(1)
        telephone.register()
        invite = self.called(telephone, "102")
        self.assertIn("sip:101@", invite["from"])
        telephone.answers(180, invite)
        self.message(ALERTING)
        telephone.answers(200, invite, description(port_of(telephone.media)))
        self.message(CONNECT)
        ack = telephone.get()
        assert ack is not None
        self.assertEqual(ack.method, "ACK")
        self.sends(0, 9, CONNECT_ACKNOWLEDGE)
        self.sends(0, 9, DISCONNECT, cause(16))
        self.message(RELEASE)
        bye = telephone.get()
        assert bye is not None
        self.assertEqual((bye.method, bye["reason"]), ("BYE", "Q.850;cause=16"))
        telephone.answers(200, bye)
        self.sends(0, 9, RELEASE_COMPLETE)
        self.assertEqual(self.gateway.lines[0].calls, {})

    def test_numbers_without_a_telephone(self) -> None:
        for digits, value in (("102", 20), ("999", 1)):
            with self.subTest(digits=digits):
                self.sends(0, 9, SETUP, channel_identification(5), number(CALLED_PARTY_NUMBER, digits))
                self.assertEqual(self.message(RELEASE_COMPLETE).cause, value)

    # ---- speech

    def test_every_octet_both_ways(self) -> None:
        """Each octet of A-law reaches the other side unchanged, in its order, without a gap."""
        telephone = self.telephone(0)
        talk, _ = self.answered(telephone)
        heard = b""
        for at in range(0, len(EVERY_OCTET), PERIOD):
            telephone.speaks(EVERY_OCTET[at : at + PERIOD], talk.answer.media_port, at)
            heard += bytes(row[2] for row in self.period({2: EVERY_OCTET[at : at + PERIOD]}))
        for _ in range(4):
            heard += bytes(row[2] for row in self.period())
        self.assertTrue(EVERY_OCTET in heard)
        self.assertTrue(telephone.hears().startswith(EVERY_OCTET))
        self.assertTrue(all(row[:2] + row[3:] == bytes([IDLE]) * 29 for row in self.period()))

    def test_two_telephones(self) -> None:
        """The exchange joins two channels of the line: what one says, the other hears octet for octet."""
        one, other = self.telephone(0), self.telephone(1)
        other.register()
        talk = one.calls("102")
        setup = self.message(SETUP)
        self.sends(1, setup.reference, CALL_PROCEEDING, channel_identification(1))
        invite = self.called(other, "102", channel=2)
        other.answers(200, invite, description(port_of(other.media)))
        self.message(CONNECT)
        self.sends(0, 9, CONNECT_ACKNOWLEDGE)
        self.sends(1, setup.reference, CONNECT)
        self.message(CONNECT_ACKNOWLEDGE)
        one.acknowledges(talk, one.all()[-1])
        first = second = bytes([IDLE]) * PERIOD
        for at in range(0, len(EVERY_OCTET), PERIOD):
            one.speaks(EVERY_OCTET[at : at + PERIOD], talk.answer.media_port, at)
            other.speaks(EVERY_OCTET[::-1][at : at + PERIOD], invite.media_port, at)
            rows = self.period({0: second, 1: first})
            first, second = bytes(row[0] for row in rows), bytes(row[1] for row in rows)
        for _ in range(5):
            rows = self.period({0: second, 1: first})
            first, second = bytes(row[0] for row in rows), bytes(row[1] for row in rows)
        self.assertTrue(EVERY_OCTET in other.hears())
        self.assertTrue(EVERY_OCTET[::-1] in one.hears())

    def test_the_frames_are_the_clock(self) -> None:
        """Without frames no packet goes, whatever time passes; with frames one goes in a period, without any time."""
        telephone = self.telephone(0)
        self.answered(telephone)
        self.passes(5)
        self.assertEqual(telephone.hears(), b"")
        for _ in range(50):
            self.assertEqual(len(self.period()), PERIOD)
        self.assertEqual(len(telephone.hears()), 50 * PERIOD)

    def test_speech_of_others(self) -> None:
        """Packets from another address than the call's are not heard, and none goes to another one."""
        telephone = self.telephone(0)
        talk, _ = self.answered(telephone)
        stranger = udp()
        self.addCleanup(stranger.close)
        for at in range(0, 10 * PERIOD, PERIOD):
            telephone.speaks(b"\x11" * PERIOD, talk.answer.media_port, at, end=stranger)
            for row in self.period({2: b"\x22" * PERIOD}):
                self.assertEqual(row[2], IDLE)
        self.assertEqual(telephone.hears(), b"\x22" * (10 * PERIOD))
        with self.assertRaises(BlockingIOError):
            stranger.recv(2_048)

    # ---- without authentication

    def test_an_invite_without_authentication(self) -> None:
        """It is challenged each time, however it pretends, and no message reaches the exchange."""
        telephone = self.telephone(0)
        telephone.password = "wrong"
        talk = telephone.talk("102")
        telephone.send(telephone.text("INVITE", talk, body=description(port_of(telephone.media))))
        challenge = telephone.get()
        assert challenge is not None
        good = authorization(challenge["www-authenticate"], "101", "one-secret", "INVITE", talk.uri)
        response = re.search('response="([0-9a-f]*)"', good)
        assert response
        for words in (
            "Digest",
            "Basic MTAxOm9uZS1zZWNyZXQ=",
            good.replace(response[1], "0" * 32),
            good.replace("qop=auth, ", ""),
            good.replace('"101"', '"104"'),
            good.replace('realm="exchange"', 'realm="other"'),
            re.sub('nonce="[^"]*"', f'nonce="{"0" * 40}"', good),
            authorization(challenge["www-authenticate"], "101", "wrong", "INVITE", talk.uri),
            authorization(challenge["www-authenticate"], "101", "one-secret", "REGISTER", talk.uri),
            authorization(challenge["www-authenticate"], "101", "one-secret", "INVITE", f"sip:999@{HOST}"),
        ):
            with self.subTest(words=words):
                telephone.send(telephone.text("INVITE", talk, [f"Authorization: {words}"]))
                self.assertEqual(telephone.statuses(), [401])
        self.assertEqual((self.messages, self.gateway.lines[0].calls, self.gateway.transport.servers), ([], {}, {}))

    def test_a_call_as_another(self) -> None:
        """A user who proves to be 101 does not call as 102."""
        telephone = self.telephone(0)
        talk = telephone.talk("103")
        talk.own = f"<sip:102@{HOST}>;tag=x"
        telephone.proves("INVITE", talk, body=description(port_of(telephone.media)))
        self.assertEqual(telephone.statuses(), [403])
        self.assertEqual(self.messages, [])

    def test_a_request_of_another_again(self) -> None:
        """The reply to a challenge is good once: who has recorded it cannot call with it."""
        telephone = self.telephone(0)
        talk = telephone.talk("102")
        telephone.send(telephone.text("INVITE", talk))
        challenge = telephone.get()
        assert challenge is not None
        words = authorization(challenge["www-authenticate"], "101", "one-secret", "INVITE", talk.uri)
        telephone.send(telephone.text("INVITE", talk, [f"Authorization: {words}"]))
        self.message(SETUP)
        self.assertEqual(telephone.statuses(), [100])
        thief = self.telephone(0)
        thief.send(thief.text("INVITE", thief.talk("102"), [f"Authorization: {words}"]))
        self.assertEqual(thief.statuses(), [401])
        self.assertEqual(self.messages, [])


if __name__ == "__main__":
    support.main()
