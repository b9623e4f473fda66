"""The courses of a call through tools/sip that end otherwise than by its users, and what a telephone may ask for in one."""

from __future__ import annotations

import socket
import struct
import time
from collections.abc import Callable
from unittest import mock

import support
from sip_peers import HOST, PERIOD, USERS, ClearedTest, GatewayTest, Talk, Telephone, description, port_of
from support import IDLE
from nemzhuul.live.wire import Address
from nemzhuul.signalling.q931 import (
    ALERTING,
    CALLED_PARTY_NUMBER,
    CALL_PROCEEDING,
    CONNECT,
    CONNECT_ACKNOWLEDGE,
    DISCONNECT,
    PROGRESS_INDICATOR,
    RELEASE,
    RELEASE_COMPLETE,
    RESTART,
    RESTART_ACKNOWLEDGE,
    SETUP,
    STATUS,
    STATUS_ENQUIRY,
    Element,
    Message,
    cause,
    channel_identification,
    number,
    restart_indicator,
)
from nemzhuul.sip.causes import CAUSE_OF_STATUS, STATUS_OF_CAUSE
from nemzhuul.sip.dtmf import PROMPT, key_tone
from nemzhuul.sip.lines import MAX_CALLS
from nemzhuul.sip.pins import PIN_SECONDS
from nemzhuul.sip.users import read_users

TONE_IN_BAND = Element(PROGRESS_INDICATOR, b"\x81\x88")


class CallTest(ClearedTest):
    def setting_up(self, telephone: Telephone, body: bytes | None = None) -> tuple[Talk, Message]:
        talk = telephone.calls("102", body)
        setup = self.message(SETUP)
        self.sends(1, setup.reference, CALL_PROCEEDING, channel_identification(3))
        self.assertEqual(telephone.statuses(), [100])
        return talk, setup


class Refusals(CallTest):
    def test_causes_of_the_exchange(self) -> None:
        """Each cause before the answer becomes its status, with the cause in Reason."""
        telephone = self.telephone(0)
        for value, status in (*STATUS_OF_CAUSE.items(), (77, 500)):
            with self.subTest(value=value):
                talk, setup = self.setting_up(telephone)
                self.sends(1, setup.reference, DISCONNECT, cause(value))
                answer = telephone.get()
                assert answer is not None
                self.assertEqual((answer.status, answer["reason"]), (status, f"Q.850;cause={value}"))
                telephone.acknowledges(talk, answer)
                self.message(RELEASE)
                self.sends(1, setup.reference, RELEASE_COMPLETE)

    def test_statuses_of_a_telephone(self) -> None:
        telephone = self.telephone(1)
        telephone.register()
        for status, value in (*CAUSE_OF_STATUS.items(), (302, 31), (699, 31)):
            with self.subTest(status=status):
                telephone.answers(status, self.called(telephone, "102", reference=status))
                self.assertEqual([message.method for message in telephone.all()], ["ACK"])
                self.assertEqual(self.message(DISCONNECT).cause, value)
                self.sends(0, status, RELEASE)
                self.message(RELEASE_COMPLETE)
        telephone.answers(480, self.called(telephone, "102"), more=["Reason: Q.850;cause=22"])
        self.assertEqual(self.message(DISCONNECT).cause, 22)

    def test_refused_at_once(self) -> None:
        """Descriptions to other machines and without G.711, and numbers that are none: nothing reaches the exchange."""
        telephone = self.telephone(0)
        for body in (description(4000, host="192.0.2.7"), description(4000, host="224.0.0.1"), description(4000, "3"), b"v=0"):
            with self.subTest(body=body):
                telephone.calls("102", body)
                self.assertEqual(telephone.statuses()[-1], 488)
        for digits in ("bob", "1" * 21, "1" * 41, "+", "12x"):
            with self.subTest(digits=digits):
                telephone.calls(digits)
                self.assertEqual(telephone.statuses()[-1], 404)
        self.assertEqual((self.messages, self.gateway.lines[0].calls), ([], {}))

    def test_requests_that_begin_nothing(self) -> None:
        telephone = self.telephone(0)
        talk = telephone.talk("102")
        cases = (("BYE", 481), ("INFO", 481), ("CANCEL", 481), ("SUBSCRIBE", 405), ("UPDATE", 405), ("OPTIONS", 200), ("REFER", 405))
        for method, status in cases:
            with self.subTest(method=method):
                telephone.send(telephone.text(method, talk))
                self.assertEqual(telephone.statuses(), [status])
        telephone.send(telephone.text("INVITE", talk, ["Require: 100rel"]))
        self.assertEqual(telephone.statuses(), [420])
        telephone.send(telephone.text("INVITE", talk).replace(b"Max-Forwards: 70", b"Max-Forwards: 0"))
        telephone.send(telephone.text("INVITE", talk).replace(b"INVITE sip:", b"INVITE tel:"))
        telephone.send(telephone.text("INVITE", talk).replace(b" INVITE\r\n", b" BYE\r\n"))
        self.assertEqual(telephone.statuses(), [483, 416, 400])
        self.assertEqual(self.gateway.transport.servers, {})

    def test_a_full_line(self) -> None:
        telephone = self.telephone(0)
        for _ in range(MAX_CALLS):
            telephone.calls("102")
            self.message(SETUP)
            telephone.all()
        telephone.calls("102")
        answer = telephone.get()
        assert answer is not None
        self.assertEqual((answer.status, answer["reason"]), (503, "Q.850;cause=34"))

    def test_the_exchange_is_silent(self) -> None:
        """T303 ends the call of a telephone; DISCONNECT and RELEASE are followed by their timers."""
        telephone = self.telephone(0)
        telephone.calls("102")
        self.message(SETUP)
        self.passes(5)
        self.assertEqual(telephone.statuses()[:2], [100, 504])
        self.message(DISCONNECT)
        self.passes(40)
        self.message(RELEASE)
        self.message(RELEASE)
        self.assertEqual(self.gateway.lines[0].calls, {})


class Unanswered(CallTest):
    def test_cancel(self) -> None:
        telephone = self.telephone(0)
        for rings in (False, True):
            with self.subTest(rings=rings):
                talk = telephone.talk("102")
                branch = telephone.proves("INVITE", talk, [], description(port_of(telephone.media)))
                setup = self.message(SETUP)
                if rings:
                    self.sends(1, setup.reference, ALERTING)
                telephone.all()
                telephone.send(telephone.text("CANCEL", talk, branch=branch))
                self.assertEqual(sorted(telephone.statuses()), [200, 487])
                self.assertEqual(self.message(DISCONNECT).cause, 16)
                telephone.send(telephone.text("ACK", talk, branch=branch))

    def test_bye_before_the_answer(self) -> None:
        telephone = self.telephone(0)
        talk, setup = self.setting_up(telephone)
        self.sends(1, setup.reference, ALERTING)
        ringing = telephone.get()
        assert ringing is not None
        talk.other = ringing["to"]
        telephone.within("BYE", talk)
        self.assertEqual(sorted(telephone.statuses()), [200, 487])
        self.assertEqual(self.message(DISCONNECT).cause, 16)

    def test_ringing_tone(self) -> None:
        """With a tone in band, the description comes with 183, and the telephone hears it before the answer."""
        telephone = self.telephone(0)
        _, setup = self.setting_up(telephone)
        self.sends(1, setup.reference, ALERTING, TONE_IN_BAND)
        progress = telephone.get()
        assert progress is not None
        self.assertEqual((progress.status, progress["content-type"]), (183, "application/sdp"))
        self.period({2: b"\x33" * PERIOD})
        self.assertEqual(telephone.hears(), b"\x33" * PERIOD)

    def test_the_exchange_gives_up(self) -> None:
        """CANCEL follows the first provisional response; if 200 crosses it, the call is ended by BYE."""
        telephone = self.telephone(1)
        telephone.register()
        for crosses in (False, True):
            with self.subTest(crosses=crosses):
                invite = self.called(telephone, "102")
                self.sends(0, 9, DISCONNECT, cause(102))
                self.message(RELEASE)
                self.assertEqual(telephone.all(), [])
                telephone.answers(180, invite)
                cancel = telephone.get()
                assert cancel is not None
                self.assertEqual((cancel.method, cancel["via"]), ("CANCEL", invite["via"]))
                telephone.answers(200 if crosses else 487, invite, description(4000))
                methods = [message.method for message in telephone.all()]
                self.assertEqual(methods, ["ACK", "BYE"] if crosses else ["ACK"])
                self.sends(0, 9, RELEASE_COMPLETE)

    def test_progress_of_a_telephone(self) -> None:
        """The first of 180 to 183 is ALERTING, and no other one is anything."""
        telephone = self.telephone(1)
        telephone.register()
        invite = self.called(telephone, "102")
        for status in (100, 183, 180, 182):
            telephone.answers(status, invite)
        self.message(ALERTING)
        self.assertEqual(self.messages, [])

    def test_a_telephone_that_is_gone(self) -> None:
        telephone = self.telephone(1)
        telephone.register()
        self.called(telephone, "102")
        self.passes(33)
        self.assertEqual({message.method for message in telephone.all()}, {"INVITE"})
        self.assertEqual(self.message(DISCONNECT).cause, 102)

    def test_two_answers(self) -> None:
        """A proxy sends an INVITE to two telephones, and both answer: the second one is left. An answer again gets ACK."""
        telephone = self.telephone(1)
        telephone.register()
        invite = self.called(telephone, "102")
        for branch, methods in (("", ["ACK"]), ("x", ["ACK", "BYE"]), ("", ["ACK"])):
            telephone.answers(200, invite, description(4000), branch=branch)
            came = telephone.all()
            self.assertEqual([message.method for message in came], methods)
            self.assertEqual({message.tag for message in came}, {f"called102{branch}"})
        self.message(CONNECT)
        self.assertEqual(self.messages, [])

    def test_an_answer_from_nowhere(self) -> None:
        telephone = self.telephone(1)
        telephone.register()
        telephone.answers(200, self.called(telephone, "102"), description(4000), ["Contact: <mailto:x>"])
        self.assertEqual(self.message(DISCONNECT).cause, 38)

    def test_no_port_is_free(self) -> None:
        telephone = self.telephone(1)
        telephone.register()
        self.gateway.context.ports.numbers = range(0)
        self.sends(0, 9, SETUP, channel_identification(5), number(CALLED_PARTY_NUMBER, "102"))
        self.assertEqual(self.message(RELEASE_COMPLETE).cause, 47)
        telephone.calls("101")
        answer = telephone.all()[-1]
        self.assertEqual((answer.status, answer["reason"], self.messages), (503, "Q.850;cause=47", []))

    def test_the_exchange_does_not_take_the_answer(self) -> None:
        """Without CONNECT ACKNOWLEDGE T313 ends the call."""
        telephone = self.telephone(1)
        telephone.register()
        telephone.answers(200, self.called(telephone, "102"), description(4000))
        self.message(CONNECT)
        self.passes(5)
        self.assertEqual(self.message(DISCONNECT).cause, 102)
        self.assertEqual([message.method for message in telephone.all()][:2], ["ACK", "BYE"])

    def test_an_answer_without_speech(self) -> None:
        """200 without G.711, or to another machine: BYE, and DISCONNECT 88."""
        telephone = self.telephone(1)
        telephone.register()
        for at, body in enumerate((b"", description(4000, "3"), description(4000, host="192.0.2.7"))):
            with self.subTest(body=body):
                telephone.answers(200, self.called(telephone, "102", reference=20 + at), body)
                self.assertEqual([message.method for message in telephone.all()], ["ACK", "BYE"])
                self.assertEqual(self.message(DISCONNECT).cause, 88)


class Answered(CallTest):
    def heard(self, telephone: Telephone, port: int, octet: int) -> bool:
        """Whether the exchange gets an octet that a telephone says."""
        rows: list[bytes] = []
        for at in range(6):
            telephone.speaks(bytes([octet]) * PERIOD, port, octet * 100_000 + at * PERIOD)
            rows += self.period()
        return any(row[2] == octet for row in rows)

    def test_hold_and_no_offer(self) -> None:
        telephone = self.telephone(0)
        talk, _ = self.answered(telephone)
        port = talk.answer.media_port
        self.assertTrue(self.heard(telephone, port, 1))
        telephone.hears()
        for line, is_held in (("a=inactive", True), ("a=sendrecv", False)):
            telephone.within("INVITE", talk, description(port_of(telephone.media), more=[line]))
            answer = telephone.get()
            assert answer is not None
            self.assertEqual((answer.status, answer.media_port), (200, port))
            telephone.acknowledges(talk, answer)
            self.assertNotEqual(self.heard(telephone, port, 2 + is_held), is_held)
            self.assertNotEqual(telephone.hears() != b"", is_held)
        telephone.within("INVITE", talk)
        offer = telephone.get()
        assert offer is not None
        self.assertIn(b"m=audio %d RTP/AVP 8 0 101\r\n" % port, offer.body)
        telephone.acknowledges(talk, offer, description(port_of(telephone.media)))
        self.assertTrue(self.heard(telephone, port, 9))

    def test_a_refused_offer(self) -> None:
        """Speech does not move to another machine, and goes on where it was."""
        telephone = self.telephone(0)
        talk, _ = self.answered(telephone)
        for body in (description(4000, host="192.0.2.7"), description(4000, "3"), description(53)):
            telephone.within("INVITE", talk, body)
            self.assertEqual(telephone.statuses(), [488])
        self.assertTrue(self.heard(telephone, talk.answer.media_port, 4))

    def test_a_late_offer(self) -> None:
        """An INVITE without an offer gets one in the 200, and the speech begins at the answer in ACK."""
        telephone = self.telephone(0)
        talk, setup = self.setting_up(telephone, b"")
        self.sends(1, setup.reference, CONNECT)
        self.message(CONNECT_ACKNOWLEDGE)
        offer = telephone.get()
        assert offer is not None
        self.assertIn(b"RTP/AVP 8 0 101", offer.body)
        telephone.acknowledges(talk, offer, description(port_of(telephone.media)))
        self.assertTrue(self.heard(telephone, offer.media_port, 6))

    def test_a_late_answer_without_speech(self) -> None:
        telephone = self.telephone(0)
        talk, setup = self.setting_up(telephone, b"")
        self.sends(1, setup.reference, CONNECT)
        self.message(CONNECT_ACKNOWLEDGE)
        offer = telephone.get()
        assert offer is not None
        telephone.acknowledges(talk, offer, description(4000, "3"))
        bye = telephone.get()
        assert bye is not None
        self.assertEqual((bye.method, bye["reason"], self.message(DISCONNECT).cause), ("BYE", "Q.850;cause=88", 88))

    def test_requests_within_a_call(self) -> None:
        """A second INVITE waits until the first one is acknowledged. After the end nothing is taken."""
        telephone = self.telephone(0)
        talk, _ = self.answered(telephone)
        for method, status in (("OPTIONS", 200), ("UPDATE", 405), ("REFER", 405), ("INVITE", 200), ("INVITE", 491), ("BYE", 200), ("INFO", 481)):
            with self.subTest(method=method, status=status):
                telephone.within(method, talk)
                self.assertEqual(telephone.statuses(), [status])

    def test_the_exchange_asks_for_states(self) -> None:
        """STATUS ENQUIRY gets STATUS with cause 30 and the state: of an answered call, of one that is set up, and of none."""
        _, talking = self.answered(self.telephone(0))
        _, begun = self.setting_up(self.telephone(1))
        for flag, reference, state in ((1, talking.reference, 10), (1, begun.reference, 3), (0, 77, 0)):
            with self.subTest(state=state):
                self.sends(flag, reference, STATUS_ENQUIRY)
                said = self.message(STATUS)
                self.assertEqual((said.flag, said.reference, said.cause, said.call_state), (1 - flag, reference, 30, state))

    def test_the_exchange_restarts_its_line(self) -> None:
        """The calls end, the exchange gets RESTART ACKNOWLEDGE alone, and a telephone can call again."""
        first, second = self.telephone(0), self.telephone(1)
        self.answered(first)
        self.setting_up(second)
        self.sends(0, 0, RESTART, restart_indicator(is_whole_line=True))
        acknowledgement = self.message(RESTART_ACKNOWLEDGE)
        self.assertEqual((acknowledgement.flag, acknowledgement.reference, acknowledgement.restarts_line), (1, 0, True))
        self.assertEqual(self.messages, [])
        bye = first.get()
        assert bye is not None
        self.assertEqual((bye.method, second.statuses()), ("BYE", [503]))
        self.answered(first)

    def test_the_last_call_ends(self) -> None:
        """The gateway says that it sends no more octets."""
        telephone = self.telephone(0)
        talk, setup = self.answered(telephone)
        self.assertEqual(len(self.period()), PERIOD)
        telephone.within("BYE", talk)
        self.message(DISCONNECT)
        self.sends(1, setup.reference, RELEASE_COMPLETE)
        before = self.silences
        self.assertEqual((self.period(), self.period()), ([], []))
        self.assertEqual(self.silences, before + 1)

    def test_messages_on_no_call(self) -> None:
        for kind, value in ((RELEASE, None), (CONNECT, 81)):
            with self.subTest(kind=kind):
                self.sends(0, 77, kind)
                reply = self.message(RELEASE_COMPLETE)
                self.assertEqual((reply.flag, reply.reference, reply.cause), (1, 77, value))
        self.sends(0, 77, RELEASE_COMPLETE)
        self.assertEqual(self.messages, [])

    def test_keys(self) -> None:
        """INFO and telephone events are tones in the channel."""
        telephone = self.telephone(0)
        body = description(port_of(telephone.media), "8 101", ["a=rtpmap:101 telephone-event/8000"])
        talk, setup = self.setting_up(telephone, body)
        self.sends(1, setup.reference, CONNECT)
        self.message(CONNECT_ACKNOWLEDGE)
        telephone.acknowledges(talk, telephone.all()[-1])
        telephone.within("INFO", talk, b"Signal= 7\r\nDuration= 160\r\n", ["Content-Type: application/dtmf-relay"])
        self.assertEqual(telephone.statuses(), [200])
        event = struct.pack("!BBHIIBBH", 0x80, 101, 1, 9, 7, 11, 0, 160)
        telephone.media.sendto(event, (HOST, talk.answer.media_port))
        heard = bytes(row[2] for _ in range(20) for row in self.period())
        self.assertTrue(heard.startswith(key_tone("7") + key_tone("#")))

    def test_no_ack(self) -> None:
        telephone = self.telephone(0)
        telephone.calls("102")
        setup = self.message(SETUP)
        self.sends(1, setup.reference, CONNECT, channel_identification(3))
        self.message(CONNECT_ACKNOWLEDGE)
        self.passes(40)
        came = telephone.all()
        self.assertGreater(sum(message.status == 200 for message in came), 5)
        self.assertIn("BYE", [message.method for message in came])
        self.assertEqual(self.message(DISCONNECT).cause, 102)

    def test_a_silent_telephone(self) -> None:
        """After some time without a packet it is asked, which its frames measure. If it does not reply, the call ends."""
        telephone = self.telephone(0)
        with mock.patch("nemzhuul.sip.calls.QUIET", 2):
            self.answered(telephone)
            self.passes(5)
            self.assertEqual(telephone.all(), [])
            for _ in range(100):
                self.period()
            self.passes(1)
            self.assertEqual([message.method for message in telephone.all()], ["OPTIONS"])
            self.passes(40)
        self.assertEqual(self.message(DISCONNECT).cause, 102)

    def test_the_line_closes(self) -> None:
        """Calls end with cause 41, and the line is tried again until it is there."""
        telephone, other = self.telephone(0), self.telephone(0)
        self.answered(telephone)
        other.calls("102")
        self.line.shutdown(socket.SHUT_RDWR)
        self.pump()
        bye, refusal = telephone.get(), other.all()[-1]
        assert bye is not None
        self.assertEqual((bye.method, bye["reason"], refusal.status), ("BYE", "Q.850;cause=41", 503))
        other.calls("102")
        self.assertEqual(other.statuses()[-1], 503)
        self.passes(2)
        self.accept()
        telephone.all()
        self.answered(telephone)

    def test_strangers_within_a_call(self) -> None:
        """BYE needs both tags and the Call-ID of the call, and its number rises."""
        telephone = self.telephone(0)
        talk, _ = self.answered(telephone)
        wrong = (
            Talk("other", talk.own, talk.other, talk.uri, 9),
            Talk(talk.call_id, talk.own, talk.other + "x", talk.uri, 9),
            Talk(talk.call_id, talk.own + "x", talk.other, talk.uri, 9),
        )
        for stranger in wrong:
            telephone.within("BYE", stranger)
            self.assertEqual(telephone.statuses(), [481])
        telephone.send(telephone.text("BYE", talk))
        self.assertEqual(telephone.statuses(), [500])
        self.assertEqual(self.messages, [])
        self.assertTrue(self.heard(telephone, talk.answer.media_port, 5))

    def test_a_repeated_invite(self) -> None:
        """The same INVITE again is one call."""
        telephone = self.telephone(0)
        talk = telephone.talk("102")
        branch = telephone.proves("INVITE", talk, [], description(4000))
        for _ in range(3):
            telephone.send(telephone.text("INVITE", talk, [], description(4000), branch))
        self.assertEqual(telephone.statuses(), [100] * 4)
        self.message(SETUP)
        self.assertEqual(self.messages, [])


class Trunks(ClearedTest):
    """Calls from and to peers of the users file."""

    def test_a_trunk(self) -> None:
        proxy = Telephone(self, "900")
        users = read_users("users", [*USERS, f"9* sip:{HOST}:{proxy.port}"])
        self.gateway.users = self.gateway.registrar.users = users
        talk = proxy.talk("102")
        proxy.send(proxy.text("INVITE", talk, [], description(port_of(proxy.media))))
        self.message(SETUP)
        self.assertEqual(proxy.statuses(), [100])
        stranger = Telephone(self, "900")
        stranger.send(stranger.text("INVITE", stranger.talk("102"), [], description(4000)))
        self.assertEqual(stranger.statuses(), [401])
        invite = self.called(proxy, "9123")
        self.assertTrue(invite.first.startswith(f"INVITE sip:9123@{HOST}:{proxy.port} "))

    def test_guesses(self) -> None:
        """After 20 wrong replies the next ones are not answered, be they right or wrong; others are not affected."""
        telephone, other = self.telephone(0), self.telephone(1)
        telephone.password = "guess"
        for _ in range(20):
            telephone.calls("102")
            self.assertEqual(telephone.statuses(), [401])
        telephone.password = "one-secret"
        telephone.calls("102")
        self.assertEqual(telephone.statuses(), [])
        other.calls("101")
        self.assertEqual(other.statuses(), [100])
        self.passes(61)
        telephone.calls("102")
        self.assertEqual(telephone.statuses()[0], 100)


class Pins(ClearedTest):
    """Calls to a number that has a PIN."""

    LINES = (*USERS, "30 PIN 1234")

    def asked(self, telephone: Telephone, digits: str = "30", body: bytes | None = None) -> Talk:
        """A call that is answered before the exchange gets it, and hears a tone."""
        talk = telephone.calls(digits, body)
        *_, answer = telephone.all()
        self.assertEqual((answer.status, self.messages), (200, []))
        telephone.acknowledges(talk, answer, description(port_of(telephone.media)) if body == b"" else b"")
        for _ in range(12):
            self.period()
        self.assertTrue(PROMPT in telephone.hears())
        return talk

    def dials(self, telephone: Telephone, talk: Talk, keys: str) -> None:
        for key in keys:
            telephone.within("INFO", talk, f"Signal={key}\r\n".encode(), ["Content-Type: application/dtmf-relay"])
            self.assertEqual(telephone.get().status if key else 0, 200)  # type: ignore[union-attr]

    def test_the_right_pin(self) -> None:
        """The call reaches the exchange after it, also if it is dialled again from a * on, or after a late offer."""
        for keys, body in (("1234", None), ("12*1234", None), ("1234", b"")):
            with self.subTest(keys=keys, body=body):
                telephone = self.telephone(0)
                talk = self.asked(telephone, body=body)
                self.dials(telephone, talk, keys[:-1])
                self.assertEqual(self.messages, [])
                self.dials(telephone, talk, keys[-1])
                setup = self.message(SETUP)
                self.assertEqual(setup.digits, "30")
                self.sends(1, setup.reference, CONNECT, channel_identification(3))
                self.message(CONNECT_ACKNOWLEDGE)
                telephone.hears()
                self.period({2: b"\x33" * PERIOD})
                self.assertEqual(telephone.hears(), b"\x33" * PERIOD)
                self.dials(telephone, talk, "5")
                self.assertTrue(key_tone("5") in bytes(row[2] for _ in range(8) for row in self.period()))
                telephone.within("BYE", talk)
                self.message(DISCONNECT)
                self.sends(1, setup.reference, RELEASE)
                self.message(RELEASE_COMPLETE)

    def test_by_telephone_events(self) -> None:
        telephone = self.telephone(0)
        talk = self.asked(telephone, body=description(port_of(telephone.media), "8 101", ["a=rtpmap:101 telephone-event/8000"]))
        for at, key in enumerate(b"\1\2\3\4"):
            telephone.media.sendto(struct.pack("!BBHIIBBH", 0x80, 101, at, at, 7, key, 0x80, 160), (HOST, talk.answer.media_port))
        self.period()
        self.message(SETUP)

    def test_wrong_pins(self) -> None:
        """A wrong PIN ends the call. After some, calls to numbers with this PIN are refused for a minute, and others are not."""
        telephone, other = self.telephone(0), self.telephone(1)
        for digits in ("30", "301", "302"):
            talk = self.asked(telephone, digits)
            self.dials(telephone, talk, "123")
            telephone.within("INFO", talk, b"Signal=5\r\n", ["Content-Type: application/dtmf-relay"])
            self.assertEqual([message.method for message in telephone.all() if message.method == "BYE"], ["BYE"])
        telephone.calls("303")
        answer = telephone.all()[-1]
        self.assertEqual((answer.status, answer["reason"], self.messages), (403, "Q.850;cause=21", []))
        self.asked(other)
        telephone.calls("102")
        self.message(SETUP)
        self.passes(61)
        self.messages.clear()
        self.asked(self.telephone(0))

    def test_no_pin(self) -> None:
        """A caller that dials nothing is left after some time, and one may leave."""
        telephone = self.telephone(0)
        self.asked(telephone)
        self.passes(PIN_SECONDS - 1)
        self.assertNotIn("BYE", [message.method for message in telephone.all()])
        self.passes(2)
        bye = telephone.all()[0]
        self.assertEqual((bye.method, bye["reason"]), ("BYE", "Q.850;cause=21"))
        telephone.within("BYE", self.asked(telephone))
        self.assertEqual((self.messages, self.gateway.lines[0].calls, self.gateway.lines[0].streams), ([], {}, []))


class OverTcp(ClearedTest):
    """A line with an address of TCP."""

    port = 0

    def listen(self) -> Address:
        self.listener = socket.create_server((HOST, self.port))
        self.addCleanup(self.listener.close)
        self.port = port_of(self.listener)
        return Address(f"tcp:{HOST}:{self.port}", host=HOST, port=self.port)

    def until(self, is_done: Callable[[], bool]) -> None:
        """Has the gateway work until something is done. TCP may take its time."""
        for _ in range(100 * support.PATIENCE):
            self.pump()
            if is_done():
                return
            time.sleep(0.01)
        self.fail("it is not done")

    def test_the_exchange_is_away(self) -> None:
        """The line is tried each second, without a word, until the exchange is there again."""
        line = self.gateway.lines[0]
        self.until(lambda: line.is_attached)
        self.listener.close()
        self.line.shutdown(socket.SHUT_RDWR)
        self.until(lambda: not line.is_attached)
        self.passes(5)
        self.assertEqual(sum("has closed it" in said for said in self.said), 1)
        self.listen()
        self.passes(2)
        self.accept()
        self.until(lambda: line.is_attached)
        self.telephone(0).calls("102")
        self.until(lambda: bool(self.messages))
        self.message(SETUP)


class Lead(GatewayTest):
    LEAD = 20

    def test_the_lead(self) -> None:
        """Idle frames precede the first octets, and then the line gets one frame for each that it sends."""
        telephone = self.telephone(0)
        talk, _ = self.answered(telephone)
        first = self.period()
        self.assertEqual((len(first), len(self.period())), (2 * PERIOD, PERIOD))
        self.assertEqual(set(b"".join(first)), {IDLE})
        self.sends(0, 9, SETUP, channel_identification(5), number(CALLED_PARTY_NUMBER, "999"))
        self.message(RELEASE_COMPLETE)
        telephone.within("BYE", talk)
        self.message(DISCONNECT)


if __name__ == "__main__":
    support.main()
