"""Calls of SIP telephones through the running exchange. The test gives it each frame and each message, and nothing waits for time."""

from __future__ import annotations

import random
import subprocess
from collections import deque
from collections.abc import Sequence

import support
from sip_peers import HOST, PERIOD, ClearedTest, Sip, Talk, Telephone, description, port_of
from support import IDLE, needs_program, octet_of_value, stream, value_of_octet
from nemzhuul.live.wire import IDLE_ROW
from nemzhuul.programs.program import PROGRAM
from nemzhuul.sip.dtmf import key_tone

RINGBACK = bytes(range(1, 101))
BUFFERED = 8  # periods until all that was said is heard
T301_PERIODS = 25
SETTINGS = f"""exchange 1 1 1 1
number 1 line 0
number 30 room 0
tone ringback {RINGBACK.hex()}
timer T301 {T301_PERIODS * PERIOD}
"""


def digits_of(word: bytes) -> bytes:
    """The digits of `LINE:DIGITS`."""
    return word.partition(b":")[2]


def lines_of(reply: bytes) -> list[bytes]:
    """The lines that the endpoint of line 0 gets from a line of the report."""
    _, kind, *words = reply.split()
    if kind == b"message":
        return [b"M " + digits_of(word) for word in words[3 if words[:1] == [b"moved"] else 0 :]]
    _, *words = words
    lines = []
    while words[:1] == [b"send"]:
        lines.append(b"M " + digits_of(words[1]))
        words = words[2:]
    return [*lines, b"F " + (digits_of(words[0]) if words else IDLE_ROW)]


class RunningExchange(ClearedTest):
    """The gateway is the endpoint of line 0."""

    def setUp(self) -> None:
        self.messages_due: deque[bytes] = deque()  # what the gateway sent, in digits
        self.frames_due: deque[bytes] = deque()
        self.exchange = subprocess.Popen([PROGRAM, "follow"], stdin=subprocess.PIPE, stdout=subprocess.PIPE)
        self.input, self.output = stream(self.exchange.stdin), stream(self.exchange.stdout)
        self.addCleanup(self.exchange.wait)
        self.addCleanup(self.output.close)
        self.addCleanup(self.input.close)
        self.input.write(SETTINGS.encode())
        super().setUp()

    def read(self) -> None:
        try:
            text = self.begun + self.line.recv(1 << 22)
        except BlockingIOError:
            return
        *lines, self.begun = text.split(b"\n")
        for line in lines:
            if line.startswith(b"M "):
                self.messages_due.append(line[2:])
            elif line != b"F none":
                self.frames_due.append(line[2:])

    def give(self, lines: Sequence[bytes]) -> None:
        """Gives the exchange these events, and the gateway what it sends at each."""
        self.input.write(b"".join(line + b"\n" for line in lines))
        self.input.flush()
        replies = [self.output.readline() for _ in lines]
        self.line.sendall(b"".join(line + b"\n" for reply in replies for line in lines_of(reply)))

    def pump(self) -> None:
        super().pump()
        while self.messages_due:
            self.give([b"M 0 " + self.messages_due.popleft()])
            super().pump()

    def periods(self, count: int) -> None:
        """The frames of some periods pass."""
        for _ in range(count):
            self.give([b"F 0:" + self.frames_due.popleft() if self.frames_due else b"F" for _ in range(PERIOD)])
            self.pump()


class Party:
    """A telephone in a call: what it says and has heard, and the port of the gateway for it."""

    def __init__(self, telephone: Telephone, port: int, talk: Talk | None = None) -> None:
        self.telephone, self.port, self.talk = telephone, port, talk
        self.stamp = 0

    def speaks(self, octets: bytes) -> None:
        self.telephone.speaks(octets, self.port, self.stamp)
        self.stamp += PERIOD


class ExchangeTest(RunningExchange):
    def setUp(self) -> None:
        super().setUp()
        self.one, self.other = self.telephone(0), self.telephone(1)
        self.other.register()
        self.drawn = random.Random(76)

    def call(self, digits: str = "102", body: bytes | None = None) -> tuple[Talk, Sip]:
        """A call of 101, and the INVITE that 102 gets."""
        talk = self.one.calls(digits, body)
        self.assertEqual(self.one.statuses(), [100])
        invite = self.other.get()
        assert invite is not None
        self.assertEqual(invite.method, "INVITE")
        return talk, invite

    def answers(self, talk: Talk, invite: Sip, body: bytes = b"") -> list[Party]:
        """102 answers."""
        self.other.answers(200, invite, description(port_of(self.other.media)))
        self.assertEqual([message.method for message in self.other.all()], ["ACK"])
        *_, answer = self.one.all()
        self.assertEqual(answer.status, 200)
        self.one.acknowledges(talk, answer, body)
        return [Party(self.one, answer.media_port, talk), Party(self.other, invite.media_port)]

    def in_room(self, telephone: Telephone) -> Party:
        talk = telephone.calls("30")
        *_, answer = telephone.all()
        self.assertEqual(answer.status, 200)
        telephone.acknowledges(talk, answer)
        return Party(telephone, answer.media_port, talk)

    def said_and_heard(self, parties: Sequence[Party], periods: int = 12) -> tuple[list[bytes], list[bytes]]:
        """Each party says random octets at the same time. Returns what they said, and what they heard."""
        said = [self.drawn.randbytes(periods * PERIOD) for _ in parties]
        for party in parties:
            party.telephone.hears()
        for at in range(0, periods * PERIOD, PERIOD):
            for party, octets in zip(parties, said):
                party.speaks(octets[at : at + PERIOD])
            self.periods(1)
        self.periods(BUFFERED)
        return said, [party.telephone.hears() for party in parties]

    def assert_they_talk(self, parties: Sequence[Party]) -> None:
        """Two parties hear each other octet for octet."""
        (first, second), (heard_by_first, heard_by_second) = self.said_and_heard(parties)
        self.assertTrue(first in heard_by_second)
        self.assertTrue(second in heard_by_first)

    def assert_refused(self, status: int, value: int) -> None:
        """101 gets a final response with a cause, and acknowledges it."""
        *_, answer = self.one.all()
        self.assertEqual((answer.status, answer["reason"]), (status, f"Q.850;cause={value}"))


@needs_program
class CallsOfTwo(ExchangeTest):
    """Calls of two."""

    def test_two_talk_and_one_ends(self) -> None:
        for ends_first in (True, False):
            with self.subTest(ends_first=ends_first):
                talk, invite = self.call()
                parties = self.answers(talk, invite)
                self.assert_they_talk(parties)
                if ends_first:
                    self.one.within("BYE", talk)
                    left = self.other
                else:
                    back = Talk(invite["call-id"], f"{invite['to']};tag=called102", invite["from"], f"sip:{HOST}")
                    self.other.within("BYE", back)
                    left = self.one
                bye = left.get()
                assert bye is not None
                self.assertEqual((bye.method, bye["reason"]), ("BYE", "Q.850;cause=16"))
                left.answers(200, bye)
                self.assertEqual(self.gateway.lines[0].calls, {})
                self.assertEqual((self.one.statuses(), self.other.statuses()), ([200], []) if ends_first else ([], [200]))

    def test_ringing_tone(self) -> None:
        """The tone of the exchange is heard octet for octet, until the called user answers."""
        talk, invite = self.call()
        self.other.answers(180, invite)
        progress = self.one.get()
        assert progress is not None
        self.assertEqual((progress.status, progress["content-type"]), (183, "application/sdp"))
        self.periods(10)
        self.assertTrue(RINGBACK * 10 in self.one.hears())
        parties = self.answers(talk, invite)
        self.assert_they_talk(parties)

    def test_no_answer(self) -> None:
        """T301 of the exchange ends the call with cause 19, which is 480. The called telephone gets CANCEL."""
        talk, invite = self.call()
        self.other.answers(180, invite)
        self.periods(T301_PERIODS - 1)
        self.assertEqual(self.one.statuses(), [183])
        self.assertEqual(self.other.all(), [])
        self.periods(2)
        self.assert_refused(480, 19)
        self.assertEqual([message.method for message in self.other.all()], ["CANCEL"])
        self.other.answers(487, invite)
        self.assertEqual([message.method for message in self.other.all()], ["ACK"])
        self.assertEqual(self.gateway.lines[0].calls, {})

    def test_cancel(self) -> None:
        for rings in (False, True):
            with self.subTest(rings=rings):
                talk = self.one.talk("102")
                branch = self.one.proves("INVITE", talk, [], description(port_of(self.one.media)))
                invite = self.other.get()
                assert invite is not None
                self.other.answers(180 if rings else 100, invite)
                self.one.all()
                self.one.send(self.one.text("CANCEL", talk, branch=branch))
                self.assertEqual(sorted(self.one.statuses()), [200, 487])
                self.one.send(self.one.text("ACK", talk, branch=branch))
                self.assertEqual([message.method for message in self.other.all()], ["CANCEL"])
                self.other.answers(487, invite)
                self.assertEqual([message.method for message in self.other.all()], ["ACK"])
                self.assertEqual(self.gateway.lines[0].calls, {})

    def test_refusals_of_a_telephone(self) -> None:
        """The status of the called telephone, and the status and the cause that the caller gets."""
        for status, seen, value in ((486, 486, 17), (603, 603, 21), (404, 404, 1), (480, 408, 18), (503, 503, 41), (302, 480, 31)):
            with self.subTest(status=status):
                _, invite = self.call()
                self.other.answers(status, invite)
                self.assert_refused(seen, value)
                self.other.all()

    def test_numbers(self) -> None:
        """Numbers of which none is called: the number, the status, and the cause."""
        for digits, status, value in (("103", 480, 20), ("199", 404, 1), ("999", 404, 1), ("3", 484, 28)):
            with self.subTest(digits=digits):
                self.one.calls(digits)
                self.assert_refused(status, value)
        self.assertEqual(self.other.all(), [])

    def test_hold(self) -> None:
        """While a call is held, neither hears the other. After that both do."""
        talk, invite = self.call()
        parties = self.answers(talk, invite)
        for line, is_held in (("a=inactive", True), ("a=sendrecv", False)):
            self.one.within("INVITE", talk, description(port_of(self.one.media), more=[line]))
            answer = self.one.get()
            assert answer is not None
            self.assertEqual(answer.status, 200)
            self.one.acknowledges(talk, answer)
            if is_held:
                _, heard = self.said_and_heard(parties)
                self.assertEqual((heard[0], set(heard[1])), (b"", {IDLE}))
            else:
                self.assert_they_talk(parties)

    def test_a_late_offer(self) -> None:
        """An INVITE without an offer gets one with the answer of the called user. The speech begins at its answer in ACK."""
        talk, invite = self.call(body=b"")
        self.assert_they_talk(self.answers(talk, invite, description(port_of(self.one.media))))

    def test_a_key(self) -> None:
        talk, invite = self.call()
        self.answers(talk, invite)
        self.one.within("INFO", talk, b"Signal=5\r\n", ["Content-Type: application/dtmf-relay"])
        self.periods(BUFFERED + len(key_tone("5")) // PERIOD)
        self.assertTrue(key_tone("5") in self.other.hears())


@needs_program
class CallsToRooms(ExchangeTest):
    def test_a_room_of_three(self) -> None:
        """Each hears the A-law sum of the two others, octet for octet, and not itself."""
        parties = [self.in_room(self.telephone(at)) for at in range(3)]
        said, heard = self.said_and_heard(parties)
        for at in range(3):
            others = [octets for other, octets in enumerate(said) if other != at]
            mixed = bytes(octet_of_value(sum(map(value_of_octet, pair))) for pair in zip(*others))
            self.assertTrue(mixed in heard[at], at)

    def test_a_full_line(self) -> None:
        """A line has 30 channels. The next call is refused with cause 34, and one after the end of another is answered."""
        parties = [self.in_room(self.one) for _ in range(30)]
        self.one.calls("30")
        self.assert_refused(503, 34)
        last = parties[-1].talk
        assert last is not None
        self.one.within("BYE", last)
        self.one.all()
        self.in_room(self.one)


if __name__ == "__main__":
    support.main()
