"""What tools/sip reads and writes without a call: messages, descriptions, users, digests and registrations."""

from __future__ import annotations

import random
import time
import unittest
from dataclasses import replace

import support
from sip_peers import Clock, authorization, description
from nemzhuul.command_line import Refused, WrongWords
from nemzhuul.sip.options import read_settings
from nemzhuul.sip import sdp
from nemzhuul.sip.causes import cause_of, status_of
from nemzhuul.sip.digest import MAX_FAILURES, MAX_NONCES, NONCE_SECONDS, Authenticator
from nemzhuul.sip.limits import FAILURE_SECONDS, MAX_DATAGRAMS, Networks, Rates
from nemzhuul.sip.messages import (
    MAX_DATAGRAM,
    Malformed,
    Received,
    SocketAddress,
    q850_cause,
    read_message,
    read_name_address,
    read_uri,
    request,
    response,
)
from nemzhuul.sip.registrar import Registrar, Target
from nemzhuul.sip.users import read_users

SOURCE = SocketAddress("127.0.0.1", 5070)
VIA = "SIP/2.0/UDP 127.0.0.1:5070;branch=z9hG4bKx"
FIELDS = {
    "Via": VIA,
    "From": '"A, <b>; \\"c\\"" <sip:101@example>;tag=f',
    "To": "<sip:102@example>",
    "Call-ID": "id",
    "CSeq": "7 INVITE",
}


def text(first: str = "INVITE sip:102@example SIP/2.0", body: str = "", **changes: str | None) -> bytes:
    """A request with these fields; a name has _ for -."""
    changed = {name.replace("_", "-"): value for name, value in changes.items()}
    fields: dict[str, str | None] = {**FIELDS, **changed}
    lines = [first, *(f"{name}: {value}" for name, value in fields.items() if value is not None), "", body]
    return "\r\n".join(lines).encode("utf-8", "surrogateescape")


class Messages(unittest.TestCase):
    def test_a_request(self) -> None:
        message = read_message(text(body="v=0", Content_Length="2"), SOURCE)
        self.assertEqual((message.method, message.uri, message.body), ("INVITE", "sip:102@example", b"v="))
        self.assertEqual((message.sender.uri, message.sender.tag), ("sip:101@example", "f"))
        self.assertEqual((message.receiver.uri, message.receiver.tag, message.sequence), ("sip:102@example", "", (7, "INVITE")))
        self.assertEqual((message.via.branch, message.reply_to), ("z9hG4bKx", SOURCE))

    def test_compact_names_folds_and_lists(self) -> None:
        octets = (
            b"\r\nBYE sip:1@h SIP/2.0\r\nv: SIP / 2.0 / UDP h;rport;branch=a ,SIP/2.0/UDP i;branch=b\r\nf:\r\n <sip:1@h>;tag=1\r\n"
            b"t: sip:2@h;tag=2\r\ni: 1\r\nCSEQ: 1  BYE\r\nm: <sip:a@h;x,y>, <sip:b@h>\r\nX-y: 1, 2\r\n\r\n"
        )
        message = read_message(octets, SOURCE)
        self.assertEqual(message.all("contact"), ["<sip:a@h;x,y>", "<sip:b@h>"])
        self.assertEqual(message.all("via"), ["SIP / 2.0 / UDP h;branch=a;received=127.0.0.1;rport=5070", "SIP/2.0/UDP i;branch=b"])
        self.assertEqual((message.get("x-y"), message.receiver.uri, message.receiver.tag), ("1, 2", "sip:2@h", "2"))
        self.assertEqual(message.reply_to, SOURCE)

    def test_a_response(self) -> None:
        message = read_message(text("SIP/2.0 486 Busy here", CSeq="1 INVITE", Reason='Q.850 ;cause=21;text="no"'), SOURCE)
        self.assertEqual((message.status, message.reason, message.method), (486, "Busy here", ""))
        self.assertEqual(q850_cause(message), 21)
        for value in ("SIP;cause=21", "Q.850;cause=128", "Q.850;cause=0", "Q.850", "Q.850;cause=x"):
            with self.subTest(value=value):
                self.assertIsNone(q850_cause(read_message(text(Reason=value), SOURCE)))

    def test_what_is_written_is_read(self) -> None:
        came = read_message(text(Record_Route="<sip:p;lr>"), SOURCE)
        answer = response(came, 200, "mine", [], b"body")
        back = read_message(answer.text(), SOURCE)
        self.assertEqual((back.status, back.body, back.receiver.tag, back.get("record-route")), (200, b"body", "mine", "<sip:p;lr>"))
        again = request("OPTIONS", "sip:1@h", [field for field in came.fields if field.name != "cseq"])
        self.assertIn(b"\r\nCall-ID: id\r\n", again.text())

    def test_refused_messages(self) -> None:
        cases = [
            b"", b"\0", b"INVITE", b"\r\n\r\n", text().replace(b"\r\n\r\n", b"\r\n"), text("INVITE  SIP/2.0"), text("SIP/2.0"),
            text("SIP/2.0 099 x"), text("SIP/2.0 700 x"), text("SIP/2.0 20 x"), text("INVITE sip:1@h SIP/3.0"),
            text("INV<ITE sip:1@h SIP/2.0"), text("INVITE 102 SIP/2.0"), text("HTTP/1.1 200 OK"), text(**{"Bad name": "1"}),
            text(Via="SIP/2.0/UDP"), text(Via="SIP/1.0/UDP h"), text(Via="SIP/2.0/UDP h:0"), text(Via="SIP/2.0/UDP h:65536"),
            text(Via="SIP/2.0/UDP h:123456"), text(CSeq="x INVITE"), text(CSeq="1"), text(CSeq="1 BYE"), text(CSeq="-1 INVITE"),
            text(CSeq=f"{1 << 31} INVITE"), text(From="<sip:1@h"), text(To="<>"), text(Content_Length="9"),
            text(Content_Length="-1"), text(Content_Length="1e1"), text(Subject="a\nb"), text(Subject="a\rb"), text(Subject="a\0b"),
            *(text(**{name.replace("-", "_"): ""}) for name in FIELDS),
            text(Via=None), text(From=None), text(To=None), text(Call_ID=None), text(CSeq=None),
            text(Via=",".join([VIA] * 201)), text(**{f"X{at}": "1" for at in range(200)}),
        ]  # fmt: skip
        for octets in cases:
            with self.subTest(octets=octets[:200]), self.assertRaises(Malformed):
                read_message(octets, SOURCE)

    def test_what_can_be_answered(self) -> None:
        for octets, is_answered in ((text(CSeq="x INVITE"), True), (text(Via="x"), False), (text("SIP/2.0 200 OK", CSeq="x"), False)):
            with self.subTest(octets=octets), self.assertRaises(Malformed) as caught:
                read_message(octets, SOURCE)
            self.assertEqual(caught.exception.request is not None, is_answered)

    def test_a_password_in_a_uri_is_not_said(self) -> None:
        for uri in ("sip:101:hunter2@h:0", "sip:101:hunter2@h h", "tel:hunter2"):
            with self.subTest(uri=uri), self.assertRaises(Malformed) as caught:
                read_uri(uri)
            self.assertNotIn("hunter2", str(caught.exception))

    def test_uris(self) -> None:
        self.assertEqual(read_uri("SIPS:a%31:pw@[::1]:5061;x=y?z=1").address, SocketAddress("::1", 5061))
        self.assertEqual(read_uri("sip:a%31;b:pw@h").user, "a1")
        self.assertEqual(read_name_address("sip:1@h;tag=t").tag, "t")
        for uri in ("sip:", "sip:@", "http:h", "sip:1@h:99999", "sip:<1>@h"):
            with self.subTest(uri=uri), self.assertRaises(Malformed):
                read_uri(uri)

    def test_mutations(self) -> None:
        """Of 2,000 mutated messages, each is read or refused by `Malformed`."""
        drawn = random.Random(76)
        bases = [text(body="v=0"), text("SIP/2.0 200 OK"), text(Contact='"x" <sip:1@h>;expires=9, *', Authorization='Digest a="b"')]
        read = 0
        for _ in range(2_000):
            octets = bytearray(drawn.choice(bases))
            for _ in range(drawn.randint(1, 6)):
                at = drawn.randrange(len(octets))
                octets[at : at + drawn.randint(0, 4)] = drawn.randbytes(drawn.randint(0, 4))
            try:
                message = read_message(bytes(octets), SOURCE)
            except Malformed:
                continue
            read += 1
            response(message, 400, "t").text()
        self.assertGreater(read, 100)

    def test_the_cost_of_a_datagram(self) -> None:
        """The worst datagrams take some milliseconds."""
        room = MAX_DATAGRAM - 600
        fillers = (",", '"', "<", '",', ";", "\\", " ", "\r\n ", "(", ".", "[", "@", ":", "=", "a=b;", "<,>", '"\\')
        for filler in fillers:
            for name in ("Via", "From", "Contact", "CSeq", "Authorization", "Reason"):
                octets = text(**{name: FIELDS.get(name, "") + filler * (room // len(filler))})
                with self.subTest(filler=filler, name=name):
                    begin = time.process_time()
                    try:
                        message = read_message(octets, SOURCE)
                        q850_cause(message)
                        Authenticator({}, Clock()).user_of(message)
                    except Malformed:
                        pass
                    self.assertLess(time.process_time() - begin, 0.1)


    def test_the_cost_of_a_description(self) -> None:
        first = description(4000).decode()
        for filler in ("m=audio 4000 RTP/AVP 8\r\n", "a=ptime:", "a=rtpmap:101 ", " 8", "c=IN IP4 ", "\r\n", "a=sendrecv ", "\t", "m="):
            for begin in ("", first, first.rstrip()):
                with self.subTest(filler=filler, begin=begin):
                    start = time.process_time()
                    try:
                        sdp.read_sdp(f"{begin}{filler * (MAX_DATAGRAM // len(filler))}".encode())
                    except sdp.Unacceptable:
                        pass
                    self.assertLess(time.process_time() - start, 0.1)


class Descriptions(unittest.TestCase):
    PLACE = SocketAddress("127.0.0.1", 20_000)

    def test_an_offer(self) -> None:
        body = description(4000, "0 8 101", ["a=rtpmap:101 telephone-event/8000", "a=ptime:30", "a=sendonly", "m=video 5000 RTP/AVP 96"])
        media = sdp.read_sdp(body)
        self.assertEqual((media.address, media.payload_type, media.keys, media.ptime), (SocketAddress("127.0.0.1", 4000), sdp.PCMU, 101, 30))
        self.assertEqual((media.wants_octets, media.gives_octets), (False, True))
        answer = sdp.answer(media, self.PLACE, 2).decode()
        self.assertIn("m=audio 20000 RTP/AVP 0 101\r\n", answer)
        self.assertIn("a=recvonly\r\n", answer)
        self.assertIn("m=video 0 RTP/AVP 96\r\n", answer)
        self.assertEqual(sdp.read_sdp(sdp.offer(self.PLACE)).address, self.PLACE)

    def test_hold(self) -> None:
        for line, host, both in (
            ("a=inactive", "127.0.0.1", (False, False)),
            ("a=sendonly", "127.0.0.1", (False, True)),
            ("a=recvonly", "127.0.0.1", (True, False)),
            ("a=other", "0.0.0.0", (False, False)),
            ("a=other", "127.0.0.1", (True, True)),
        ):
            with self.subTest(line=line, host=host):
                media = sdp.read_sdp(description(4000, "8", [line], host))
                self.assertEqual((media.wants_octets, media.gives_octets), both)

    def test_refused_descriptions(self) -> None:
        cases = [
            b"", b"v=1\r\n", b"\xff" * 99, description(0), description(22), description(1023), description(65_536),
            description(4000, "3 18"), description(4000, "", []), description(4000, host="example.com"),
            description(4000, host="300.1.1.1"), description(4000).replace(b"IP4", b"IP6"),
            description(4000).replace(b"RTP/AVP", b"RTP/SAVP"), description(4000).replace(b"audio", b"video"),
            description(4000, more=["m=audio 1 RTP/AVP 3"] * 20),
        ]  # fmt: skip
        for body in cases:
            with self.subTest(body=body), self.assertRaises(sdp.Unacceptable):
                sdp.read_sdp(body)


class Users(unittest.TestCase):
    """Who a request is from, and where numbers are, by a clock of the test."""

    LINES = ("# comment", "", "101 one-secret", "102 two#secret", "200 sip:127.0.0.1:5080", "9* sip:127.0.0.2:5060", "91* sip:127.0.0.3")

    def setUp(self) -> None:
        self.clock = Clock()
        self.users = read_users("users", self.LINES)
        self.authenticator = Authenticator(self.users.passwords, self.clock)
        self.registrar = Registrar(self.users, self.clock)

    def proof(self, count: int = 1, password: str = "one-secret", user: str = "101", **changes: str) -> Received:
        """A request whose digest is right."""
        challenge = self.authenticator.challenge(read_message(text(), SOURCE))[0].value
        words = authorization(challenge, user, password, "INVITE", "sip:102@example", count)
        return read_message(text(Authorization=words, **changes), SOURCE)

    def user_of(self, message: Received) -> str | None:
        return self.authenticator.user_of(message)

    def test_a_right_digest(self) -> None:
        self.assertEqual(self.user_of(self.proof()), "101")
        self.assertEqual(self.user_of(self.proof(user="102", password="two#secret")), "102")
        self.assertIsNone(self.user_of(self.proof(password="two#secret")))
        self.assertIsNone(self.user_of(self.proof(user="103")))
        self.assertIsNone(self.user_of(read_message(text(), SOURCE)))

    def test_a_count_rises(self) -> None:
        message = self.proof(2)
        self.assertEqual(self.user_of(message), "101")
        self.assertIsNone(self.user_of(message))
        for count in range(MAX_NONCES):
            self.authenticator.counts[self.authenticator.nonce()] = 1
        self.assertIsNone(self.user_of(self.proof()))
        self.clock.time += NONCE_SECONDS
        self.assertEqual(self.user_of(self.proof()), "101")

    def test_a_nonce_ends(self) -> None:
        message = self.proof()
        self.clock.time += NONCE_SECONDS
        self.assertIsNone(self.user_of(message))
        self.assertIn("stale=true", self.authenticator.challenge(message)[0].value)
        self.assertEqual(self.authenticator.failures.counts, {})
        other = Authenticator(self.users.passwords, self.clock)
        self.assertIsNone(other.user_of(self.proof()))

    def test_guesses(self) -> None:
        for _ in range(MAX_FAILURES):
            self.assertFalse(self.authenticator.is_ignored(self.proof(password="guess")))
            self.assertIsNone(self.user_of(self.proof(password="guess")))
        self.assertTrue(self.authenticator.is_ignored(self.proof()))
        self.assertFalse(self.authenticator.is_ignored(replace(self.proof(), source=SocketAddress("127.0.0.9", 5060))))
        self.assertFalse(self.authenticator.is_ignored(self.proof(user="102")))
        self.clock.time += FAILURE_SECONDS + 1
        self.assertFalse(self.authenticator.is_ignored(self.proof()))
        self.assertEqual(self.user_of(self.proof()), "101")

    def test_without_passwords(self) -> None:
        self.assertEqual(Authenticator(None, self.clock).user_of(read_message(text(), SOURCE)), "101")

    def register(self, to: str = "101", number: int = 1, **changes: str) -> int:
        fields = {"To": f"<sip:{to}@h>", "CSeq": f"{number} REGISTER", "Contact": "<sip:101@h:5099>", **changes}
        return self.registrar.register(read_message(text("REGISTER sip:h SIP/2.0", **fields), SOURCE), "101").status

    def test_registrations(self) -> None:
        self.assertEqual(self.registrar.find("101"), 20)
        self.assertEqual(self.register(Expires="100"), 200)
        self.assertEqual(self.registrar.find("101"), Target("sip:101@h:5099", SOURCE))
        self.assertEqual(self.register(), 500)
        self.clock.time += 100
        self.assertEqual(self.registrar.find("101"), 20)
        self.assertEqual(self.register(number=2, Contact="<sip:101@h>;expires=9999"), 200)
        self.clock.time += 3599
        self.assertNotEqual(self.registrar.find("101"), 20)
        self.assertEqual(self.register(number=3, Contact="*"), 400)
        self.assertEqual(self.register(number=4, Contact="*", Expires="0"), 200)
        self.assertEqual(self.registrar.find("101"), 20)
        refusals = ((403, {"to": "102"}), (423, {"Expires": "59"}), (400, {"Expires": "x"}))
        for status, changes in refusals:
            with self.subTest(changes=changes):
                self.assertEqual(self.register(number=5, **changes), status)
        with self.assertRaises(Malformed):
            self.register(number=6, Contact="<mailto:x>")

    def test_peers(self) -> None:
        self.assertEqual(self.registrar.find("200"), Target("sip:200@127.0.0.1:5080", SocketAddress("127.0.0.1", 5080)))
        self.assertEqual(self.registrar.find("9007"), Target("sip:9007@127.0.0.2:5060", SocketAddress("127.0.0.2", 5060)))
        self.assertEqual(self.registrar.find("9107"), Target("sip:9107@127.0.0.3:5060", SocketAddress("127.0.0.3", 5060)))
        self.assertEqual((self.registrar.find("2001"), self.registrar.find(""), self.registrar.find("9x")), (1, 1, 1))
        self.assertTrue(self.users.is_peer(SocketAddress("127.0.0.1", 5080)))
        self.assertFalse(self.users.is_peer(SocketAddress("127.0.0.1", 5081)))

    def test_refused_users_files(self) -> None:
        """A line that is refused is not printed: it may be a password."""
        for line in ("101", "101 pass word", "30 PIN 1234x", "30 pin 1234", "a 1", "1* hunter2", "101 sip:example.com", "101 sip:", "1" * 21 + " x"):
            with self.subTest(line=line), self.assertRaises(Refused) as caught:
                read_users("users", ["# first", line])
            self.assertTrue(str(caught.exception).startswith("users: line 2 "))
            self.assertFalse(any(word in str(caught.exception) for word in ("1234", "hunter2", "example.com")))
        for lines in (["101 a", "101 b"], ["30 PIN 1", "30 PIN 2"]):
            with self.assertRaises(Refused):
                read_users("users", lines)
        self.assertNotIn("one-secret", repr(self.users))

    def test_pins(self) -> None:
        """A number has the PIN of its first digits, since the exchange routes it by them."""
        users = read_users("users", ["30 PIN 1234", "301 PIN 99", "101 PIN"])
        found = [users.pin_of(digits) for digits in ("30", "305", "3017", "3", "101")]
        self.assertEqual(found, [("30", "1234"), ("30", "1234"), ("301", "99"), None, None])
        self.assertEqual(users.passwords, {"101": "PIN"})
        self.assertNotIn("1234", repr(users))


class Limits(unittest.TestCase):
    def test_networks(self) -> None:
        networks = Networks(["192.168.1.0/24"])
        self.assertTrue(all(map(networks.is_allowed, ("127.0.0.1", "127.9.9.9", "192.168.1.255"))))
        self.assertFalse(any(map(networks.is_allowed, ("192.168.2.1", "8.8.8.8", "::1", "localhost", ""))))
        self.assertFalse(any(map(networks.may_send_to, ("192.168.2.1", "8.8.8.8", "0.0.0.0", "255.255.255.255"))))

    def test_rates(self) -> None:
        clock = Clock()
        rates = Rates(clock)
        self.assertTrue(all(rates.admits("127.0.0.1") for _ in range(MAX_DATAGRAMS)))
        self.assertEqual((rates.admits("127.0.0.1"), rates.admits("127.0.0.2")), (False, True))
        clock.time += 1
        self.assertTrue(rates.admits("127.0.0.1"))

    def test_options(self) -> None:
        settings = read_settings(["--no-passwords", "--buffer", "80", "--lead", "0", "--allow", "10.0.0.0/8", "unix:line"])
        self.assertEqual((settings.buffer, settings.lead, settings.networks, settings.users), (80, 0, ["10.0.0.0/8"], None))
        wrong = ("", "--no-passwords", "--nothing unix:x", "--buffer 19 unix:x", "--allow x unix:x", "--listen here:1 unix:x",
                 "--media 1-2 unix:x", "--users", "--seconds 0 unix:x", "--no-passwords -x")  # fmt: skip
        for words in wrong:
            with self.subTest(words=words), self.assertRaises(WrongWords):
                read_settings(words.split())
        refused = ("unix:x", "--no-passwords --listen 192.0.2.1:5060 unix:x", "--listen 0.0.0.0:5060 unix:x", "--no-passwords x")
        for words in refused:
            with self.subTest(words=words), self.assertRaises(Refused):
                read_settings(words.split())

    def test_causes(self) -> None:
        self.assertEqual([status_of(cause) for cause in (1, 17, 18, 20, 28, 34, 77)], [404, 486, 408, 480, 484, 503, 500])
        self.assertEqual([cause_of(status) for status in (404, 486, 480, 603, 484, 503, 302, 699)], [1, 17, 18, 21, 28, 41, 31, 31])


if __name__ == "__main__":
    support.main()
