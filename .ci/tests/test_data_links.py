"""Lines with data links: their users at the sockets of a running exchange."""

from __future__ import annotations

import re
import select
import socket
import time
from collections.abc import Callable
from pathlib import Path

import support
from attached import Attached, Raw
from nemzhuul.signalling import lapd, links
from support import PATIENCE, needs_program, sequence_of, slow, tool


SETUP = bytes.fromhex("080200010504038090A31803A98381700480313031")


class LinkUser:
    """The user side of a data link, at the socket of a running exchange."""

    def __init__(self, path: Path) -> None:
        self.connection = socket.socket(socket.AF_UNIX, socket.SOCK_SEQPACKET)
        self.connection.connect(str(path))
        self.link = links.Link(is_user=True, now=time.monotonic(), times={"T200": 1, "T203": 10})
        self.gotten: list[bytes] = []  # frames without their check sequences
        self.messages: list[bytes] = []

    def send(self, octets: bytes) -> None:
        """Sends a frame; libpri leaves the two octets at its end as they are, and the driver overwrites them."""
        self.connection.send(octets + b"\xAA\xBB")

    def act(self, what: Callable[[links.Link, float], object]) -> None:
        """Has the link do something, and sends what it has to."""
        what(self.link, time.monotonic())
        for octets in self.link.out:
            self.send(octets)
        self.link.out.clear()

    def get(self, octets: bytes, sequence: bytes) -> None:
        assert sequence == sequence_of(octets), octets.hex()
        self.gotten.append(octets)
        told = self.link.receive(octets, time.monotonic())
        if told and told[1] is not None:
            self.messages.append(told[1])
        self.act(lambda link, now: link.finish(now))

    def until(self, is_done: Callable[[LinkUser], bool]) -> None:
        """Waits until something is so of this user."""
        last = time.monotonic() + PATIENCE
        while not is_done(self):
            assert time.monotonic() < last, [lapd.frame_text(octets, False) for octets in self.gotten]
            if select.select([self.connection], [], [], 0.05)[0]:
                datagram = self.connection.recv(1000)
                self.get(datagram[:-2], datagram[-2:])
            self.act(lambda link, now: link.turn(now))

    def is_busy(self, is_so: bool) -> None:
        """Says that it takes no I frames, or that it takes them again."""
        frame = lapd.LinkFrame("RNR" if is_so else "RR", is_command=False, nr=self.link.received)
        self.send(lapd.write_frame(frame, is_from_user=True))

    def establish(self) -> None:
        self.act(lambda link, now: link.establish(now))
        self.until(lambda user: user.link.is_multiple_frame)

    def submit(self, message: bytes) -> None:
        self.act(lambda link, now: link.submit(message, now))

    def gets(self, digits: str) -> None:
        """Waits for a message of these octets, and forgets it and those before it."""
        message = bytes.fromhex(digits)
        self.until(lambda user: message in user.messages)
        del self.messages[: self.messages.index(message) + 1]

    def gets_frame(self, digits: str) -> None:
        frame = bytes.fromhex(digits)
        self.until(lambda user: frame in user.gotten)
        self.gotten.clear()


@needs_program
class DataLinks(Attached):
    """Lines with data links."""

    SETTINGS = "exchange 1 3 0 1\nnumber 100 line 0\nnumber 101 line 1\nnail 0/31 1/31\n"
    DISCONNECT = "080200014508028290"

    def user(self, line: int = 0) -> LinkUser:
        user = LinkUser(self.folder / f"link{line}")
        self.addCleanup(user.connection.close)
        return user

    def called(self, user: LinkUser) -> Raw:
        """A call of the user of line 0, which line 1 answers, and the endpoint of that."""
        endpoint = self.attached(1)
        user.submit(SETUP)
        user.gets("08028001021803A98381")
        endpoint.gets("M 0802000105")
        endpoint.send("M 0802800107")
        user.gets("0802800107")
        return endpoint

    def trace(self) -> list[str]:
        return (self.folder / "live.trace").read_text().splitlines()

    def test_a_call(self) -> None:
        """The user's SABME establishes the link, and messages pass in I frames, both ways."""
        self.attach("--burst", "5", lines=(1,), linked=(0,))
        user = self.user()
        user.establish()
        self.assertIn(bytes.fromhex("000173"), user.gotten)
        endpoint = self.called(user)
        endpoint.send("M 080280014508028090")
        user.gets(self.DISCONNECT.replace("0802000145", "0802800145"))
        user.submit(bytes.fromhex("080200014D"))
        user.gets("080280015A")
        self.end()
        self.assertEqual(self.trace()[:2], ["exchange 1 3 0 1", "link 0"])
        self.assertIn("# line 0 gets UA, F=1", self.trace())
        self.assertIn("# line 0 sends I, P=0, N(S)=0, N(R)=0: SETUP 0001: number 101; channel 1", self.trace())
        self.assertIn("L 0 00010000" + SETUP.hex().upper(), self.trace())

    def test_calls_from_before_the_start(self) -> None:
        """An exchange that was killed in a call starts again: the user gets RESTART with the link, and calls work."""
        for options in ((), ("--overwrite",)):
            self.attach("--burst", "5", *options, lines=(1,), linked=(0,))
            user = self.user()
            user.establish()
            user.gets("0802000046790186")
            user.submit(bytes.fromhex("080280004E790186"))
            endpoint = self.called(user)
            self.assertEqual(self.trace().count("restart 0"), 1)
            if not options:
                self.kill()
        endpoint.send("M 080280014508028090")
        user.gets(self.DISCONNECT.replace("0802000145", "0802800145"))
        self.end()

    def test_both_sides_call_the_link(self) -> None:
        """The exchange sends SABME each time T200 has run out, until the user answers one."""
        (self.folder / "settings").write_text(self.SETTINGS.replace("\n", "\ntimer T200 2000\n", 1))
        self.attach("--burst", "5", lines=(), linked=(0,))
        user = self.user()
        for _ in range(2):
            self.assertEqual(user.connection.recv(1000)[:-2], bytes.fromhex("02017F"))
        user.until(lambda user: user.link.is_multiple_frame)
        user.submit(bytes.fromhex("0802000175"))
        user.gets("080280017D0802829E140100")
        self.end()

    def test_frames_that_are_none(self) -> None:
        """They are discarded, and the frame after them is answered. A frame that is rejected has the link established again."""
        self.attach("--burst", "5", lines=(1,), linked=(0,))
        user = self.user()
        user.establish()
        self.called(user)
        user.gotten.clear()
        for digits in ("", "0001", "00017F"[:4], "FC010000", "00030000", "01010000", "00000000", "0001AF8280", "000103", "000102", "020101"):
            user.send(bytes.fromhex(digits))
        user.connection.send(b"")
        user.connection.send(b"\0")
        user.send(bytes.fromhex("00010105"))
        user.gets_frame("00010103")
        self.assertEqual(user.link.state, links.ESTABLISHED)
        for digits in ("00010108", "0201077F00", "0001" + "00" * 263, "0001" + "00" * 5000):
            user.send(bytes.fromhex(digits))
            user.gets_frame("02017F")
            user.until(lambda user: user.link.is_multiple_frame)
        user.submit(bytes.fromhex("0802000175"))
        user.gets("080280017D0802829E14010A")
        self.end()
        longest = max(len(line) for line in self.trace() if line.startswith("L"))
        self.assertEqual(longest, len("L 0 ") + 530)
        self.assertTrue(any("frames of its data link were taken, 1 cut; 0 were lost" in line for line in self.said), self.said)

    @slow
    def test_an_endpoint_leaves(self) -> None:
        """Its frames are lost, and the exchange goes on. When it is back in time, its call is still there."""
        (self.folder / "settings").write_text(self.SETTINGS.replace("\n", "\ntimer T200 1200\ntimer T203 3200\n", 1))
        self.attach("--burst", "5", lines=(1,), linked=(0,))
        user = self.user()
        user.establish()
        endpoint = self.called(user)
        user.connection.close()
        self.until("attach: line 0: the endpoint of its data link has gone")
        endpoint.send("M 0802800175")
        self.assertEqual(endpoint.gets("M 080200017D"), "M 080200017D0802829E14010A")
        report = self.folder / "live.report"
        last = time.monotonic() + PATIENCE
        while not re.search(r" down 0\b", report.read_text()) and time.monotonic() < last:
            time.sleep(0.05)
        user = self.user()
        user.establish()
        user.gets("0802800175")
        endpoint.send("M 080280014508028090")
        user.gets("080280014508028290")
        user.connection.close()
        self.until("attach: line 0: the endpoint of its data link has gone")
        self.user().establish()
        self.end()
        self.assertTrue(any(re.search("[1-9][0-9]* were lost to it", line) for line in self.said), self.said)

    def test_frames_and_messages_at_two_sockets(self) -> None:
        """The frames of a line with a data link are at its first socket, which takes no message and can change hands."""
        self.attach("--burst", "5", lines=(0, 1), linked=(0,))
        user = self.user()
        user.establish()
        listener = self.called(user)
        listener.send("F none")
        for row in ("11" * 30, "22" * 30):
            speaker = self.attached(0)
            speaker.send(f"F {row}", f"F {row}", "F none")
            self.assertEqual(listener.gets(f"F {row[:2]}")[:4], f"F {row[:2]}")
            speaker.close()
            self.until("attach: line 0: its endpoint has gone")
        speaker = self.attached(0)
        speaker.send("M 0802000175")
        self.assertEqual(speaker.lines.read(), b"refused line 0 has a data link, over which its messages come\n")
        user.submit(bytes.fromhex("0802000175"))
        user.gets("080280017D0802829E14010A")
        another = socket.socket(socket.AF_UNIX, socket.SOCK_SEQPACKET)
        self.addCleanup(another.close)
        another.connect(str(self.folder / "link0"))
        self.until("attach: line 0: its data link has an endpoint already")
        self.assertEqual(another.recv(10), b"")
        self.end()
        self.assertNotIn("M 0 0802000046790186", self.trace())

    def test_refused_words(self) -> None:
        (self.folder / "with_a_change").write_text("exchange 1 1 0 1\ndown 0\n")
        (self.folder / "with_a_frame").write_text("exchange 1 1 0 1\nlink 0\nL 0 00017F\n")
        link = ("--link", "0", "unix:link0")
        cases = (
            ((*link, *link, "settings"), "line 0 has two addresses"),
            (("--link", "0", "tcp:localhost:0", "settings"), "tcp:localhost:0 is no address of a data link: it is unix:PATH"),
            (("--link", "3", "unix:link3", "settings"), "settings has no line 3: it has lines 0 to 2"),
            ((*link, "with_a_change"), "with_a_change has a line `up` or `down` for line 0, whose data link is attached"),
            ((*link, "with_a_frame"), "with_a_frame has messages, frames or changes of meters: endpoints send them"),
        )
        for words, said in cases:
            with self.subTest(words=words):
                found = tool("attach", *words, folder=self.folder)
                self.assertEqual(found, (1, b"", f"attach: {said}\n"))
        self.assertEqual(tool("attach", "--link", "0", folder=self.folder)[0], 2)
        self.assertEqual(list(self.folder.glob("link*")), [])


if __name__ == "__main__":
    support.main()
