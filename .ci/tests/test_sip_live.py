"""tools/sip as a command: its options and output, and calls over the exchange by SIP telephones that are installed."""

from __future__ import annotations

import os
import signal
import unittest
from pathlib import Path

import support
from sip_commands import USERS, Exchanged, LiveTelephone, Started, needs, own_host
from sip_peers import HOST, description, port_of, read_sip, udp
from support import EXAMPLES, command, needs_program, slow, tool
from nemzhuul.sip.transactions import listening_socket

TRIES = 3  # of sipp


class Command(Started):
    def test_it_prints_no_password(self) -> None:
        """It prints who registers, what is malformed and, at USR1, what has happened, without a password."""
        at = self.gateway("--users", "users", "--messages", "unix:line")
        phone = udp()
        self.addCleanup(phone.close)
        phone.settimeout(support.PATIENCE)
        uri = "sip:101:one-secret@127.0.0.1:0"
        phone.sendto(f"REGISTER {uri} SIP/2.0\r\nVia: SIP/2.0/UDP {HOST}:0\r\nFrom: <{uri}>\r\n\r\n".encode(), (HOST, at))
        self.until("sip: 127.0.0.1:")
        lines = (f"INVITE {uri} SIP/2.0", f"Via: SIP/2.0/UDP {HOST}:{port_of(phone)};branch=z9hG4bK1", f"From: <{uri}>", f"To: <{uri}>",
                 "Call-ID: 1", "CSeq: 1 INVITE", "", "")  # fmt: skip
        phone.sendto("\r\n".join(lines).encode() + description(4000), (HOST, at))
        self.assertEqual(read_sip(phone.recv(8_192)).status, 400)
        self.work.send_signal(signal.SIGUSR1)
        self.until("sip: RTP: ")
        said = self.end()
        self.assertIn("sip: SIP: 2 datagrams came, 1 were sent, 0 repetitions, 2 malformed", said)
        self.assertNotIn("secret", said)

    def test_refused_commands(self) -> None:
        (self.folder / "wrong").write_text("101 one secret\n")
        cases = (
            (("unix:x",), "it needs --users FILE, or --no-passwords: without passwords, all processes of this machine can call"),
            (("--users", "none", "unix:x"), "none cannot be read: No such file or directory"),
            (("--no-passwords", "--listen", "192.0.2.1:5060", "unix:x"),
             "--no-passwords listens on 127.0.0.1 only: who reaches another address could call as anyone"),
            (("--users", "users", "--listen", "192.0.2.1:5060", "unix:x"),
             "192.0.2.1:5060 cannot be listened on: Cannot assign requested address"),
        )  # fmt: skip
        for words, said in cases:
            with self.subTest(words=words):
                self.assertEqual(tool("sip", *words, folder=self.folder), (1, b"", f"sip: {said}\n"))
        status, _, said = tool("sip", "--users", "wrong", "unix:x", folder=self.folder)
        self.assertEqual((status, said.startswith("sip: wrong: line 1 is not"), "secret" in said), (1, True, False))
        self.assertEqual(tool("sip", folder=self.folder)[0], 2)

    def test_refused_commands_of_attach(self) -> None:
        """With wrong options of the gateway, or an address that it cannot have, the exchange does not start."""
        (self.folder / "wrong").write_text("101 one secret\n")
        (self.folder / "settings").write_text("exchange 1 1 0 1\n")
        status, _, said = tool("attach", "--sip", "wrong", "settings", folder=self.folder)
        self.assertEqual((status, said.startswith("attach: wrong: line 1 is not"), "secret" in said), (1, True, False))
        used = udp()
        self.addCleanup(used.close)
        cases = (
            ("--sip-listen 127.0.0.1:0", "--sip-listen and --sip-allow need --sip USERS: without passwords, run tools/sip itself"),
            ("--sip users --line 0 unix:line", "--sip has no line: each line has an address or a data link"),
            (f"--sip users --sip-listen {HOST}:{port_of(used)}", f"{HOST}:{port_of(used)} cannot be listened on: Address already in use"),
            ("--sip users --sip-listen 192.0.2.1:5060", "192.0.2.1:5060 cannot be listened on: Cannot assign requested address"),
            ("--sip users --sip-listen 0.0.0.0:5060", "0.0.0.0 is not an address that a telephone can send to: name one of this machine"),
        )
        for words, said in cases:
            with self.subTest(words=words):
                self.assertEqual(tool("attach", *words.split(), "settings", folder=self.folder), (1, b"", f"attach: {said}\n"))
        for words in ("--sip", "--sip users --sip-listen here", "--sip users --sip-allow here"):
            with self.subTest(words=words):
                self.assertEqual(tool("attach", *words.split(), "settings", folder=self.folder)[0], 2)


@needs_program
class OfAttach(Started):
    """The gateway that tools/attach starts."""

    def test_it_runs_the_gateway(self) -> None:
        """A telephone calls a room, and no file of the exchange has a password. The gateway ends with the exchange."""
        (self.folder / "settings").write_text("exchange 1 1 1 1\nnumber 30 room 0\n")
        files = [word for name in ("log", "report", "records", "pcap") for word in (f"--{name}", name)]
        self.at = self.listening(command("attach", "--sip", "users", "--sip-listen", f"{HOST}:0", *files, "settings"))
        self.until("sip: unix:")
        telephone = LiveTelephone(self, "101", "one-secret")
        telephone.within("BYE", telephone.enters("30"))
        telephone.gets(200)
        said = self.end()
        self.assertIn("INVITE 1", said)
        self.assertNotIn("has ended", said)
        for text in (said, *((self.folder / name).read_bytes().decode("latin-1") for name in ("log", "report", "records", "pcap"))):
            self.assertTrue(text)
            self.assertNotIn("secret", text)
        listening_socket(self.address).close()

    def test_the_gateway_ends(self) -> None:
        """It is said, and the exchange goes on."""
        (self.folder / "settings").write_text("exchange 1 1 0 1\n")
        self.at = self.listening(command("attach", "--sip", "users", "--sip-listen", f"{HOST}:0", "settings"))
        self.until("sip: unix:")
        children = Path(f"/proc/{self.work.pid}/task/{self.work.pid}/children").read_text().split()
        (gateway,) = (int(child) for child in children if b"--users" in Path(f"/proc/{child}/cmdline").read_bytes())
        os.kill(gateway, signal.SIGKILL)
        self.until("attach: tools/sip has ended with status -9, and its lines have no endpoint")
        self.end()


@needs_program
@slow
class Restarts(Exchanged):
    """The gateway or the exchange ends during a call, and is started again."""

    def setUp(self) -> None:
        super().setUp()
        self.at = self.attach(USERS)

    def test_the_gateway(self) -> None:
        """The exchange ends its calls, and the next gateway has the line."""
        LiveTelephone(self, "101", "one-secret").enters("30")
        self.work.kill()
        self.work.wait()
        self.at = self.start_gateway()
        telephone = LiveTelephone(self, "101", "one-secret")
        for _ in range(30):  # the whole line
            telephone.enters("30")
        self.end()

    def test_the_exchange(self) -> None:
        """The gateway ends its calls with cause 41, and has the line again when the exchange is there."""
        telephone = LiveTelephone(self, "101", "one-secret")
        telephone.enters("30")
        self.exchange.terminate()
        self.assertEqual(telephone.gets("BYE")["reason"], "Q.850;cause=41")
        self.exchange.wait()
        self.start_exchange()
        self.until("sip: unix:line is line 0")
        LiveTelephone(self, "102", "two-secret").enters("30")
        self.end()


@needs_program
@slow
class Installed(Exchanged):
    USERS = (EXAMPLES / "phones" / "users").read_text() if (EXAMPLES / "phones" / "users").exists() else ""

    def assert_calls_pass(self, *words: str) -> None:
        """All calls of sipp pass. They are tried again if not, because its server may not listen yet on a busy machine."""
        statuses: list[int] = []
        while len(statuses) < TRIES and 0 not in statuses:
            statuses.append(self.start("sipp", *words).wait(2 * support.PATIENCE))
        self.assertIn(0, statuses)

    @unittest.skipIf(needs("baresip"), "baresip is not installed")
    def test_baresip(self) -> None:
        """README's two telephones: each records what the other says."""
        self.assertEqual(tool("sounds", str(self.folder), "8")[0], 0)
        at = self.attach(self.USERS, more=["--messages"])
        self.baresip("101", at)
        self.until("sip: 101 is at")
        caller = self.baresip("102", at, "-t", "8", "-e", f"/dial sip:101@{HOST}:{at}")
        self.until("line 0 gets CONNECT 8001")
        self.assertEqual(caller.wait(support.PATIENCE), 0)
        self.until("line 0 place")
        self.until("line 0 place")
        said = self.end()
        self.assertNotIn("low-4711", said)
        for digits in ("101", "102"):
            (heard,) = (self.folder / digits).glob("*-dec.wav")
            self.assertGreater(len(set(heard.read_bytes()[44:])), 20)  # of a sound; silence has few

    @unittest.skipIf(needs("sipp"), "sipp is not installed")
    def test_sipp(self) -> None:
        """sipp's built-in scenarios: 30 calls of its user agent client, at most 10 at a time, to its server, as peers."""
        host = own_host()
        at = self.attach(f"200 sip:{host}:5071\n100 sip:{host}:5070\n")
        self.start("sipp", "-sn", "uas", "-i", host, "-p", "5070", "-nostdin")
        words = ("-sn", "uac", "-i", host, "-p", "5071", "-s", "100", "-m", "30", "-l", "10", "-r", "10", "-d", "500", "-nostdin")
        self.assert_calls_pass(*words, f"{HOST}:{at}")
        self.assertRegex(self.end(), "INVITE [0-9]+")


if __name__ == "__main__":
    support.main()
