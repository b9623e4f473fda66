"""The load of an endpoint: tools/endpoint --calls and --answer."""

from __future__ import annotations

import contextlib
import io
import re
import socket
import subprocess
import threading
import unittest
from pathlib import Path
from unittest import mock

import support
from attached import Attached
from support import InFolder, command, environment, needs_program, slow, stream, tool
from nemzhuul.command_line import Refused, WrongWords
from nemzhuul.live.load import Load, Plan, Wire, read_plan, run
from nemzhuul.live.wire import Address
from nemzhuul.signalling.q931 import (
    CALL_PROCEEDING,
    CONNECT,
    CONNECT_ACKNOWLEDGE,
    DISCONNECT,
    PROGRESS_INDICATOR,
    RELEASE,
    RELEASE_COMPLETE,
    SETUP,
    USER_BUSY,
    Element,
    Message,
    cause,
    read_message,
    write_message,
)

TONE = Element(PROGRESS_INDICATOR, b"\x82\x88")


def read(octets: bytes) -> Message:
    message = read_message(octets)
    assert message is not None
    return message


def kinds(messages: list[bytes]) -> list[tuple[int, int, int]]:
    """The flag, call reference and type of each message."""
    return [(message.flag, message.reference, message.kind) for message in map(read, messages)]


class Plans(unittest.TestCase):
    """Calls at times that the test states, without a clock or an exchange."""

    def test_calls_begin_at_their_rate(self) -> None:
        load = Load(0, Plan(calls=3, digits="101", rate=2), 10.0)
        self.assertEqual(kinds(load.work(10.0)), [(0, 1, SETUP)])
        self.assertEqual((load.work(10.4), load.next_due), ([], 10.5))
        self.assertEqual(kinds(load.work(11.25)), [(0, 2, SETUP), (0, 3, SETUP)])
        self.assertEqual((load.tally.offered, load.tally.late, load.is_over), (3, 0.75, False))

    def test_a_call_is_held_and_cleared(self) -> None:
        load = Load(0, Plan(calls=1, digits="101", holding=2), 0.0)
        load.work(0.0)
        self.assertEqual(load.receive(write_message(1, 1, CALL_PROCEEDING), 0.1), [])
        self.assertEqual(kinds(load.receive(write_message(1, 1, CONNECT), 0.25)), [(0, 1, CONNECT_ACKNOWLEDGE)])
        self.assertEqual((load.work(2.0), load.next_due), ([], 2.25))
        self.assertEqual(kinds(load.work(2.25)), [(0, 1, DISCONNECT)])
        self.assertEqual(kinds(load.receive(write_message(1, 1, RELEASE), 2.5)), [(0, 1, RELEASE_COMPLETE)])
        self.assertTrue(load.is_over and load.tally.is_sound)
        text = "offered 1, at most 0.0 ms late\nanswered 1\nrefused 0\n"
        self.assertEqual(load.tally.text(), text + "set-up time 250.0 ms least, 250.0 ms median, 250.0 ms most\n")

    def test_refusals_count_by_cause(self) -> None:
        load = Load(0, Plan(calls=3, digits="101", rate=1000), 0.0)
        load.work(1.0)
        self.assertEqual(load.receive(write_message(1, 1, RELEASE_COMPLETE, cause(USER_BUSY)), 1.0), [])
        self.assertEqual(kinds(load.receive(write_message(1, 2, DISCONNECT, cause(USER_BUSY), TONE), 1.0)), [(0, 2, RELEASE)])
        load.receive(write_message(1, 2, RELEASE_COMPLETE), 1.0)
        self.assertEqual(kinds(load.receive(write_message(1, 3, DISCONNECT), 1.0)), [(0, 3, RELEASE)])
        load.receive(write_message(1, 3, RELEASE_COMPLETE), 1.0)
        self.assertEqual(load.tally.refused, {USER_BUSY: 2, None: 1})
        self.assertEqual((load.is_over, load.tally.is_sound), (True, False))
        self.assertIn("refused 2 with cause 17, user busy\nrefused 1 without a cause\n", load.tally.text())

    def test_a_call_that_is_cut(self) -> None:
        load = Load(0, Plan(calls=1, digits="101", holding=5), 0.0)
        load.work(0.0)
        load.receive(write_message(1, 1, CONNECT), 0.0)
        self.assertEqual(kinds(load.receive(write_message(1, 1, DISCONNECT, cause(41)), 1.0)), [(0, 1, RELEASE)])
        load.receive(write_message(1, 1, RELEASE_COMPLETE), 1.0)
        self.assertEqual((load.is_over, load.tally.is_sound), (True, False))
        self.assertIn("refused 0\ncut 1 with cause 41, temporary failure\n", load.tally.text())

    def test_an_exchange_that_does_not_go_on(self) -> None:
        load = Load(0, Plan(calls=1, digits="101", patience=3), 0.0)
        load.work(0.0)
        self.assertEqual(kinds(load.work(3.0)), [(0, 1, DISCONNECT)])
        self.assertEqual((load.work(5.9), load.is_over), ([], False))
        self.assertEqual((load.work(6.0), load.is_over), ([], True))
        self.assertIn("answered 0\nrefused 0\ngiven up 1\nnot released 1\n", load.tally.text())

    def test_calls_that_come_are_answered(self) -> None:
        load = Load(1, Plan(answers=1), 0.0)
        self.assertEqual((load.work(9.0), load.next_due, load.is_over), ([], None, False))
        self.assertEqual(kinds(load.receive(write_message(0, 7, SETUP), 9.0)), [(1, 7, CONNECT)])
        self.assertFalse(load.is_over)
        self.assertEqual(kinds(load.receive(write_message(0, 7, DISCONNECT), 9.0)), [(1, 7, RELEASE)])
        load.receive(write_message(0, 7, RELEASE_COMPLETE), 9.0)
        self.assertTrue(load.is_over and load.tally.is_sound)
        self.assertEqual(load.tally.text(), "calls that came 1\n")

    def test_octets_that_are_no_message(self) -> None:
        load = Load(1, Plan(answers=1), 0.0)
        for octets in (b"", b"\x08", bytes(6), write_message(1, 9, CONNECT), write_message(0, 9, RELEASE)):
            self.assertEqual(load.receive(octets, 0.0), [])
        self.assertEqual((load.tally.came, load.tally.set_up), (0, []))


class Arguments(unittest.TestCase):
    def test_plans(self) -> None:
        plan, address = read_plan("--calls 5 --rate 2.5 --holding 0 --answer 2 tcp:localhost:5 101".split())
        self.assertEqual(plan, Plan(5, "101", 2.5, 0.0, 10.0, 2))
        self.assertEqual((address.host, address.port), ("localhost", 5))
        self.assertEqual(read_plan("--answer 3 unix:line".split()), (Plan(answers=3), Address("unix:line", path="line")))

    def test_refused(self) -> None:
        wrong = ("--calls 5 unix:a 1", "--calls 5 --rate 1 unix:a", "--calls 0 --rate 1 unix:a 1", "--calls 5 --rate nan unix:a 1")
        more = ("--calls 1.5 --rate 1 unix:a 1", "--rate 1 unix:a 1", "--answer 1 unix:a 1", "--answer 1 --holding 2 unix:a", "--calls")
        for words in (*wrong, *more, "--calls 5 --rate 1 --rate 1 unix:a 1", "--calls 5 --rate 1 --busy 1 unix:a 1"):
            with self.subTest(words=words), self.assertRaises(WrongWords):
                read_plan(words.split())
        with self.assertRaises(Refused):
            read_plan("--calls 5 --rate 1 unix:a ten".split())


class OverASocket(InFolder):
    """An exchange of the test, which answers the calls with odd references, and refuses the others."""

    def serve(self, last: str = "") -> Path:
        path = self.folder / "line"
        listener = socket.socket(socket.AF_UNIX)
        listener.bind(str(path))
        listener.listen()
        thread = threading.Thread(target=self.reply, args=(listener, last))
        thread.start()
        self.addCleanup(thread.join)
        return path

    @staticmethod
    def reply(listener: socket.socket, last: str) -> None:
        connection, _ = listener.accept()
        with contextlib.suppress(OSError), listener, connection, connection.makefile("rwb", buffering=0) as lines:
            lines.write(b"line 4\n" + last.encode())
            while not last and (line := lines.readline()):
                message = read(bytes.fromhex(line.decode().removeprefix("M ")))
                is_refused = message.kind == SETUP and message.reference % 2 == 0
                kind = RELEASE_COMPLETE if is_refused else {SETUP: CONNECT, DISCONNECT: RELEASE}.get(message.kind)
                if kind is not None:
                    reply = write_message(1, message.reference, kind, *([cause(USER_BUSY)] if is_refused else []))
                    for part in (b"M ", reply.hex().encode(), b"\n"):  # a line comes in parts
                        lines.write(part)

    def test_status_and_summary(self) -> None:
        path = self.serve()
        words = ("--calls", 6, "--rate", 1000, "--holding", 1, f"unix:{path}", "101")
        status, output, said = tool("endpoint", *words)
        self.assertEqual((status, said), (3, ""))
        text = r"offered 6, at most [0-9.]+ ms late\nanswered [1-5]\nrefused [1-5] with cause 17, user busy\nset-up time .* ms most\n"
        self.assertRegex(output.decode(), f"^{text}$")

    def test_every_call_is_answered(self) -> None:
        status, output, said = tool("endpoint", "--calls", 1, "--rate", 1, "--holding", 0, f"unix:{self.serve()}", "101")
        self.assertEqual((status, said, output.decode().splitlines()[1]), (0, "", "answered 1"))

    def test_a_line_that_is_closed(self) -> None:
        for last, why in (("refused line 4 has an endpoint already\n", ": line 4 has an endpoint already"), ("M\n", "")):
            with self.subTest(last=last):
                said = f"endpoint: the exchange has closed the line{why}\n"
                self.assertEqual(tool("endpoint", "--answer", 1, f"unix:{self.serve(last)}"), (1, b"", said))
                (self.folder / "line").unlink()

    def test_an_interrupt_prints_what_there_is(self) -> None:
        wire = Wire(Address("unix:line", path=str(self.serve())))
        pieces = mock.patch.object(Wire, "receive", autospec=True, side_effect=self.interrupted)
        wire.line = 4
        output = io.StringIO()
        written = mock.patch("nemzhuul.live.load.write_output", output.write)
        with pieces, written, contextlib.suppress(KeyboardInterrupt):
            run(wire, Plan(calls=5, digits="101", rate=0.01))
        wire.connection.close()
        self.assertEqual(output.getvalue().splitlines()[1:], ["answered 0", "refused 0"])
        self.assertRegex(output.getvalue(), "^offered 1, ")

    @staticmethod
    def interrupted(wire: Wire, seconds: float) -> list[bytes]:
        raise KeyboardInterrupt


@needs_program
class OnAnExchange(Attached):
    @slow
    def test_two_endpoints(self) -> None:
        self.attach()
        words = command("endpoint", "--answer", 40, "unix:line1")
        with subprocess.Popen(words, cwd=self.folder, stdout=subprocess.PIPE, text=True, env=environment()) as called:
            self.until("attach: line 1: an endpoint is attached")
            calling = ("--calls", 40, "--rate", 50, "--holding", 0.2, "unix:line0", 101)
            status, output, said = tool("endpoint", *calling, folder=self.folder)
            self.assertEqual(stream(called.stdout).read(), "calls that came 40\n")
        self.assertEqual((status, said, called.returncode), (0, "", 0))
        lines = output.decode().splitlines()
        self.assertEqual(lines[1:3], ["answered 40", "refused 0"])
        self.assertTrue(re.fullmatch(r"set-up time [0-9.]+ ms least, [0-9.]+ ms median, [0-9.]+ ms most", lines[3]))
        refused = tool("endpoint", "--calls", 2, "--rate", 50, "unix:line0", 999, folder=self.folder)
        self.assertEqual(refused.status, 3)
        self.assertIn(b"refused 2 with cause 1, unallocated (unassigned) number\n", refused.output)
        self.end()


if __name__ == "__main__":
    support.main()
