"""The page, the calls and the metrics that a running exchange serves: tools/attach --status."""

from __future__ import annotations

import contextlib
import csv
import http.client
import json
import os
import re
import signal
import socket
import subprocess
import unittest
from collections.abc import Iterator
from unittest import mock

import support
from attached import Attached
from support import PATIENCE, InFolder, needs_program, slow, tool
from test_pages import BROWSER, Elements
from watched import Metrics, causes

from nemzhuul.command_line import Refused
from nemzhuul.live import status
from nemzhuul.live.status import MAX_CONNECTIONS, MAX_REQUEST, StatusServer, read_place
from nemzhuul.traces.events import FRAMES_PER_SECOND

FRAMES = 320  # that a socket takes at once, so that the exchange gets all of them in time
HOSTILE = '<script>alert("x")</script>&'


class Answer:
    """A response, as it was read."""

    def __init__(self, response: http.client.HTTPResponse) -> None:
        self.status = response.status
        self.headers = dict(response.getheaders())
        self.text = response.read().decode()


@needs_program
class Status(Attached):
    """Clients of the page of an exchange with calls."""

    SETTINGS = "exchange 1 3 1 1\nnumber 100 line 0\nnumber 101 line 1\nnumber 30 room 0\nnail 0/31 1/31\nseat 2/1 7\n"

    def begin(self, *options: str) -> None:
        self.attach("--status", "0", *options)
        self.until("attach: the state of the exchange is at ")
        match = re.search("at http://127.0.0.1:([0-9]+)/", self.said[-1])
        assert match
        self.port = int(match[1])

    def ask(self, path: str, method: str = "GET", **headers: str) -> Answer:
        client = http.client.HTTPConnection("127.0.0.1", self.port, timeout=PATIENCE)
        with contextlib.closing(client):
            client.request(method, path, headers=headers)
            return Answer(client.getresponse())

    def metrics(self) -> Metrics:
        answer = self.ask("/metrics")
        self.assertEqual((answer.status, answer.headers["Content-Type"]), (200, "text/plain; version=0.0.4; charset=utf-8"))
        return Metrics(answer.text)

    def until_metric(self, name: str, value: float) -> Metrics:
        """Asks for metrics until one has a value: a state is served for half a second."""
        for _ in range(PATIENCE * 10):
            metrics = self.metrics()
            if metrics.one(name) == value:
                return metrics
            signal.sigtimedwait([], 0.1)
        self.fail(f"{name} is {metrics.one(name)}, and not {value}")

    def connect(self) -> socket.socket:
        client = socket.create_connection(("127.0.0.1", self.port), PATIENCE)
        self.addCleanup(client.close)
        return client

    def day(self) -> None:
        """Calls: one is answered and cleared, one is answered, one rings, two are refused, one to a room, and one is dialled."""
        caller, called = self.attached(0), self.attached(1)
        setup = "0504038090A3700480313031"
        caller.send(f"M 08020001{setup}")
        called.gets("M 0802000105")
        called.send("M 0802800101", "M 0802800107")
        caller.gets("M 0802800107")
        caller.send("M 080200014508028090")
        called.gets("M 0802000145")
        called.send("M 080280014D")
        caller.send("M 080200015A")
        called.gets("M 080200015A")
        caller.send(f"M 08020002{setup}")
        called.gets("M 0802000105")
        called.send("M 0802800107")
        caller.gets("M 0802800207")
        caller.send(f"M 08020003{setup}")
        called.gets("M 0802000205")
        called.send("M 0802800201")
        digits = HOSTILE.encode().hex().upper()
        hostile = f"M 080200040504038090A370{1 + len(HOSTILE):02X}80{digits}"
        caller.send(hostile, "M 080200050504038090A37003803939", "M 080200060504038090A37003803330", "M 080200070504038090A370028031")
        caller.gets("M 080280070D")

    def test_documents(self) -> None:
        """Metrics, calls and page are as tools/records and tools/calls have the log."""
        self.begin()
        self.day()
        metrics = self.until_metric("calls_offered_total", 7)
        served = json.loads(self.ask("/calls.json").text)["calls"]
        page = self.ask("/")
        self.end()
        words = ("live.trace", "live.report")
        rows = list(csv.DictReader(tool("records", *words, folder=self.folder).output.decode().splitlines()))
        refused = [row for row in rows if "/" not in row["caller"]]
        self.assertEqual(metrics.one("calls_offered_total"), len(rows))
        self.assertEqual(metrics.one("calls_answered_total"), sum(row["answer"] != "" for row in rows))
        self.assertEqual(metrics.by("calls_refused_total", "cause"), causes(refused))
        self.assertEqual(metrics.by("calls_ended_total", "cause", "answered"), {("16", "true"): 1})
        phases = {("dialling",): 1, ("alerting",): 1, ("active",): 2}
        self.assertEqual(metrics.by("calls", "phase"), phases)
        self.assertEqual(metrics.by("room_members", "room"), {("0",): 1, ("7",): 1})
        self.assertEqual(metrics.by("endpoint_attached", "line"), {("0",): 1, ("1",): 1})
        self.assertEqual(metrics.one("moved_paths_total"), 0)
        self.assertEqual(metrics.one("frames_total"), 160 * (metrics.one("periods_total") - 1))
        drawn = tool("calls", *words, folder=self.folder).output.decode()
        by_number = {call["call"]: call for call in served}
        titles = [f"call {number}: {by_number[number]['title']}" for number in sorted(by_number)]
        self.assertEqual(titles, re.findall("^call [0-9]+: .*$", drawn, re.MULTILINE))
        for number, row in enumerate(rows, start=1):
            self.assertEqual({name: "" if by_number[number][name] is None else str(by_number[number][name]) for name in row}, row)
        self.check_page(page)

    def check_page(self, page: Answer) -> None:
        self.assertEqual((page.status, page.headers["Content-Type"]), (200, "text/html; charset=utf-8"))
        elements = Elements(page.text)
        self.assertEqual(elements.open, [])
        self.assertEqual(len(elements.of("script")), 1)
        self.assertIn(f"line 0 dials {HOSTILE}", "".join(head.text for head in elements.of("h3")))
        self.assertNotIn("<script>alert", page.text)
        lamps = [element for element in elements.of("span") if element.attrs.get("class") == "lamps"]
        self.assertEqual([lamp.text for lamp in lamps], ["AaAd" + "." * 25 + "n", "Aa" + "." * 27 + "n", "s" + "." * 29])
        for element in elements.all:
            self.assertNotIn("src", element.attrs)
            self.assertNotIn("style", element.attrs)
            self.assertRegex(element.attrs.get("href", "#"), "^(?:#[a-z]+|calls.json|metrics|#)$")
        self.assertNotIn("unsafe", page.headers["Content-Security-Policy"])

    def test_requests(self) -> None:
        """Only GET and HEAD of the three documents, for this host."""
        self.begin()
        self.attached(0)
        head, whole = self.ask("/calls.json", "HEAD"), self.ask("/calls.json?x=1")
        self.assertEqual((head.status, head.text, whole.status), (200, "", 200))
        self.assertEqual(int(head.headers["Content-Length"]), len(whole.text))
        for method in ("POST", "PUT", "DELETE", "OPTIONS", "PATCH", "get"):
            answer = self.ask("/", method)
            self.assertEqual((method, answer.status, answer.headers["Allow"]), (method, 405, "GET, HEAD"))
        for path in ("/none", "/../attach", "/metrics/", "/%2e%2e/x", "/<b>", "http://127.0.0.1/"):
            answer = self.ask(path)
            self.assertEqual((path, answer.status, answer.headers["Content-Type"]), (path, 404, "text/plain"))
        for host, wanted in (("localhost", 200), ("127.0.0.1:99", 200), ("[::1]:1", 200), ("example.com", 421), ("127.0.0.1.example.com:80", 421)):
            self.assertEqual((host, self.ask("/metrics", Host=host).status), (host, wanted))
        lines = {
            b"GET / HTTP/1.1\r\n\r\n": b"HTTP/1.1 200 ",
            b"GET /metrics\n\n": b"HTTP/1.1 200 ",
            b"nonsense\r\n\r\n": b"HTTP/1.1 400 ",
            b"GET / HTTP/9.9\r\n\r\n": b"HTTP/1.1 505 ",
            b"\r\n\r\n": b"",
            b"GET /" + b"x" * MAX_REQUEST: b"HTTP/1.1 431 ",
            b"GET / HTTP/1.1\r\n" + b"X: y\r\n" * 200 + b"\r\n": b"HTTP/1.1 431 ",
        }
        for text, begin in lines.items():
            client = self.connect()
            client.sendall(text)
            octets = b"".join(iter(lambda: client.recv(1 << 16), b""))
            self.assertEqual((text[:20], octets[: len(begin)]), (text[:20], begin))
        self.end()

    def frames_pass(self) -> None:
        """An endpoint gets the octets of all frames that the other one sends, and no other frame between them."""
        rows = [f"F {'D5' * 29}{1 + at % 200:02X}" for at in range(FRAMES)]
        self.speaker.send(*rows, "F none")
        idle = f"F {'D5' * 30}"
        heard = idle
        for _ in range(PATIENCE * FRAMES_PER_SECOND):
            heard = self.listener.gets("F")
            if heard != idle:
                break
        self.assertEqual([heard, *(self.listener.gets("F") for _ in rows[1:])], rows)

    @slow
    def test_hostile_clients(self) -> None:
        """Frames pass while clients are slow, many, or send without an end. Afterwards, others are served."""
        self.begin()
        self.speaker, self.listener = self.attached(0), self.attached(1)
        self.listener.send("F none")
        self.listener.gets("F")
        self.frames_pass()
        slow_ones = [self.connect() for _ in range(200)]
        for client in slow_ones[::2]:
            with contextlib.suppress(OSError):
                client.send(b"GET / HT")
        self.frames_pass()
        readers = [self.connect() for _ in range(MAX_CONNECTIONS)]  # which ask, and read nothing
        for client in readers:
            with contextlib.suppress(OSError):
                client.send(b"GET / HTTP/1.1\r\n\r\n")
        flood = self.connect()
        flood.setblocking(False)
        for _ in range(50):
            with contextlib.suppress(OSError):
                flood.send(b"X" * 65536)
        self.frames_pass()
        metrics = self.metrics()
        self.assertEqual(metrics.one("frames_total"), 160 * (metrics.one("periods_total") - 1))
        self.assertGreater(metrics.one("frames_total"), 3 * FRAMES)
        self.assertLess(len(self.descriptors()), MAX_CONNECTIONS + 40)
        self.end()
        self.assertEqual([line for line in self.said if "came late" in line], [])

    def descriptors(self) -> list[str]:
        return os.listdir(f"/proc/{self.work.pid}/fd")

    @unittest.skipUnless(BROWSER, "no browser is there")
    @slow
    def test_in_a_browser(self) -> None:
        """The page loads without an error, and updates itself."""
        self.begin()
        self.day()
        words = [BROWSER, "--headless", "--no-sandbox", "--disable-gpu", f"--user-data-dir={self.folder}/profile", "--dump-dom"]
        words += ["--virtual-time-budget=5000", f"http://127.0.0.1:{self.port}/"]
        shown = subprocess.run(words, capture_output=True, check=True, timeout=300).stdout
        elements = Elements(shown.decode())
        (html,) = elements.of("html")
        self.assertEqual((html.attrs.get("data-ready"), html.attrs.get("data-error")), ("yes", None))
        self.assertGreater(int(html.attrs.get("data-updates", "0")), 0)
        self.assertEqual(len([element for element in elements.of("article")]), 7)
        self.end()


class Servers(InFolder):
    """The server without an exchange."""

    def test_places(self) -> None:
        cases = {"9090": ("127.0.0.1", 9090), "0.0.0.0:80": ("0.0.0.0", 80), "[::1]:1": ("::1", 1), "name:0": ("name", 0)}
        for word, wanted in cases.items():
            self.assertEqual(read_place(word), wanted)
        for word in ("", "x", "1:x", ":80", "65536", "-1", "1.5"):
            with self.assertRaisesRegex(Refused, "^.* is no address of a page: it is HOST:PORT or PORT$"):
                read_place(word)
        with socket.create_server(("127.0.0.1", 0)) as taken:
            with self.assertRaisesRegex(Refused, "cannot be listened on: Address already in use$"):
                StatusServer(str(taken.getsockname()[1]), "some")

    @contextlib.contextmanager
    def serving(self) -> Iterator[StatusServer]:
        server = StatusServer("0", "some")
        with mock.patch.object(status, "say"):
            server.begin()
        try:
            yield server
        finally:
            server.close()

    def test_no_state_so_far(self) -> None:
        with self.serving() as server:
            client = http.client.HTTPConnection("127.0.0.1", server.port, timeout=PATIENCE)
            client.request("GET", "/")
            response = client.getresponse()
            self.assertEqual((response.status, response.read()), (503, b"the exchange has not begun\n"))
            client.close()
            self.assertTrue(server.is_wanted)

    def test_bounds(self) -> None:
        """The number of connections has a bound, and each ends after a time, whatever it does."""
        with mock.patch.object(status, "CONNECTION_SECONDS", 0.3), self.serving() as server:
            clients = [socket.create_connection(("127.0.0.1", server.port), PATIENCE) for _ in range(3 * MAX_CONNECTIONS)]
            for client in clients:
                client.settimeout(PATIENCE)
                with contextlib.suppress(ConnectionResetError):
                    self.assertEqual(client.recv(1), b"")
                self.assertLessEqual(len(server.connections), MAX_CONNECTIONS)
                client.close()
            self.assertTrue(server.thread.is_alive())


if __name__ == "__main__":
    support.main()
