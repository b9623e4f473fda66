"""Pages of runs, by tools/page."""

from __future__ import annotations

import base64
import re
import shutil
import subprocess
import tempfile
import unittest
from collections.abc import Mapping
from dataclasses import dataclass
from html.parser import HTMLParser
from pathlib import Path

import support
from nemzhuul.pictures import fabric, matrices
from nemzhuul.pictures.fabric import End, Laid, Move
from nemzhuul.programs.program import PROGRAM
from nemzhuul.signalling import q931
from nemzhuul.traces import events, following, runs
from support import EXAMPLES, IDLE, TOP, TRACES, InFolder, is_refused, needs_program, report_of, signals, silence, slow, tool


MESSAGE = " [0-9A-F]{4}$|^ignored octets$"  # how the name of a message ends
BROWSER = shutil.which("chromium") or shutil.which("chromium-browser") or shutil.which("google-chrome") or ""


@dataclass
class Element:
    """An element of a page, with its text so far, and how its source begins."""

    tag: str
    attrs: dict[str, str]
    text: str = ""
    start: str = ""


class Elements(HTMLParser):
    """The elements of a page: their names, classes, attributes and texts; and whether each that begins ends."""

    EMPTY = ("meta", "input", "link", "br", "img")

    def __init__(self, text: str) -> None:
        super().__init__()
        self.lines = text.splitlines(keepends=True)
        self.open: list[Element] = []
        self.all: list[Element] = []
        self.feed(text)
        self.close()

    def handle_starttag(self, tag: str, attrs: list[tuple[str, str | None]]) -> None:
        self.handle_startendtag(tag, attrs)
        if tag not in self.EMPTY:
            self.open.append(self.all[-1])

    def handle_startendtag(self, tag: str, attrs: list[tuple[str, str | None]]) -> None:
        line, column = self.getpos()
        source = self.lines[line - 1][column : column + 4000]
        begun = source.partition(f"</{tag}>")[0]
        self.all.append(Element(tag, {name: value or "" for name, value in attrs}, start=begun))

    def handle_endtag(self, tag: str) -> None:
        assert self.open.pop().tag == tag, f"</{tag}> ends another element"

    def handle_data(self, data: str) -> None:
        for element in self.open:
            element.text += data

    def of(self, tag: str, kind: str = "") -> list[Element]:
        """Each element of a name, of a class if that is given."""
        found = (element for element in self.all if element.tag == tag)
        return [element for element in found if not kind or kind in element.attrs.get("class", "").split()]


def octet_at(octets: Mapping[int, bytes], slot: events.Slot) -> int:
    """The octet of a slot in a frame."""
    row, place = octets.get(slot.line), events.place_of_channel(slot.channel)
    return IDLE if row is None or place is None else row[place]


def page(name: str) -> str:
    """The page of an example."""
    status, output, said = tool("page", f"{name}.trace", f"{name}.report")
    assert (status, said) == (0, ""), said
    return output.decode()


def names_of(name: str) -> list[str]:
    """The names of the messages of a run, of which the exchange ignores some."""
    texts = [reading_of(octets) for _, _, octets in signals(EXAMPLES / f"{name}.trace")]
    return sorted(texts)


def page_of_calls(count: int) -> str:
    """The page of n calls, each of which is refused."""
    with tempfile.TemporaryDirectory() as folder:
        trace, report = Path(folder) / "some.trace", Path(folder) / "some.report"
        numbers = ("".join(f"3{digit}" for digit in f"{at:04}") for at in range(count))
        trace.write_text("exchange 1 1 0 1\n" + "".join(f"M 0 080200010504038090A3700580{number}\n" for number in numbers))
        report.write_text("".join(f"{at} message 0:080280015A08028281\n" for at in range(1, count + 1)))
        status, output, said = tool("page", trace, report)
    assert (status, said) == (0, ""), said
    return output.decode()


class Pages(unittest.TestCase):
    """Pages of runs, by their parts, and where a browser is installed as it shows them."""

    RUNS = ("whole_call", "conversation", "rearrangement", "strict_rearrangement", "called_user_silent", "dialled_to_a_room")

    def check(self, name: str, elements: Elements) -> dict[str, bytes]:
        texts = [element.text for element in elements.of("b")]
        arrows = [text for text in texts if re.search(MESSAGE, text)]
        self.assertEqual(sorted(arrows), names_of(name))
        figures = [figure.attrs for figure in elements.of("figure", "sound")]
        sounds = {attrs["data-name"]: base64.b64decode(attrs["data-octets"]) for attrs in figures}
        for slot, octets in sounds.items():
            _, wave_file, _ = tool("audio", f"{name}.report", *slot.split("-"))
            self.assertEqual(octets, wave_file[58 : 58 + len(octets)], slot)
        return sounds

    @slow
    def test_parts(self) -> None:
        """Each page has the messages of its run and what its channels heard, and names no other file."""
        for name in self.RUNS:
            with self.subTest(run=name):
                elements = Elements(page(name))
                self.assertEqual(elements.open, [])
                self.check(name, elements)
                for element in elements.all:
                    self.assertNotIn("src", element.attrs)
                    self.assertTrue(element.attrs.get("href", "#").startswith("#"))
                for label in elements.of("input") + elements.of("button"):
                    self.assertTrue(label.text or "aria-label" in label.attrs or label.attrs["type"] == "checkbox")

    def test_channels(self) -> None:
        """Which channel is connected with which, and for which event paths were moved."""
        elements = Elements(page("rearrangement"))
        titles = [element.text for element in elements.of("title")]
        for slot in ("0/17 with 1/17", "1/17 with 0/17", "0/1 with 2/1"):
            self.assertIn(slot, titles)
        event = "event 34: nail 0/17 to 1/17: granted; 2 paths moved there, 0 back"
        self.assertEqual({text for text in titles if text.endswith("paths moved")}, {f"{event}: 2 paths moved"})
        dots = [text for text in titles if text.startswith("a path of")]
        self.assertEqual(dots, [f"a path of {slot} moved" for slot in ("0/1", "1/1", "2/1", "2/17")])
        lines = [text.removeprefix(event) for text in titles if text.startswith(event) and " of them " in text]
        self.assertEqual(lines, [": 1 of them to line 0", ": 1 of them to line 1", ": 2 of them from line 2"])

    def test_a_reader_of_the_screen(self) -> None:
        """Each picture has a title or is passed over, and each arrow says its way. The axis says which numbers are of frames."""
        elements = Elements(page("rearrangement"))
        for picture in elements.of("svg"):
            self.assertTrue(picture.attrs.get("aria-hidden") or "<title>" in picture.start and picture.attrs.get("role") == "img")
        for figure in elements.of("figure"):
            self.assertTrue("<figcaption" in figure.start or "<caption" in figure.start)
        numbers = {frame: [text.text for text in elements.of("text", "axis") if ("frame" in text.attrs["class"]) == frame] for frame in (False, True)}
        self.assertEqual((numbers[False], numbers[True]), ([*map(str, range(1, 31)), "34"], ["0–2", "3–5"]))
        ways = [arrow.attrs["aria-label"] for arrow in Elements(page("whole_call")).of("i")]
        self.assertEqual(ways[:4], ["to the exchange", "from the exchange", "from the exchange", "to the exchange"])

    def test_the_matrix(self) -> None:
        """The steps of a chain, and the slots that change in each."""
        elements = Elements(page("rearrangement"))
        (table,) = elements.of("table")
        self.assertEqual(table.text, "Paull's matrix for the path from line 0 to line 1"
                         "to 0to 1to 2" "from 0150-14" "from 115-29" "from 20 15 1-1415 0 16-29")  # fmt: skip
        changes = [(mark.attrs["data-step"], mark.text) for mark in elements.of("b") if "data-step" in mark.attrs]
        self.assertEqual(changes, [("3", "15"), ("2", "0 15"), ("1", "15 0")])
        (steps,) = [element.text for element in elements.of("ol") if "start" in element.attrs]
        self.assertEqual(steps, "No slot is free on both: 15 is free on line 0, 0 on line 1."
                         "The path from line 2 to line 1 moves from slot 15 to slot 0."
                         "The path from line 2 to line 0 moves from slot 0 to slot 15."
                         "The path from line 0 to line 1 takes slot 15.")  # fmt: skip

    def test_a_long_chain(self) -> None:
        """Between many lines, the others are one row and one column."""
        ends = [End(line, 0) for line in range(12)]
        chain = [Move(fabric.Path(ends[at], ends[at + 1]), at % 2) for at in range(3)]
        before = {matrices.Entry(at, at + 1): {at % 2} for at in range(11)}
        laid = Laid(fabric.Path(ends[0], ends[3]), 1, chain, (0, 1))
        elements = Elements(matrices.figure(laid, before))
        self.assertEqual([head.text for head in elements.of("th")], ["to 1", "to 2", "to 3", "to others", *(f"from {row}" for row in range(3)), "from others"])

    @needs_program
    @slow
    def test_a_full_exchange(self) -> None:
        """The page of 960 channels in use stays small, and says what it leaves out."""
        with tempfile.TemporaryDirectory() as folder:
            trace, report = Path(folder) / "some.trace", Path(folder) / "some.report"
            with open(trace, "wb") as file:
                subprocess.run([TOP / "bench" / "generate", "dense", "4000000"], stdout=file, check=True)
            with open(trace, "rb") as given, open(report, "wb") as told:
                subprocess.run([PROGRAM, "run"], stdin=given, stdout=told, check=True)
            status, output, _ = tool("page", trace, report)
        self.assertEqual(status, 0)
        self.assertLess(len(output), 8_000_000)
        self.assertIn(b"<p>100 of 960 channels have a player, which are the first to be sent a sound.</p>", output)

    def test_many_calls(self) -> None:
        """From 50 on they can be searched, and from 200 on they have only titles."""
        self.assertNotIn('id="find"', page_of_calls(49))
        self.assertIn('id="find"', page_of_calls(50))
        elements = Elements(page_of_calls(2100))
        self.assertEqual((len(elements.of("article", "call")), len(elements.of("div", "ladder"))), (2000, 200))
        self.assertIn("The first 200 of 2,100 calls are drawn, and the first 2,000 are listed.", [part.text for part in elements.of("p")])

    def test_internal_slots(self) -> None:
        """Two paths change their internal slots, and the other thirty stay where they are."""
        titles = [element.text for element in Elements(page("rearrangement")).of("title")]
        from_lines = [re.fullmatch("internal slot ([0-9]+): (.*) to (.*)", text) for text in titles]
        places: dict[tuple[str, str], list[int]] = {}
        for number, near, far in (match.groups() for match in from_lines if match):
            places.setdefault((near, far), []).append(int(number))
        self.assertEqual(sum(len(numbers) > 1 for numbers in places.values()), 2)
        self.assertEqual(len(places), 62)

    def test_the_fabric_of_every_run(self) -> None:
        """The paths that nemzhuul.pictures.fabric moves are as many as each report says, on either fabric; and a connected slot
        was sent its partner's octet of two frames before."""
        for trace_path in filter(lambda trace: not is_refused(trace), TRACES):
            with silence():
                trace, steps = runs.read_run(str(trace_path), str(report_of(trace_path)))
            slots = fabric.STRICT_SLOTS if trace_path.stem.startswith("strict") else fabric.SLOTS
            run, paths = following.Run(trace), fabric.Fabric(trace, slots)
            arrived: list[Mapping[int, bytes]] = []
            since: dict[events.Slot, int] = {}
            for event, reply in steps:
                run.take(event, reply)
                with self.subTest(trace=trace_path.name, event=reply.event):
                    self.assertEqual(paths.take(run), reply.moved)
                for slot, use in run.joined:
                    since.update(dict.fromkeys((slot, use.partner or slot), run.frames))
                if reply.frame is None or reply.octets is None or not isinstance(event, events.Frame):
                    continue
                arrived.append(event.octets)
                for slot, use in run.uses.items():
                    if use.partner and since[slot] + 2 <= reply.frame:
                        there = octet_at(arrived[reply.frame - 2], use.partner)
                        self.assertEqual(octet_at(reply.octets, slot), there, f"{trace_path.name}, frame {reply.frame}")


@unittest.skipUnless(BROWSER, "no browser is there")
class Browsers(InFolder):
    """Pages as a browser shows and prints them."""

    def browser(self, page: str, *words: str) -> bytes:
        path = self.folder / "page.html"
        path.write_text(page)
        profile = f"--user-data-dir={self.folder}/profile"
        command = [BROWSER, "--headless", "--no-sandbox", "--disable-gpu", profile, *words, path.as_uri()]
        return subprocess.run(command, capture_output=True, check=True, timeout=300).stdout

    def shown(self, page: str, script: str = "") -> Elements:
        """The page after its script, and after another one."""
        return Elements(self.browser(page.replace("</body>", f"<script>{script}</script></body>"), "--dump-dom").decode())

    @slow
    def test_the_parts(self) -> None:
        """It loads without an error, with every message; each player has a sample for each frame."""
        for name, frames in (("whole_call", 3), ("conversation", 16004)):
            with self.subTest(run=name):
                elements = self.shown(page(name))
                (html,) = elements.of("html")
                self.assertEqual((html.attrs.get("data-ready"), html.attrs.get("data-error")), ("yes", None))
                samples = [int(figure.attrs["data-samples"]) for figure in elements.of("figure")]
                self.assertEqual(samples, [frames] * len(samples))
                self.assertGreater(len(samples), 1)
                names = [text for element in elements.of("b") if re.search(MESSAGE, text := element.text)]
                self.assertEqual(sorted(names), names_of(name))

    @slow
    def test_a_lecture(self) -> None:
        """The numbers of the axis have their size in each picture, and the matrix goes on step by step."""
        script = """
            const use = document.querySelectorAll(".slots use")[0], axis = document.querySelector("defs .axis");
            const one = use.parentNode.appendChild(axis.cloneNode(true));
            one.id = "one";
            const two = use.parentNode.appendChild(use.cloneNode());
            two.setAttribute("href", "#one");
            const [wide, high] = ["width", "height"].map((side) => two.getBBox()[side] / one.getBBox()[side]);
            document.querySelector(".matrix .on").click();
            document.querySelector(".matrix .on").click();
            const seen = (name) => [...document.querySelectorAll(`.matrix ${name}`)].filter((part) => part.checkVisibility());
            document.title = [wide, high, seen("li.now").length, ...seen("td").map((part) => part.innerText.trim())].join("|");
        """
        (said,) = [element.text for element in self.shown(page("rearrangement"), script).of("title") if "|" in element.text]
        self.assertEqual(said.split("|"), ["1", "1", "1", "", "", "", "0-14", "", "", "15-29", "15 1-14", "0 16-29", ""])

    @slow
    def test_a_search(self) -> None:
        """The words of a search are all in the calls that stay."""
        script = """
            const field = document.getElementById("find");
            field.value = "Number 0042";
            field.dispatchEvent(new Event("input"));
        """
        elements = self.shown(page_of_calls(60), script)
        there = [call.text for call in elements.of("article", "call") if "hidden" not in call.attrs]
        self.assertEqual((len(there), "dials 0042" in there[0]), (1, True))

    @unittest.skipIf(shutil.which("pdftotext") is None, "pdftotext is not installed")
    @slow
    def test_a_print(self) -> None:
        """No page is blank, and each picture is there with its last row and its last column."""
        pages = {name: self.printed(page(name)) for name in ("rearrangement", "strict_rearrangement")}
        pages["calls"] = self.printed(page_of_calls(60))
        for name, texts in pages.items():
            with self.subTest(run=name):
                self.assertEqual([number for number, text in enumerate(texts, 1) if not text.strip()], [])
        words = " ".join(pages["rearrangement"]).split()
        for word, count in (("2/31", 1), ("3–5", 5), ("event", 5)):
            self.assertGreaterEqual(words.count(word), count, word)
        self.assertEqual(sum(text.count("SETUP") for text in pages["calls"]), 60)

    def printed(self, page: str) -> list[str]:
        """The texts of the pages of a print."""
        self.browser(page, "--no-pdf-header-footer", f"--print-to-pdf={self.folder}/page.pdf")
        text = subprocess.run(["pdftotext", self.folder / "page.pdf", "-"], stdout=subprocess.PIPE, check=True).stdout.decode()
        return text.split("\f")[:-1]


def reading_of(octets: bytes) -> str:
    """The name of a message and its call reference, worked out from its octets."""
    if len(octets) < 5 or octets[:2] != b"\x08\x02":
        return "ignored octets"
    name = q931.TYPES.get(octets[4], f"type {octets[4]:02X}")
    return f"{name} {octets[2:4].hex().upper()}"


if __name__ == "__main__":
    support.main()
