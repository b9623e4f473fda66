"""The state of an exchange as its operators get it, over the examples, against the tools that read a trace and its report."""

from __future__ import annotations

import csv
import json
import os
import re
import signal
import subprocess
from collections import Counter
from collections.abc import Callable, Sequence
from pathlib import Path
from typing import Any, NamedTuple
from unittest import mock

import support
from support import LINKED, PATIENCE, TRACES, InFolder, is_refused, needs_program, report_of, slow
from test_pages import Elements
from watched import Metrics, causes

from nemzhuul.commands import calls, plain, records
from nemzhuul.live.following import MAX_ROWS, Follower
from nemzhuul.live.linked import LinkedFollower
from nemzhuul.live.metrics import metrics_text
from nemzhuul.live.periods import Use
from nemzhuul.live.processes import Loop
from nemzhuul.live.shows import shown
from nemzhuul.live.site import Site
from nemzhuul.live.snapshots import Observer, Snapshot
from nemzhuul.programs.program import PROGRAM
from nemzhuul.signalling.lapd import LinkFrame, write_frame
from nemzhuul.signalling.q931 import USUAL_TIMERS
from nemzhuul.traces.call_records import csv_line, record
from nemzhuul.traces.events import (
    FRAMES_PER_SECOND,
    Arrival,
    Free,
    Link,
    LinkArrival,
    Nail,
    Reply,
    Restart,
    Seat,
    Sent,
    Sizes,
    Slot,
    Trace,
)
from nemzhuul.traces.following import Run, follow
from nemzhuul.traces.reading import METER
from nemzhuul.traces.runs import read_run


class Recorded:
    """The records of the calls that end, line by line, as they are written."""

    def __init__(self) -> None:
        self.lines: list[str] = []

    def take(self, run: Run, reply: Reply) -> None:
        self.lines += [csv_line(record(call, run)) for call in run.ended]

    def give_up(self, why: str) -> None:
        raise AssertionError(why)


class Followed(NamedTuple):
    """What is followed of a run: the state after its last line, and the records."""

    state: Snapshot
    records: list[str]


def followed(path: Path) -> Followed:
    """Follows a run by its report, as a running exchange is followed."""
    with support.silence():
        trace, steps = read_run(str(path), str(report_of(path)), has_links=True)
    follower, loop = LinkedFollower(trace, path.read_bytes()) if trace.linked else Follower(trace), Loop()
    follower.begin([PROGRAM, "follow"], loop)
    observer, recorded = Observer(follower, {}, {}, Use(160), {}), Recorded()
    follower.listeners.append(recorded)
    replies = [line for line in report_of(path).read_text().splitlines() if not METER.fullmatch(line)]
    for (event, _), line in zip(steps, replies):
        asked = (event.line, event.octets.hex().encode()) if isinstance(event, (Arrival, LinkArrival)) else None
        if isinstance(event, (Nail, Seat, Free, Link, Restart)):
            follower.expect(event)
        follower.take(line.replace(":", " ").encode().split(b" "), asked)
    follower.finish(lambda: False)
    assert not (follower.refusal or follower.lags), follower.refusal
    return Followed(observer.snapshot(), recorded.lines)


def state_after(path: Path) -> Snapshot:
    """The state after the last line of a trace, by its report."""
    return followed(path).state


def printed(main: Callable[..., str], trace: Path) -> str:
    """What a tool prints of a trace and its report."""
    with support.silence():
        return main(str(trace), str(report_of(trace)))


def rows_of(trace: Path) -> list[dict[str, str]]:
    """The records of a run."""
    return list(csv.DictReader(printed(records.main, trace).splitlines()))


def documents(state: Snapshot) -> dict[str, str]:
    """Each document that is served of a state."""
    return {path: make(state, lambda: None).text for path, make in Site("an <exchange>").makers.items()}


class Checked(InFolder):
    """What is followed of a run, and served of it, against the tools that read a trace without data links and its report."""

    def check_calls(self, state: Snapshot, trace: Path) -> None:
        """The console and calls.json have the calls as tools/calls draws them, and their fields as tools/records has them."""
        drawn = printed(calls.main, trace)
        titles = re.findall("^(call [0-9]+: .*)$", drawn, re.MULTILINE)
        found: list[dict[str, Any]] = json.loads(documents(state)["/calls.json"])["calls"]
        found.sort(key=lambda call: int(call["call"]))
        self.assertEqual([f"call {call['call']}: {call['title']}" for call in found], titles[-len(found) :] if found else [])
        in_progress = {f"call {call['call']}: {call['title']}" for call in found if call["phase"] != "ended"}
        self.assertEqual(shown("calls", state)[:-1], [text for text in titles if text in in_progress])
        for call, row in zip(found, rows_of(trace)[-len(found) :]):
            self.assertEqual({name: "" if call[name] is None else str(call[name]) for name in row}, row)
            ladder = drawn[drawn.index(f"call {call['call']}: ") :].split("\n\ncall ")[0].split("\n\nmessages on")[0]
            names = re.findall("-+ ([A-Za-z0-9 ]+ [0-9A-F]{4}|ignored octets) -+", ladder)
            self.assertEqual([message["name"] for message in call["messages"]], names)

    def check_sums(self, state: Snapshot, trace: Path) -> None:
        """The counters are the sums of the records."""
        metrics = Metrics(metrics_text(state))
        rows = rows_of(trace)
        refused = [row for row in rows if "/" not in row["caller"]]
        ended = [row for row in rows if row["release"] and row not in refused]
        answered = [row for row in rows if row["answer"]]
        self.assertEqual(metrics.one("calls_offered_total"), len(rows))
        self.assertEqual(metrics.one("calls_answered_total"), len(answered))
        self.assertEqual(metrics.by("calls_refused_total", "cause"), causes(refused))
        self.assertEqual(metrics.by("calls_ended_total", "cause"), causes(ended))
        self.assertEqual(sum(metrics.by("calls", "phase").values()), len(rows) - len(refused) - len(ended))
        set_up = sum(int(row["answer"]) - int(row["setup"]) for row in answered)
        self.assertEqual(metrics.one("call_setup_seconds_count"), len(answered))
        self.assertAlmostEqual(metrics.one("call_setup_seconds_sum"), set_up / FRAMES_PER_SECOND)
        talked = sum(float(row["seconds"]) for row in ended if row["seconds"])
        self.assertAlmostEqual(metrics.one("conversation_seconds_total"), talked, places=4)
        moved = re.findall("^[0-9]+ (?:granted|seated|message moved) ([0-9]+) ([0-9]+)", report_of(trace).read_text(), re.MULTILINE)
        self.assertEqual(metrics.one("moved_paths_total"), sum(int(there) + int(back) for there, back in moved))
        self.assertEqual(metrics.one("connections_total"), len(moved))

    def check_channels(self, state: Snapshot, trace: Path) -> None:
        """Each channel is in one state, and the taken slots are as in the run."""
        with support.silence():
            run = follow(*read_run(str(trace), str(report_of(trace))))
        self.assertEqual(dict(state.uses), run.uses)
        by_state = Metrics(metrics_text(state)).by("channels", "state")
        self.assertEqual(sum(by_state.values()), 30 * state.sizes.external)
        taken = {name: count for name, count in by_state.items() if name != ("idle",)}
        self.assertEqual(sum(taken.values()), len(run.uses))
        elements = Elements(documents(state)["/"])
        lamps = [element for element in elements.of("i") if "title" in element.attrs]
        self.assertEqual(sorted(lamp.attrs["title"].split(" ")[0] for lamp in lamps), sorted(map(str, run.uses)))
        self.assertEqual({(name,): count for name, count in Counter(lamp.attrs["class"] for lamp in lamps).items()}, taken)


@slow
class States(Checked):
    """The state after each example, and what is served of it."""

    RUNS = [trace for trace in TRACES if not is_refused(trace)]

    def test_calls(self) -> None:
        for trace in self.RUNS:
            with self.subTest(trace=trace.name):
                self.check_calls(state_after(trace), trace)

    def test_sums(self) -> None:
        for trace in self.RUNS:
            with self.subTest(trace=trace.name):
                self.check_sums(state_after(trace), trace)

    def test_channels(self) -> None:
        for trace in self.RUNS:
            with self.subTest(trace=trace.name):
                self.check_channels(state_after(trace), trace)

    def test_replies_that_do_not_fit(self) -> None:
        """Nothing is followed from there on, and that is shown."""
        setup = b"080200010504038090A3700480313031"
        cases = {
            b"1 message 0 0802800102": ((0, setup), "event 1 of the report has a message that the exchange never sends"),
            b"1 freed": (None, "event 1 does not fit the calls before it"),
        }
        for reply, (asked, said) in cases.items():
            follower = Follower(Trace(Sizes(2, 0, 1), {}, USUAL_TIMERS, (), (Free(Slot(0, 1)),)))
            observer = Observer(follower, {}, {}, Use(160), {})
            follower.take(reply.split(b" "), asked)
            follower.take([b"2", b"frame", b"0"], None)
            state = observer.snapshot()
            self.assertEqual((state.refusal, state.frame), (said, 1))
            self.assertEqual(shown("calls", state)[-1], f"calls are followed no more: {said}")
            self.assertEqual(Metrics(metrics_text(state)).one("followed"), 0)
            self.assertIn(f"calls are followed no more: {said}", documents(state)["/"])

    def test_a_call_with_many_messages(self) -> None:
        """It has its first messages and its last ones, and the others are counted."""
        run = Run(Trace(Sizes(2, 0, 1), {}, USUAL_TIMERS), max_rows=MAX_ROWS)
        setup = bytes.fromhex("080200010504038090A3700480313031")
        run.take(Arrival(0, setup), Reply(1, "message", sent=(Sent(0, bytes.fromhex("080280010D1803A98381")),)))
        for event in range(2, 3 * MAX_ROWS):
            status = Sent(0, bytes.fromhex("080280017D0802829E140102"))
            run.take(Arrival(0, bytes.fromhex("0802000175")), Reply(event, "message", sent=(status,)))
        (call,) = run.calls
        half = [row.event for row in call.rows][: MAX_ROWS // 2]
        self.assertEqual((half, call.rows[-1].event), ([1 + at // 2 for at in range(MAX_ROWS // 2)], 3 * MAX_ROWS - 1))
        self.assertEqual((len(call.rows), len(call.rows) + call.left_out), (MAX_ROWS, 2 * (3 * MAX_ROWS - 1)))


class User:
    """The user of a data link, whose frames are lines of a trace."""

    def __init__(self, line: int) -> None:
        self.line = line
        self.sent = 0  # N(S) of its next I frame

    def sends(self, kind: str, nr: int = 0, message: str = "") -> str:
        """A frame. SABME, DISC and UA have the bit P or F, and S frames are responses without it."""
        is_unnumbered = kind in ("SABME", "DISC", "UA")
        frame = LinkFrame(kind, kind in ("SABME", "DISC", "I"), is_unnumbered, nr, self.sent % 128, bytes.fromhex(message))
        self.sent += kind == "I"
        return f"L {self.line} {write_frame(frame, is_from_user=True).hex().upper()}"

    def says(self, *messages: str, nr: int = 0) -> list[str]:
        return [self.sends("I", nr, message) for message in messages]


@slow
@needs_program
class LinkedStates(Checked):
    """The state of an exchange with data links. What call control sends counts when it is sent, and not in an I frame."""

    HEAD = ["exchange 1 3 1 1", "link 0", *(f"number 10{line} line {line}" for line in range(3)), "number 30 room 0"]
    TIMERS = ["timer T203 2000", "timer T305 600", "timer T308 300", "timer T309 900"]
    ENQUIRY = "0802006375"
    TO_1, TO_0, TO_ROOM = "80313031", "80313030", "803330"

    def setup(self, reference: int, digits: str) -> str:
        return f"080200{reference:02X}0504038090A370{len(digits) // 2:02X}{digits}"

    def check(self, lines: Sequence[str], timer: str = "timer T200 200") -> tuple[Followed, list[dict[str, str]]]:
        """Follows a trace, and compares with the trace that tools/plain makes of it. Returns that one's records too."""
        path, plain_path = self.folder / "linked.trace", self.folder / "plain.trace"
        path.write_text("".join(f"{line}\n" for line in [*self.HEAD, *self.TIMERS, timer, *lines]))
        self.run_of(path)
        found = followed(path)
        with support.silence():
            plain_path.write_text(plain.main(str(path), str(report_of(path))))
        self.run_of(plain_path)
        self.check_calls(found.state, plain_path)
        self.check_sums(found.state, plain_path)
        self.check_channels(found.state, plain_path)
        rows = rows_of(plain_path)
        wanted = [csv_line(row.values()) for row in rows if row["release"]]
        self.assertEqual(sorted(found.records), sorted(wanted))
        return found, rows

    def run_of(self, path: Path) -> None:
        """Runs a trace to its report."""
        report = subprocess.run([PROGRAM, "follow"], input=path.read_bytes(), capture_output=True, check=True).stdout
        report_of(path).write_bytes(report)

    def sent(self, kind: str) -> list[int]:
        """The events in which I frames with messages of a type are sent on line 0."""
        return self.numbers(f"^([0-9]+) .* 0:0201[0-9A-F]{{4}}0802[0-9A-F]{{4}}{kind}")

    def numbers(self, pattern: str) -> list[int]:
        """The numbers that a pattern finds in the report."""
        return [int(found) for found in re.findall(pattern, report_of(self.folder / "linked.trace").read_text(), re.MULTILINE)]

    def full(self, user: User) -> list[str]:
        """The link is established, and its window is full: seven STATUS are not acknowledged."""
        return [user.sends("SABME"), *user.says(*[self.ENQUIRY] * 7)]

    def call(self, user: User) -> list[str]:
        """A call of the user of the link to line 1, which answers, and clears some frames later."""
        released = ["M 1 080280014508028090", "M 1 080280015A"]
        return [*user.says(self.setup(1, self.TO_1)), *["F"] * 5, "M 1 0802800101", *["F"] * 3, "M 1 0802800107", *["F"] * 40, *released]

    def test_a_data_link(self) -> None:
        """A call over a link, whose messages do not wait."""
        state = state_after(LINKED)
        (link,) = state.links
        self.assertEqual(shown("links", state)[0], f"line {link.number}: its data link is {'up' if link.is_up else 'down'}")
        self.assertEqual(Metrics(metrics_text(state)).by("link_up", "line"), {(str(link.number),): 1.0} if link.is_up else {})
        self.assertGreater(state.totals.answered, 0)

    def test_a_full_window(self) -> None:
        """A call whose messages wait for the window, and are sent after it was cleared. Its record has the times of the call."""
        user = User(0)
        lines = [*self.full(user), *self.call(user), *["F"] * 10]
        found, rows = self.check(lines)
        self.assertEqual((self.sent("07"), [(row["alerting"], row["answer"], row["clearing"]) for row in rows]), ([], [("5", "8", "48")]))
        self.assertEqual((found.state.totals.answered, list(found.state.phases.values())), (1, ["clearing"]))
        lines += [user.sends("RR", 7), *["F"] * 2, *user.says("080200014D", nr=11), *["F"] * 4]
        _, rows = self.check(lines)
        self.assertEqual((len(self.sent("07")), rows[0]["answer"], rows[0]["release"]), (1, "8", "60"))

    def test_a_call_to_a_full_window(self) -> None:
        """The SETUP for the user waits, and so does what follows it."""
        user = User(0)
        lines = [*self.full(user), f"M 2 {self.setup(3, self.TO_0)}", *["F"] * 3, f"M 1 {self.setup(4, self.TO_0)}", *["F"] * 3]
        found, _ = self.check(lines)
        self.assertEqual((self.sent("05"), len(found.state.calls), len(found.state.uses)), ([], 2, 4))
        answered = [user.sends("RR", 7), *user.says("0802800107", nr=8), *["F"] * 2, *user.says("0802800207", nr=9), *["F"] * 50]
        found, rows = self.check([*lines, *answered])
        self.assertEqual(([row["called"] for row in rows], [row["answer"] for row in rows]), (["0/1", "0/2"], ["6", "8"]))

    def test_a_user_that_is_busy(self) -> None:
        """RNR: nothing is sent. T305 and T308 end the call unseen, and RR sends its messages afterwards."""
        user = User(0)
        lines = [user.sends("SABME"), user.sends("RNR"), *self.call(user)]
        busy = [line for at in range(40) for line in (*["F"] * 50, user.sends("RNR"))]
        found, rows = self.check([*lines, *busy])
        self.assertEqual((self.sent("02"), rows[0]["answer"] != "", rows[0]["release"] != "", len(found.state.uses)), ([], True, True, 0))
        self.check([*lines, *busy[:300], user.sends("RR"), *["F"] * 10])
        self.assertEqual(len(self.sent("07")), 1)

    def test_a_link_that_is_lost(self) -> None:
        """The messages that wait are lost with the link, and were sent for call control all the same."""
        user = User(0)
        waits = [user.sends("SABME"), user.sends("RNR"), *user.says(self.setup(1, self.TO_1)), "F", "M 1 0802800107", "F"]
        waits += [*user.says(self.setup(2, self.TO_ROOM)), "F", f"M 2 {self.setup(3, self.TO_0)}", "F"]
        found, _ = self.check(waits)
        self.assertEqual((self.sent("0[0-9A-F]"), found.state.totals.answered, len(found.state.uses)), ([], 2, 5))
        found, rows = self.check([*waits, user.sends("DISC"), *["F"] * 20])
        self.assertEqual([row["cause"] for row in rows], ["", "", "27"])
        again = User(0)
        ends = [*["F"] * 1000, again.sends("SABME"), again.sends("UA"), *["F"] * 40]
        _, rows = self.check([*waits, user.sends("DISC"), *ends])
        self.assertEqual([row["cause"] for row in rows], ["27", "27", "27"])

    def test_a_full_queue(self) -> None:
        """The 65th message that waits: all are lost, and the link is down in its next turn."""
        user = User(0)
        lines = [user.sends("SABME"), *user.says(self.setup(1, self.TO_1), *[self.ENQUIRY] * 70), *["F"] * 40, user.sends("UA"), *["F"] * 40]
        _, rows = self.check(lines)
        self.assertEqual(rows[0]["cause"], "27")

    def test_a_release_while_the_link_fails(self) -> None:
        """T308 expires twice before the link is down, or once, or never. The user gets RELEASE once, and RESTART when the link
        is up again."""
        for expiries, retry in enumerate((20, 40, 100)):
            user, again, timer = User(0), User(0), f"timer T200 {retry}"
            talks = [user.sends("SABME"), *user.says(self.setup(1, self.TO_1)), "M 1 0802800107", *["F"] * 20]
            clears = [*user.says("080200014508028090", nr=2), "M 1 080280014D", *["F"] * 700]
            found, rows = self.check([*talks, *clears], timer)
            (down,) = self.numbers("frame ([0-9]+) down 0")[:1] or [1000]
            self.assertEqual((expiries, self.sent("4D") != [], rows[0]["release"]), (sum(at < down for at in (330, 630)), True, "661"))
            self.assertEqual((found.state.uses, found.state.calls), ({}, ()))
            self.check([*talks, *clears, *["F"] * 500, again.sends("SABME"), again.sends("UA"), *["F"] * 700], timer)
            self.assertEqual(len(self.sent("46")), 1)

    def begun(self) -> tuple[LinkedFollower, Loop]:
        """A follower of an exchange that has sent three frames."""
        follower, loop = LinkedFollower(Trace(Sizes(2, 0, 1), {}, USUAL_TIMERS, (0,)), b"exchange 1 2 0 1\nlink 0\n"), Loop()
        follower.begin([PROGRAM, "follow"], loop)
        self.addCleanup(follower.kill)
        self.pass_frames(follower, 3)
        while follower.lags:
            loop.wait(1)
        return follower, loop

    @staticmethod
    def pass_frames(follower: LinkedFollower, count: int) -> None:
        for frame in range(follower.passed, follower.passed + count):
            follower.take([b"%d" % (frame + 1), b"frame", b"%d" % frame], None)

    def check_refusal(self, follower: LinkedFollower, why: str) -> None:
        """Nothing is followed any more, frames are counted, and operators can be shown why."""
        self.pass_frames(follower, 1)
        state = Observer(follower, {}, {}, Use(160), {}).snapshot()
        self.assertEqual((state.refusal, state.frame, follower.lags), (why, follower.passed, False))
        self.assertEqual((follower.pids(), follower.is_current()), ([], True))

    def test_a_process_that_ends(self) -> None:
        """Calls are followed no more, and that is shown."""
        follower, loop = self.begun()
        follower.kill()
        self.pass_frames(follower, 1)
        while not follower.refusal:
            loop.wait(1)
        self.check_refusal(follower, "the process that follows them has ended")

    def test_a_process_that_is_stopped(self) -> None:
        """Operators are shown the state before it, and it is given up if too much waits for it, or at the end."""
        follower, loop = self.begun()
        os.kill(follower.pids()[0], signal.SIGSTOP)
        self.pass_frames(follower, 5)
        loop.wait(0)
        for patience, is_current in ((PATIENCE, False), (-1, True)):
            with mock.patch("nemzhuul.live.linked.PATIENCE", patience):
                self.assertEqual((follower.lags, follower.is_current(), follower.frames), (True, is_current, 3))
        with mock.patch("nemzhuul.live.linked.MAX_QUEUED", 10):
            self.pass_frames(follower, 6)
        self.check_refusal(follower, "the process that follows them takes nothing")
        follower, loop = self.begun()
        os.kill(follower.pids()[0], signal.SIGSTOP)
        self.pass_frames(follower, 5)
        follower.finish(lambda: True)
        self.check_refusal(follower, "the process that follows them does not reply")


if __name__ == "__main__":
    support.main()
