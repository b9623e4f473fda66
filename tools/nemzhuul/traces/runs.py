"""Reads a trace and its report side by side, line by line, however long they are.

A report has the order of its trace, or another one that `tst run` may choose: an event waits for its line. A run that
`tst run` does not accept was followed, and then both have one order.
"""

from __future__ import annotations

import os
import re
import stat
from collections.abc import Callable, Iterable, Iterator
from typing import NamedTuple

from nemzhuul.command_line import Progress, Refused, say
from nemzhuul.traces.events import MAX_BYTES, MAX_EVENTS, Event, Octets, Reply, Step, Trace
from nemzhuul.traces.reading import METER, REFUSAL, WORDS_OF, LineError, TraceReader, WrongLine, is_said, no_header, reply

BLOCK = 1 << 20  # octets of a read
SHOWN_LINES = 1 << 10  # lines between two looks at how far it is
OTHER_EVENT = re.compile(rb"\n(?: *(?:[ML]|nail|seat|free|up|down|restart) | +F)")


class Line(NamedTuple):
    """A line of a trace without its end, and its event, if it has one."""

    text: str
    event: Event | None


class WrongReport(Refused):
    """A report that is none, or not the one of its trace. If no report has one of its lines, that line and its number."""

    def __init__(self, said: str, row: int = 0, line: str = "") -> None:
        super().__init__(said)
        self.row = row
        self.line = line


class TraceFile:
    """The lines of a trace, read one by one. Its settings are there from the beginning."""

    def __init__(self, path: str, progress: Progress) -> None:
        self.path = path
        self.reader = reader = TraceReader(is_followed=True)
        self._lines = self._read(progress)
        self._first: list[Line] = []
        for line in self._lines:
            self._first.append(line)
            if line.event is not None:
                break
        self.trace = Trace(reader.sizes, reader.numbers, reader.known_timers | reader.timers, tuple(reader.linked))

    def __iter__(self) -> Iterator[Line]:
        yield from self._first
        yield from self._lines

    def events(self) -> Iterator[Event]:
        return (line.event for line in self if line.event is not None)

    def _read(self, progress: Progress) -> Iterator[Line]:
        number = octets = 0
        try:
            for number, line in enumerate(lines_in(self.path), start=1):
                text = line.removesuffix("\n")
                octets += len(line)
                if number % SHOWN_LINES == 0:
                    progress.show(octets)
                yield Line(text, self.reader.take(text) if is_said(text) else None)
        except LineError as error:
            raise self._refused(WrongLine(number, error)) from None
        finally:
            progress.end()
        if not self.reader.has_header:
            raise self._refused(no_header(number))

    def _refused(self, wrong: WrongLine) -> Refused:
        return Refused(f"{self.path} is no trace: {wrong}")


class Run(NamedTuple):
    """A run: what is above the events of its trace, its steps in the order of the report, and whether it was followed."""

    trace: Trace
    steps: Iterable[Step]
    is_long: bool


def open_run(trace_path: str, report_path: str, has_links: bool = False, writes: bool = False) -> Run:
    """The run of a trace and its report, whose steps are read while they are taken. A tool may write while they are.

    Only a long run is taken before it is known that its report fits to the end.
    """
    is_long = is_over_limits(trace_path)
    if not is_long and size_of(trace_path) and size_of(report_path):
        for _ in steps_of(trace_path, report_path, has_links, says=False).steps:
            pass
        return steps_of(trace_path, report_path, has_links)
    run = steps_of(trace_path, report_path, has_links, is_long, writes)
    return run if is_long else run._replace(steps=list(run.steps))


def steps_of(
    trace_path: str, report_path: str, has_links: bool, is_long: bool = False, writes: bool = False, says: bool = True
) -> Run:
    """The run of a trace and its report, of which nothing is known yet."""
    file = TraceFile(trace_path, Progress(trace_path, size_of(trace_path), writes and is_long))
    if file.trace.linked and not has_links:
        raise Refused(f"{trace_path} has data links: tools/plain writes a trace without them")
    in_order = is_long or bool(file.trace.linked)
    return Run(file.trace, Replies(file, report_path, in_order, says).steps(), is_long)


def size_of(path: str) -> int:
    """The octets of a file; 0 of one that can be read only once, such as a pipe."""
    state = os.stat(path)
    return state.st_size if stat.S_ISREG(state.st_mode) else 0


def is_over_limits(path: str) -> bool:
    """Whether a trace is longer than `tst run` accepts, if it is one."""
    size = size_of(path)
    return size > MAX_BYTES or size > MAX_EVENTS and count_events(path) > MAX_EVENTS


def read_run(trace_path: str, report_path: str, has_links: bool = False) -> tuple[Trace, list[Step]]:
    """A trace, and its steps in the order of the report."""
    run = steps_of(trace_path, report_path, has_links, is_over_limits(trace_path))
    return run.trace, list(run.steps)


def count_events(path: str) -> int:
    """The number of events in a trace, if it is one."""
    count = 0
    with open(path, "rb") as file:
        begun = b"\n"
        while block := file.read(BLOCK):
            whole, line_end, begun = (begun + block).rpartition(b"\n")
            begun = line_end + begun
            count += whole.count(b"\nF") + len(OTHER_EVENT.findall(whole))
    return count + begun.count(b"\nF") + len(OTHER_EVENT.findall(begun))


class Replies:
    """The replies of a report to the events of a trace."""

    def __init__(self, trace: TraceFile, path: str, in_order: bool, says: bool = True) -> None:
        self.trace = trace
        self.path = path
        self.in_order = in_order
        self.says = says
        self._events = enumerate(trace.events(), start=1)
        self._ahead = next(self._events, None)  # the next event and its number
        self._waiting: dict[int, Event] = {}  # the events before it that have no reply yet
        self._known = {""}  # the numbers of the lines with octets in frames, of those that were checked

    def steps(self) -> Iterator[Step]:
        """Each event with its reply. A refusal of the trace comes before a refusal of the report."""
        try:
            yield from self._steps()
        except WrongReport:
            while not self.in_order and self._ahead:
                self._ahead = next(self._events, None)
            raise

    def _steps(self) -> Iterator[Step]:
        frames = 0
        for row, answer in replies_in(self.path, lambda: self.trace.reader.changes > 0, self.says):
            event = self._event(answer.event)
            if event is None or not self._fits(event, answer):
                raise self._misfit(f"line {row}")
            frames = next_frame(self.path, row, answer, frames)
            yield Step(event, answer)
        if self._ahead or self._waiting:
            raise self._misfit("it has too few lines")

    def _event(self, number: int) -> Event | None:
        """The event of a reply, if it had none before."""
        while self._ahead and self._ahead[0] <= number:
            at, event = self._ahead
            if at < number and self.in_order:
                return None
            self._waiting[at] = event
            self._ahead = next(self._events, None)
        return self._waiting.pop(number, None)

    def _fits(self, event: Event, answer: Reply) -> bool:
        """Whether a reply can be one to an event."""
        linked, lines = self.trace.trace.linked, self.trace.trace.sizes.external
        if isinstance(answer.octets, Octets) and (names := answer.octets.names()) not in self._known:
            if any(line >= lines for line in answer.octets):
                return False
            self._known.add(names)
        has_words = answer.word in WORDS_OF[type(event)]
        return has_words and all(line < lines for line, _ in answer.sent) and answer.turned in (None, *linked)

    def _misfit(self, why: str) -> WrongReport:
        return WrongReport(f"{self.path} is not the report of {self.trace.path}: {why}")


def read_report(path: str) -> Iterator[Reply]:
    """The replies of a report whose trace is not read."""
    frames = 0
    for row, answer in replies_in(path, lambda: True):
        frames = next_frame(path, row, answer, frames)
        yield answer


def replies_in(path: str, may_change: Callable[[], bool], says: bool = True) -> Iterator[tuple[int, Reply]]:
    """The replies of a report, each with the number of its line. If meters may change, their lines are passed over, and
    that is said."""
    passed = 0
    for row, text in enumerate(lines_in(path), start=1):
        line = text.removesuffix("\n")
        if line == text:
            raise WrongReport(f"{path} is no report: its last line has no end")
        answer = reply(line)
        if answer is not None:
            yield row, answer
        elif METER.fullmatch(line) and may_change():
            passed += 1
        else:
            why = f"the report of a refusal: {line}" if REFUSAL.fullmatch(line) else f"no report: line {row}"
            raise WrongReport(f"{path} is {why}", row, line)
    if passed and says:
        say(f"{path}: {passed} lines of meters passed over")


def next_frame(path: str, row: int, answer: Reply, frame: int) -> int:
    """The number of the frame after a reply, which is not the one before a frame that is missing."""
    if answer.frame not in (None, frame):
        raise WrongReport(f"{path} is no report: line {row}, frame {frame} is missing")
    return frame + (answer.frame is not None)


def lines_in(path: str) -> Iterator[str]:
    """The lines of a file with their ends, one by one, each octet as a character."""
    with open(path, encoding="latin-1", newline="\n") as file:
        yield from file
