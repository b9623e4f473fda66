"""Runs the exchange live: endpoints attach to its lines over sockets, and a clock makes its frames.

It is not proved, and neither is the clock. `tst follow`, which is, reads the lines of a trace from it and writes their
report to it. All that happens is in the log, and a run of `tst follow` over the log writes the same report.
"""

from __future__ import annotations

import contextlib
import enum
import signal
import socket
import time
from collections import deque
from collections.abc import Iterable, Mapping, Sequence
from pathlib import Path
from typing import NamedTuple

from nemzhuul.command_line import NAME, Refused, WrongWords, say
from nemzhuul.live.clock import WallClock
from nemzhuul.live.control import REPLIES
from nemzhuul.live.following import Follower
from nemzhuul.live.linked import LinkedFollower
from nemzhuul.live.lines import SHUT_DOWN, DChannel, Line, Port
from nemzhuul.live.log import Writer
from nemzhuul.live.operators import Operators, Places
from nemzhuul.live.periods import Use
from nemzhuul.live.processes import Exchange, Loop
from nemzhuul.live.realtime import ask_for_realtime
from nemzhuul.live.records import CallRecords, open_records
from nemzhuul.live.resume import Appended, History, Replay, Returns, open_log
from nemzhuul.live.snapshots import Observer
from nemzhuul.live.standby import Pair, check_log
from nemzhuul.live.states import DISC
from nemzhuul.live.wire import Address, read_address
from nemzhuul.outputs import Output, check_output, is_same_file
from nemzhuul.programs.program import NAMED, PROGRAM, REMEDY, UNPROVED, misfit, program_at
from nemzhuul.signalling.captures import CaptureWriter
from nemzhuul.signalling.lapd import frame_text
from nemzhuul.signalling.q931 import SETUP, message_text
from nemzhuul.sip.gateway_process import OPTIONS as SIP_OPTIONS, GatewayProcess
from nemzhuul.traces.events import FRAMES_PER_SECOND, Arrival, Event, Frame, Link, LinkArrival, Restart, Trace
from nemzhuul.traces.reading import NUMERAL, TraceReader, is_said, lines_of, take_lines

USAGE = """usage: tools/attach [OPTION ..] [--line L ADDRESS ..] [--link L ADDRESS ..] SETTINGS
runs the exchange that the file SETTINGS begins (a trace without messages and frames), 8000 frames a second. One
endpoint at a time attaches to each line with an ADDRESS: unix:PATH or tcp:HOST:PORT. It ends at signal INT, TERM or HUP.
    --link L unix:PATH  gives line L a data link (LAPD), whose frames are datagrams of a SOCK_SEQPACKET socket, each
                     with two octets of check sequence at its end
    --sip USERS      runs tools/sip with this users file as the endpoint of all lines without an address
    --sip-listen HOST:PORT  has it listen there (127.0.0.1:5060)
    --sip-allow NETWORK  has it hear this network too, such as 192.168.1.0/24
    --burst MS       makes the frames of this time at once, 1 to 1000 ms (20)
    --log FILE       writes the trace of all that happens, which `tst follow <FILE` runs again
    --resume LOG     goes on where the exchange with this log ended in any way, and appends to it. Calls go on, and so do
                     data links. SETTINGS and --strict are as they were. Without it, the endpoint of each line gets
                     RESTART first, and ends the calls that it has from an exchange before
    --report FILE    writes the report; with --resume, from there on
    --records FILE   appends a line of CSV for each call when it ends, as tools/records has it, with times by the wall clock
    --pcap FILE      writes a capture of the messages, for Wireshark
    --control unix:PATH  listens there for tools/console, which shows calls and lines, and connects and releases slots
    --status PLACE   serves a page of the exchange, calls.json, and metrics for Prometheus over HTTP. PLACE is HOST:PORT,
                     or PORT, which only this machine reaches
    --overwrite      replaces these files; without it, one that has content is refused
    --needs-log      ends the exchange if the log cannot be written; without it, calls go on without a log
    --seconds N      ends after N seconds by the clock, also if frames are late
    --standby        gives every line to two processes of the exchange. If one fails, the other goes on with its next octet,
                     and a new one is made from the log, which has to be a file
    --strict         runs the fabric on which no path moves
    --program FILE   runs this exchange, and not the proved one (crates/tst/out/tst)
    --realtime       asks for SCHED_RR and locked memory, and goes on if they are refused
    --unproved       runs an unproved one if the proved one is not built; it is too slow for real time
A socket that no process has any more is removed before a line listens at its PATH, and no other file there.
An endpoint sends and gets lines: `M HEX`, a message, and `F HEX`, the octets of a frame. It gets frames from its first
`F HEX` or `F none` on. With --line and --link, a line has its frames at the one socket and its messages at the other.
Signal USR1 prints how much of its time the exchange has used so far."""

PART_SECONDS = 1  # that endpoints have at the end for their last line

OUTPUTS = {"log": "the log", "report": "the report", "pcap": "the capture", "records": "the records"}
APPENDED = ("records",)  # files that may have content


class Cause(enum.Enum):
    """Why an event without a message was given."""

    SETTINGS = "a line of the settings"
    START = "the first endpoint of a line since the start"
    OPERATOR = "a command"


class Asked(NamedTuple):
    """A message or a frame of a data link, or a restart or a change of a link, of which the exchange has not said yet what
    comes of it."""

    line: int
    what: bytes | Cause  # digits, if there are octets

    @property
    def signal(self) -> tuple[int, bytes] | None:
        """The line and the digits of a message or a frame."""
        return None if isinstance(self.what, Cause) else (self.line, self.what)


class Options:
    """The options of the command, and the settings with which its trace begins."""

    def __init__(self, words: Sequence[str]) -> None:
        self.addresses: dict[int, Address] = {}  # of the endpoints, by line
        self.links: dict[int, Address] = {}  # of the data links
        self.sip: list[str] = []  # options of tools/sip
        self.control: Address | None = None
        self.status = ""  # the place of the page
        self.frames = FRAMES_PER_SECOND // 50  # of a burst
        self.seconds: int | None = None
        self.files: dict[str, str | None] = dict.fromkeys((*OUTPUTS, "program"))
        self.flags: list[str] = []
        self.has_standby = False
        self.may_overwrite = self.may_be_unproved = self.needs_log = self.is_realtime = self.is_resumed = False
        left = list(words)
        while left and left[0].startswith("--"):
            self.option(left.pop(0)[2:], left)
        if self.sip and "--users" not in self.sip:
            raise Refused("--sip-listen and --sip-allow need --sip USERS: without passwords, run tools/sip itself")
        if len(left) != 1 or not (self.addresses or self.links or self.sip):
            raise WrongWords
        self.name = Path(left[0]).name
        self.settings = self.read_settings(left[0])
        self.check_files(left[0])

    def option(self, name: str, words: list[str]) -> None:
        values = {"line": 2, "link": 2, "strict": 0, "standby": 0, "overwrite": 0, "unproved": 0, "needs-log": 0, "realtime": 0}.get(name, 1)
        if len(words) <= values:
            raise WrongWords
        given = [words.pop(0) for _ in range(values)]
        if name in ("line", "link"):
            self.address(self.addresses if name == "line" else self.links, *given)
        elif name == "strict":
            self.flags = ["--strict"]
        elif name == "standby":
            self.has_standby = True
        elif name == "overwrite":
            self.may_overwrite = True
        elif name == "unproved":
            self.may_be_unproved = True
        elif name == "needs-log":
            self.needs_log = True
        elif name == "realtime":
            self.is_realtime = True
        elif name == "burst":
            self.frames = int_of(given[0], 1, 1000) * FRAMES_PER_SECOND // 1000
        elif name == "seconds":
            self.seconds = int_of(given[0], 1, 999_999_999)
        elif name in SIP_OPTIONS:
            self.sip += [SIP_OPTIONS[name], *given]
        elif name == "control":
            self.control = read_address(given[0])
        elif name == "status":
            self.status = given[0]
        elif name == "resume" and self.files["log"] is None:
            (self.files["log"],) = given
            self.is_resumed = True
        elif name in self.files and not (name == "log" and self.is_resumed):
            (self.files[name],) = given
        else:
            raise WrongWords

    @property
    def is_followed(self) -> bool:
        """Whether the calls of the exchange are followed."""
        return bool(self.files["records"] or self.control or self.status)

    def address(self, addresses: dict[int, Address], line: str, word: str) -> None:
        if int_of(line, 0, 31) in addresses:
            raise Refused(f"line {line} has two addresses")
        address = addresses[int(line)] = read_address(word)
        if addresses is self.links and address.path is None:
            raise Refused(f"{word} is no address of a data link: it is unix:PATH")

    def output(self, name: str) -> Output:
        """A file that is written."""
        path = self.files[name]
        if path is not None and name == "records":
            return open_records(path)
        return open_log(path) if path is not None and name == "log" and self.is_resumed else Output(path, self.may_overwrite)

    def read_settings(self, path: str) -> bytes:
        """The lines of a trace in which no message and no frame arrives."""
        reader = TraceReader(is_followed=True)
        lines = lines_of(path)
        events: list[Event] = []
        wrong = take_lines(reader, lines, events)
        if wrong:
            raise Refused(f"{path} is no trace: {wrong}")
        if any(isinstance(event, (Arrival, LinkArrival, Frame)) for event in events) or reader.changes:
            raise Refused(f"{path} has messages, frames or changes of meters: endpoints send them")
        for line in (*self.addresses, *self.links):
            if line >= reader.sizes.external:
                raise Refused(f"{path} has no line {line}: it has lines 0 to {reader.sizes.external - 1}")
        for event in events:
            if isinstance(event, Link) and event.line in self.links:
                raise Refused(f"{path} has a line `up` or `down` for line {event.line}, whose data link is attached")
        self.linked = {*reader.linked, *self.links}
        self.events = len(events)
        timers = reader.known_timers | reader.timers
        self.trace = Trace(reader.sizes, reader.numbers, timers, tuple(sorted(self.linked)), tuple(events))
        header = next(at for at, line in enumerate(lines, start=1) if is_said(line))
        lines[header:header] = [f"link {line}" for line in self.links if line not in reader.linked]
        return "".join(f"{line}\n" for line in lines).encode("latin-1")

    def check_files(self, settings: str) -> None:
        """Refuses, before anything starts, an output that is another file of this command or cannot be written."""
        if self.has_standby:
            check_log(self.files["log"])
        taken: list[tuple[str, str | Path]] = [("the settings", settings), ("the program", self.files["program"] or PROGRAM)]
        sockets = [(f"a socket of line {line}", address) for line, address in (*self.addresses.items(), *self.links.items())]
        if self.control is not None:
            sockets.append(("the console", self.control))
        taken += [(what, address.path) for what, address in sockets if address.path is not None]
        for name, what in OUTPUTS.items():
            path = self.files[name]
            if path is None:
                continue
            for other, place in taken:
                if is_same_file(path, place):
                    raise Refused(f"{path} cannot be both {other} and {what}")
            check_output(path, self.may_overwrite or name in APPENDED or name == "log" and self.is_resumed)
            taken.append((what, path))


def exchange_program(named: str | None, may_be_unproved: bool) -> Path:
    """The program of the exchange: the named one, or the proved one, or if that may be so an unproved one. It is said."""
    why = misfit() if named is None and not may_be_unproved else None
    if why is not None:
        raise Refused(f"{NAMED} {why}, and an unproved program is too slow for real time: {REMEDY}; --unproved goes on without")
    program = program_at(named)
    if program == PROGRAM:
        say(f"{NAME}: runs the proved program, {NAMED}")
    elif program == UNPROVED:
        say(f"{NAME}: runs an unproved program, too slow for real time, so that frames are late: {REMEDY}")
    else:
        say(f"{NAME}: runs {named}, which may not be proved")
    return program


def int_of(word: str, least: int, most: int) -> int:
    if not NUMERAL.fullmatch(word) or not least <= int(word) <= most:
        raise WrongWords
    return int(word)


class Live:
    """An exchange that runs by the clock, with its lines."""

    def __init__(self, options: Options, ends: contextlib.ExitStack) -> None:
        self.options = options
        program = exchange_program(options.files["program"], options.may_be_unproved)
        writers = []
        for name, what in OUTPUTS.items():
            writers.append(Writer(options.output(name), what))
            ends.callback(writers[-1].close)
        self.log, report, self.capture, records = writers
        self.follower = self.make_follower()
        self.records = self.record_calls(records)
        self.history = self.read_history(self.log.output)
        self.packets = CaptureWriter(options.linked)
        self.given = self.replied = 0  # events
        self.frame = 0  # the number of the next frame in the report
        self.asked: deque[Asked] = deque()  # without replies so far
        self.refusal = ""
        self.use = Use(options.frames)
        self.returns = Returns()
        self.loop = Loop()
        self.interrupts = self.catch_interrupts()
        self.lines: dict[int, Line] = {}
        self.channels: dict[int, DChannel] = {}  # the D channels of data links
        for number, address in options.addresses.items():
            self.lines[number] = Line(number, address, self.loop, number in options.linked)
            ends.callback(self.lines[number].close)
        for number, address in options.links.items():
            self.channels[number] = DChannel(number, address, self.loop)
            ends.callback(self.channels[number].close)
        self.operators = self.serve_operators(dict(zip(OUTPUTS, writers)), ends)
        if options.is_realtime:
            ask_for_realtime()
        for writer in writers:
            writer.begin()
        words: list[str | Path] = [program, "follow", *options.flags]
        self.exchange = self.make_exchange(words, report)
        ends.callback(self.exchange.kill)
        if self.follower is not None:
            self.follower.begin(words, self.loop)
            ends.callback(self.follower.kill)

    def make_exchange(self, words: Sequence[str | Path], report: Writer) -> Exchange | Pair:
        if self.options.has_standby:
            return Pair(words, self.loop, self.take, report, self.log, self.use.period)
        return Exchange(words, self.loop, self.take, report)

    def make_follower(self) -> Follower | None:
        """What follows the calls, if that is wanted."""
        if not self.options.is_followed:
            return None
        return LinkedFollower(self.options.trace, self.options.settings) if self.options.linked else Follower(self.options.trace)

    def pids(self) -> list[int]:
        """The processes of the exchange."""
        return self.exchange.pids() + (self.follower.pids() if self.follower is not None else [])

    def record_calls(self, writer: Writer) -> CallRecords | None:
        """The records of calls, if they are wanted."""
        if self.follower is None or not self.options.files["records"]:
            return None
        records = CallRecords(writer, self.follower.clocks)
        self.follower.listeners.append(records)
        return records

    def serve_operators(self, writers: Mapping[str, Writer], ends: contextlib.ExitStack) -> Operators | None:
        """The console and the page, if they are wanted."""
        places = Places(self.options.control, self.options.status, self.options.name)
        if self.follower is None or not (places.control or places.status):
            return None
        observer = Observer(self.follower, self.lines, self.channels, self.use, writers)
        return Operators(places, observer, self.loop, self.command, ends)

    def ports(self) -> list[Port]:
        return [*self.lines.values(), *self.channels.values()]

    def start(self) -> None:
        """Gives the exchange its settings, and opens its lines."""
        self.capture.write(self.packets.HEADER)
        if self.records is not None:
            self.records.begin()
        if self.history is None:
            self.begin()
        else:
            self.resume(self.history)
        for port in self.ports():
            port.open()
        if self.operators is not None:
            self.operators.open()

    def begin(self) -> None:
        """Gives the exchange its settings, and has the user of each line be sent RESTART first."""
        changed = [event.line for event in self.options.trace.events if isinstance(event, (Link, Restart))]
        self.asked += [Asked(line, Cause.SETTINGS) for line in changed]
        self.give(self.options.settings, self.options.events)
        for line in self.lines.values():
            line.is_new = not line.has_link
        text: list[bytes] = []
        self.restart(text, self.channels)  # they get it as soon as their links are established
        self.give(b"".join(text), len(text))

    def run(self) -> None:
        """Makes frames by the clock until an interrupt, the end of the exchange, or the end of its time."""
        self.returns.begin()
        self.use.begin(self.pids)
        self.exchange.begin(self.given)
        clock = WallClock.at_once(self.frame)
        self.packets.start = clock.microseconds(0)
        self.log.write(clock.comment())
        if self.follower is not None:
            self.follower.clocks.append(clock)
        while not (self.interrupts or self.exchange.has_ended or self.lacks_log() or self.use.has_passed(self.options.seconds)):
            waits = self.replied < self.given
            left = self.use.left()
            if waits or left > 0:
                self.loop.wait(1 if waits else left)
            else:
                self.returns.check()
                is_current = self.follower is None or self.follower.is_current()
                self.burst()
                if self.operators is not None and is_current:  # while the exchange works
                    self.operators.serve()

    def read_history(self, output: Output) -> History | None:
        """What the log has, if the exchange goes on."""
        if not isinstance(output, Appended):
            return None
        return History(output.path or "", self.options.settings)

    def resume(self, history: History) -> None:
        """Brings the exchange to the state that the log leaves, and the log to the end of its settings if it has less."""
        replay = Replay(self.exchange, self.loop, lambda: self.interrupts, self.follower)
        if self.records is not None:
            self.records.begin_again()
        replay.run(history, self.options.settings, self.options.events)
        if self.records is not None:
            self.records.go_on()
        self.log.write(self.options.settings[history.end :])
        self.given = self.replied = replay.events
        self.frame = replay.frames
        self.returns.lines = [line for line in self.lines.values() if not line.has_link]
        for channel in self.channels.values():
            channel.state.is_up = None
        say(f"{NAME}: goes on with {history.path} at frame {self.frame}")

    def lacks_log(self) -> bool:
        """Whether the exchange ends because its log is given up."""
        return self.options.needs_log and self.log.is_given_up

    def catch_interrupts(self) -> list[socket.socket]:
        """A list to which each interrupt is appended; it also ends a wait."""
        came: list[socket.socket] = []
        reader, writer = socket.socketpair()
        writer.setblocking(False)
        signal.set_wakeup_fd(writer.fileno())
        self.loop.watch(reader, lambda: reader.recv(64))
        for number in (signal.SIGINT, signal.SIGTERM, signal.SIGHUP):
            if number != signal.SIGHUP or signal.getsignal(number) != signal.SIG_IGN:  # as `nohup` has it
                signal.signal(number, lambda *_: came.append(writer))
        signal.signal(signal.SIGUSR1, lambda *_: say(self.use.text()))
        return came

    def end(self) -> None:
        """Ends the exchange, and says what was used and taken."""
        ended = self.exchange.has_ended
        status = self.exchange.finish(lambda: len(self.interrupts) > 1)
        self.part()
        if self.follower is not None:
            self.follower.finish(lambda: len(self.interrupts) > 1)
        say(self.use.text())
        for line in self.lines.values():
            late = f"; the octets of {line.late} frames came late" if line.late else ""
            line.say(f"{line.messages} messages and {line.frames} frames with octets were taken{late}")
        for channel in self.channels.values():
            channel.say(f"{channel.frames} frames of its data link were taken, {channel.cut} cut; {channel.lost} were lost to it")
        if status is None:
            raise Refused("the exchange does not end")
        if ended or status:
            raise Refused(f"the exchange ended with status {status}: {self.refusal}")
        if self.lacks_log():
            raise Refused("the exchange needs its log, and has ended without it")

    def part(self) -> None:
        """Releases each data link, and says to each endpoint that the exchange ends."""
        for channel in self.channels.values():
            if channel.endpoint is not None:
                self.deliver_frame(channel.number, DISC)
        for line in self.lines.values():
            line.part()
        last = time.monotonic() + PART_SECONDS
        while any(line.unsent for line in self.lines.values()) and time.monotonic() < last:
            self.loop.wait(0.1)

    # ---- to the exchange

    def burst(self) -> None:
        """Gives the exchange the messages that have come, and the frames of a period."""
        self.use.burst()
        text: list[bytes] = []
        left = self.use.frames
        self.restart(text, [number for number, line in self.lines.items() if line.is_new and line.endpoint is not None])
        messages = len(text) + self.link_frames(text)
        for line in self.lines.values():
            line.begin_period()
        while True:
            due = [(number, digits) for number, line in self.lines.items() for digits in line.messages_due()]
            text += [b"M %d %s\n" % message for message in due]
            self.asked += [Asked(*message) for message in due]
            messages += len(due)
            if not left:
                break
            count = min([left, *filter(None, (line.frames_before_mark() for line in self.lines.values()))])
            columns = [[b""] * count, *(line.column(count) for line in self.lines.values())]
            text.append(b"F" + b"\nF".join(map(b"".join, zip(*columns))) + b"\n")
            left -= count
        self.give(b"".join(text), self.use.frames + messages)
        for port in self.ports():
            port.watch()

    def restart(self, text: list[bytes], lines: Iterable[int]) -> None:
        """Appends the restarts of lines whose users have not been sent RESTART since the start."""
        for line in lines:
            text.append(b"restart %d\n" % line)
            self.asked.append(Asked(line, Cause.START))
            if self.follower is not None:
                self.follower.expect(Restart(line))

    def link_frames(self, text: list[bytes]) -> int:
        """Appends the frames of data links that have come, each below a comment. Returns how many they are."""
        before = len(self.asked)
        for number, channel in self.channels.items():
            for octets in channel.frames_due():
                digits = octets.hex().upper().encode()
                line = b"L %d %s" % (number, digits)
                text.append(comment(number, octets, is_sent=False) + b"\n" + line.rstrip() + b"\n")
                self.asked.append(Asked(number, digits))
        return len(self.asked) - before

    def command(self, event: Event, line: str) -> None:
        """Gives the exchange a command of an operator."""
        if self.follower is not None:
            self.follower.expect(event)
        if isinstance(event, Restart):
            self.asked.append(Asked(event.line, Cause.OPERATOR))
        self.give(f"{line}\n".encode(), 1)

    def give(self, text: bytes, events: int) -> None:
        self.log.write(text)
        self.log.settle()
        self.given += events
        self.exchange.send(text)

    # ---- from the exchange

    def listeners(self) -> list[Line]:
        """The lines whose endpoints get octets."""
        return [line for line in self.lines.values() if line.is_listening and line.is_served]

    def take(self, text: bytes) -> None:
        """Takes whole lines of the report."""
        listeners = self.listeners()
        for reply in text.split(b"\n"):
            words = reply.replace(b":", b" ").split(b" ")
            word = words[1:2]
            self.replied += 1
            if self.follower is not None:
                self.follower.take(words, self.asked[0].signal if self.asked and word in ([b"message"], [b"link"]) else None)
            if word == [b"frame"]:
                self.frame += 1
                first = self.take_sends(words)
                octets = dict(zip(words[first::2], words[first + 1 :: 2]))
                for line in listeners:
                    line.hear(octets.get(line.key))
            elif word == [b"message"]:
                if self.take_message(words[2:]) is Cause.OPERATOR and self.operators is not None:
                    self.operators.take(reply)
                listeners = self.listeners()  # a line that is restarted gets the frames that follow
            elif word == [b"link"]:
                told = words[2:3] and words[2] in (b"took", b"up", b"down")
                if told and words[2] != b"took":
                    self.set_link(self.asked[0].line, words[2])
                self.take_message(words[3:] if told else words[2:])
            elif self.operators is not None and word and word[0] in REPLIES:
                self.operators.take(reply)
            elif words[0] == b"refused":
                self.refusal = reply.decode("latin-1")
        for line in self.lines.values():
            line.send()
        if self.replied == self.given:
            self.use.replied()

    def take_sends(self, words: Sequence[bytes]) -> int:
        """Takes what is sent at the start of a frame of the exchange. Returns where the octets begin."""
        at = 3
        while words[at : at + 1] and words[at] in (b"send", b"up", b"down"):
            if words[at] == b"send":
                self.deliver(words[at + 1], words[at + 2])
            else:
                self.set_link(int(words[at + 1]), words[at])
            at += 3 if words[at] == b"send" else 2
        return at

    def set_link(self, number: int, word: bytes) -> None:
        """The data link of a line is up or down."""
        if number in self.channels:
            self.channels[number].state.set(word == b"up")

    def take_message(self, sent: Sequence[bytes]) -> bytes | Cause:
        """Takes the lines and the digits of what is sent in reply. Returns what was asked."""
        number, what = self.asked.popleft()
        if not isinstance(what, Cause):
            self.capture.write(self.packets.packet(self.frame, number, False, bytes.fromhex(what.decode())))
        elif what is Cause.START and number in self.lines and self.lines[number].is_new:
            self.lines[number].greet()
        for at in range(3 if sent[:1] == [b"moved"] else 0, len(sent), 2):
            self.deliver(sent[at], sent[at + 1])
        if what is SHUT_DOWN:
            self.lines[number].open()
        return what

    def deliver(self, key: bytes, digits: bytes) -> None:
        octets = bytes.fromhex(digits.decode())
        number = int(key)
        self.capture.write(self.packets.packet(self.frame, number, True, octets))
        line = self.lines.get(number)
        if number in self.options.linked:
            self.deliver_frame(number, octets)
        elif line is not None and line.is_served:
            line.due.append(b"M " + digits)
        elif octets[4] == SETUP:
            say(f"{NAME}: line {number}: no endpoint gets {message_text(octets)}")

    def deliver_frame(self, number: int, octets: bytes) -> None:
        """Sends a frame of a data link, which is lost if nothing is attached."""
        self.log.write(comment(number, octets, is_sent=True) + b"\n")
        if number in self.channels:
            self.channels[number].send(octets)


def comment(number: int, octets: bytes, is_sent: bool) -> bytes:
    """A comment of the log on a frame of a data link."""
    return f"# line {number} {'gets' if is_sent else 'sends'} {frame_text(octets, not is_sent)}".encode("ascii", "backslashreplace")


def gateway_of(options: Options, ends: contextlib.ExitStack) -> GatewayProcess | None:
    """The gateway of the lines that have no address, if there is to be one."""
    if not options.sip:
        return None
    free = set(range(options.trace.sizes.external)) - {*options.addresses, *options.linked}
    if not free:
        raise Refused("--sip has no line: each line has an address or a data link")
    gateway = GatewayProcess(options.sip, sorted(free), ends)
    options.addresses.update(gateway.addresses)
    return gateway


def main(*words: str) -> str:
    options = Options(words)
    with contextlib.ExitStack() as ends:
        gateway = gateway_of(options, ends)
        live = Live(options, ends)
        live.start()
        if gateway is not None:
            gateway.start()
        live.run()
        live.end()
    return ""
