"""Simulated users, who write random traces of calls: they send events to `tst follow` and act on its replies.

Timers are short, so that they expire. Numbers lead to lists of lines, and commands fill lines, so hunts pass full lines
and find none. On crowded lines new paths move others. In some traces data links go down and come up, and an
operator restarts lines. Then users report their call states, the right one or another, and obey RESTART, which not all
acknowledge. A link often fails or comes up twice.
"""

from __future__ import annotations

import random
import subprocess
from collections import Counter
from collections.abc import Callable, Iterator, Sequence
from pathlib import Path
from typing import NamedTuple

from nemzhuul.command_line import Refused
from nemzhuul.repository import restarts
from nemzhuul.repository.restarts import Restarts
from nemzhuul.signalling.q931 import (
    ALERTING,
    CALL_PROCEEDING,
    CONNECT,
    CONNECT_ACKNOWLEDGE,
    DISCONNECT,
    FACILITY,
    INFORMATION,
    PROGRESS,
    RELEASE,
    RELEASE_COMPLETE,
    RESTART,
    RESTART_ACKNOWLEDGE,
    SETUP,
    SETUP_ACKNOWLEDGE,
    STATUS,
    STATUS_ENQUIRY,
    USUAL_TIMERS,
)
from nemzhuul.traces.events import CHANNELS

BEARERS = ("04038090A3", "04039090A3", "04028890")
OTHER_BEARERS = ("", "", "04028990", "040180")  # none, one that is not carried, and one that is too short
KINDS = (
    *(ALERTING, CALL_PROCEEDING, CONNECT, CONNECT_ACKNOWLEDGE, DISCONNECT, RELEASE, RELEASE_COMPLETE),
    *(STATUS_ENQUIRY, INFORMATION, STATUS, PROGRESS, FACILITY),
)
RUNG, NOT_RUNG = "T301 expired under ringing tone", "T301 expired without a tone"
HUNTED, NOT_FOUND = "calls offered after full lines", "hunts that found no line"
LINK_LOST, LINK_DOWN = "T309 expired", "calls refused while data links were down"
RESTARTED, RELEASED = "calls cleared as the exchange restarted a line", "RELEASE again as a data link was up"
CASES = (RUNG, NOT_RUNG, HUNTED, NOT_FOUND, LINK_LOST, LINK_DOWN, RESTARTED, RELEASED, *restarts.CASES)
# The elements of causes 19, 27, 34 and 41.
NO_ANSWER, OUT_OF_ORDER, FULL_LINE, FAILURE = "08028293", "0802829B", "080282A2", "080282A9"
# The likely replies of a user to each kind of message; None is no reply.
REPLIES: dict[int | None, tuple[int | None, ...]] = {
    SETUP: (ALERTING, ALERTING, ALERTING, CALL_PROCEEDING, CONNECT, DISCONNECT, RELEASE_COMPLETE, None),
    SETUP_ACKNOWLEDGE: (INFORMATION, INFORMATION, INFORMATION, None),
    CONNECT: (CONNECT_ACKNOWLEDGE, DISCONNECT, RELEASE, None),
    DISCONNECT: (RELEASE, RELEASE, RELEASE_COMPLETE, None),
    RELEASE: (RELEASE_COMPLETE, RELEASE_COMPLETE, None),
    ALERTING: (CONNECT, None, None, None),
    CALL_PROCEEDING: (ALERTING, ALERTING, CONNECT, None),
}
CALL_STATES = ("14010A", "14010A", "14010A", "14010A", "140101", "140104", "14010C", "140100", "")  # that users report


class Leg(NamedTuple):
    """The call of a user: its line, its call reference, and the flag of the messages that the user sends."""

    line: int
    reference: int
    flag: int


class Sent(NamedTuple):
    """A message that the exchange sends: its line, and the digits of its octets."""

    line: int
    octets: str

    @property
    def kind(self) -> int:
        return int(self.octets[8:10], 16)

    @property
    def channel(self) -> str | None:
        """The digits of the channel, if the message has one."""
        _, is_there, rest = self.octets[10:].partition("1803A983")
        return rest[:2] if is_there else None


class Setting:
    """The header, numbers, tones and timers of a trace."""

    def __init__(self, draw: random.Random) -> None:
        self.external = draw.choice((1, 2, 3, 4, 4, 8))
        self.header = f"exchange 1 {self.external} {draw.randrange(3)} {1 + draw.randrange(8)}"
        self.lists = {f"4{at}": self.hunt(draw) for at in range(2)}
        plan = [f"number 1{line:02} line {line}" for line in range(self.external)] + ["number 30 room 0", "number 31 room 1"]
        plan += [f"number {digits} lines {' '.join(map(str, lines))}" for digits, lines in self.lists.items()]
        tones = {name: draw.choice((0, 0, 1, 80)) for name in ("ringback", "busy")}
        plan += [f"tone {name} {draw.randbytes(size).hex()}" for name, size in tones.items() if size]
        self.rings = tones["ringback"] > 0
        if draw.random() < 0.8:
            others = {name: (1, 2, 3) if name in ("T308", "T309") else (59, 999_999_999) for name in USUAL_TIMERS}
            lengths = [draw.choice((0, 1, 2, 3, 29, *others[name])) for name in USUAL_TIMERS]
            plan += [f"timer {name} {length}" for name, length in zip(USUAL_TIMERS, lengths) if length]
        self.lines = [self.header, *plan]

    def hunt(self, draw: random.Random) -> list[int]:
        """A list of lines, mostly by rising number or of few lines."""
        lines = draw.sample(range(self.external), draw.randint(1, self.external))
        return draw.choice((lines, sorted(lines), sorted(lines), [*range(draw.randint(1, self.external))][:2]))

    def digits(self, draw: random.Random) -> str:
        """Digits of a number, mostly of a list, and seldom of none."""
        line = draw.randrange(self.external)
        return draw.choice((*self.lists, *self.lists, *self.lists, f"1{line:02}", f"1{line:02}", "30", "31", "9", "1", ""))


class Users:
    """The users of all lines. They know what the exchange sent last on each call reference, and send the next event."""

    def __init__(self, setting: Setting, draw: random.Random) -> None:
        self.setting, self.draw = setting, draw
        self.legs: dict[Leg, int | None] = {}  # the kind of the last message
        self.channels: dict[Leg, str] = {}
        self.due: list[str] = []  # replies to STATUS ENQUIRY and RESTART that are still to be sent
        self.answers = draw.random()  # how likely a user with an alert answers
        self.releases = draw.choice((0.1, 0.1, 1))  # how likely a user replies to RELEASE
        self.pauses = draw.choice((0, 0.02, 0.05))
        self.frames = 0  # frames of a run that are left
        self.outages = draw.choice((0, 0.02, 0.05, 0.05))
        self.down: set[int] = set()  # the lines whose data links are down
        self.changed: list[int] = []  # the line whose data link changed last
        self.restarts = draw.choice((0, 0.01, 0.02))
        self.acknowledges = draw.choice((0.2, 0.6, 1))  # how likely a user acknowledges RESTART
        self.is_crowded = draw.random() < 0.15
        self.waiting = self.crowd() if self.is_crowded else self.full_lines()

    def full_lines(self) -> list[str]:
        """Commands that take nearly all channels of the first lines, of none in many traces."""
        full = min(self.draw.choice((0, 0, 1, 1, 2)), self.setting.external)
        some = [pair for line in range(full) for pair in zip([f"{line}/{c}" for c in CHANNELS[::2]], [f"{line}/{c}" for c in CHANNELS[1::2]])]
        return [f"nail {first} {second}" for first, second in some if self.draw.random() < 0.98]

    def crowd(self) -> list[str]:
        """Commands that take most channels of a few lines by nails between them, so that new paths move others."""
        slots = [f"{line}/{channel}" for line in range(self.crowded_lines()) for channel in CHANNELS]
        self.draw.shuffle(slots)
        return [f"nail {first} {second}" for first, second in zip(slots[::2], slots[1::2]) if self.draw.random() < 0.95]

    def crowded_lines(self) -> int:
        return min(self.setting.external, 3)

    def crowded_command(self) -> str:
        """A command on one of the lines that are crowded."""
        draw = self.draw
        first, second = (f"{draw.randrange(self.crowded_lines())}/{draw.choice(CHANNELS)}" for _ in range(2))
        return f"nail {first} {second}" if first != second and draw.random() < 0.6 else f"free {first}"

    def event(self) -> str:
        draw = self.draw
        if self.waiting:
            return self.waiting.pop(0)
        if draw.random() < self.outages:
            return self.link()
        if draw.random() < self.restarts:
            is_down = self.down and draw.random() < 0.4
            return f"restart {draw.choice(sorted(self.down)) if is_down else draw.randrange(self.setting.external)}"
        if self.due and draw.random() < 0.3:
            return self.due.pop(0)
        if self.frames == 0 and draw.random() < self.pauses:
            self.frames = draw.randint(30, 90)
        if self.frames:
            return self.frame_of_a_run()
        if self.is_crowded and draw.random() < 0.7:
            return self.crowded_command()
        acts: Sequence[Callable[[], str | None]] = (
            self.reply,
            self.setup,
            self.any_message,
            self.command,
            lambda: self.frame(0.7),
        )
        return draw.choices(acts, (9, 5, 2, 2, 4))[0]() or self.setup()

    def frame_of_a_run(self) -> str:
        """One of the frames in which timers expire. After the last one the data link of a line with a call that is being
        released often comes up again."""
        self.frames -= 1
        lines = [leg.line for leg, kind in self.legs.items() if kind == RELEASE and leg.line not in self.down]
        if self.frames == 0 and lines and self.outages and self.draw.random() < 0.6:
            self.waiting.append(self.comes_up(self.draw.choice(lines)))
        return self.frame(0.1)

    def comes_up(self, line: int) -> str:
        self.down.discard(line)
        return f"up {line}"

    def link(self) -> str:
        """A data link goes down, or mostly up if it is down. At times frames follow in which timers expire."""
        line = self.line_that_changes()
        if (line in self.down) != (self.draw.random() < 0.2):
            return self.comes_up(line)
        self.down.add(line)
        self.frames = max(self.frames, self.draw.choice((0, 0, 0, 30, 100)))
        return f"down {line}"

    def line_that_changes(self) -> int:
        """The line whose data link changes: at times one that is down or has an answered call, or the last one again."""
        talking = [leg.line for leg, kind in self.legs.items() if kind in (CONNECT, CONNECT_ACKNOWLEDGE)]
        some: Sequence[int] = self.draw.choice((sorted(self.down), talking, talking, self.changed, ()))
        self.changed = [self.draw.choice(some or range(self.setting.external))]
        return self.changed[0]

    def slot(self) -> str:
        return f"{self.draw.randrange(self.setting.external)}/{self.draw.choice(CHANNELS)}"

    def frame(self, likely: float) -> str:
        lines = [line for line in range(self.setting.external) if self.draw.random() < likely]
        return "F" + "".join(f" {line}:{self.draw.randbytes(30).hex()}" for line in lines)

    def command(self) -> str:
        first, second = self.slot(), self.slot()
        if first == second:
            return f"free {first}"
        return self.draw.choice((f"nail {first} {second}", f"seat {first} {self.draw.randrange(3)}", f"free {first}", f"free {first}"))

    def number(self, digits: str) -> str:
        return f"70{1 + len(digits):02X}80{digits.encode().hex()}" if digits else ""

    def setup(self) -> str:
        draw = self.draw
        leg = Leg(draw.randrange(self.setting.external), draw.randint(1, 40), 0)
        self.legs.setdefault(leg, None)
        channel = 0x80 + draw.choice(CHANNELS)
        channels = (f"1803A983{channel:02X}", f"1803A983{channel:02X}", f"1803A183{channel:02X}", "1801A3", "", "1803A98390")
        elements = draw.choice(("", "A1")) + draw.choice((*BEARERS, *BEARERS, *BEARERS, draw.choice(OTHER_BEARERS))) + draw.choice(channels)
        return self.message(leg, SETUP, elements + self.number(self.setting.digits(draw)))

    def reply(self) -> str | None:
        """What a user sends by the last message of its call."""
        if not self.legs:
            return None
        leg = self.draw.choice([*self.legs])
        kind = self.draw.choice(REPLIES.get(self.legs[leg], (None,)))
        likely = self.answers if kind == CONNECT else self.releases if self.legs[leg] == RELEASE else 1
        if kind is None or self.draw.random() > likely:
            return None
        if kind in (ALERTING, CALL_PROCEEDING):
            self.legs[leg] = kind
        elif kind == RELEASE_COMPLETE:
            del self.legs[leg]
        cause = self.draw.choice(("", "08028090", "08028091")) if kind in (DISCONNECT, RELEASE, RELEASE_COMPLETE) else ""
        return self.message(leg, kind, cause or (self.digits() if kind == INFORMATION else ""))

    def digits(self) -> str:
        """Further digits, at times the last ones, and at times of a form that is refused."""
        last, number = self.draw.choice(("", "", "", "A1")), self.number(self.setting.digits(self.draw))
        return last + self.draw.choice((number, number, number, number, "70028023", "7000"))

    def any_message(self) -> str:
        """A message of any kind, on a call or none, or octets of any kind."""
        draw, line = self.draw, self.draw.randrange(self.setting.external)
        if draw.random() < 0.3:
            return f"M {line} {draw.choice(('', '0802', '08020001'))}{draw.randbytes(draw.randrange(12)).hex()}"
        if draw.random() < 0.1:
            return f"M {line} 0802000046" + draw.choice(("79018" + draw.choice("0267"), f"1803A983{0x80 + draw.choice(CHANNELS):02X}790180"))
        leg = draw.choice([*self.legs, Leg(line, draw.randrange(45), draw.randrange(2))])
        return self.message(leg, draw.choice(KINDS), draw.choice(("", "", "08028090", "14010A", "140100", self.number("0"))))

    def message(self, leg: Leg, kind: int, elements: str) -> str:
        return f"M {leg.line} 0802{leg.flag << 15 | leg.reference:04X}{kind:02X}{elements}"

    def learn(self, messages: Sequence[Sent]) -> None:
        """Takes the messages that the exchange sent."""
        for sent in messages:
            word = int(sent.octets[4:8], 16)
            leg = Leg(sent.line, word & 0x7FFF, 1 - (word >> 15))
            if sent.kind == RESTART:
                self.obey(sent)
            elif sent.kind == STATUS_ENQUIRY:
                self.report(leg)
            elif sent.kind == RELEASE_COMPLETE:
                self.legs.pop(leg, None)
            elif sent.kind != STATUS and leg.reference:
                self.legs[leg] = sent.kind
                if sent.channel:
                    self.channels[leg] = sent.channel

    def obey(self, restart: Sent) -> None:
        """Drops the calls of the channels that are restarted, and mostly acknowledges it."""
        for leg in [leg for leg in self.legs if leg.line == restart.line and restart.channel in (None, self.channels.get(leg))]:
            del self.legs[leg]
        if self.draw.random() < self.acknowledges:
            self.due.append(f"M {restart.line} 08028000{RESTART_ACKNOWLEDGE:02X}{restart.octets[10:]}")

    def report(self, leg: Leg) -> None:
        """Mostly has a user reply to STATUS ENQUIRY."""
        if self.draw.random() < 0.8:
            self.due.append(self.message(leg, STATUS, "0802809E" + self.draw.choice(CALL_STATES)))


def sent_in(reply: str) -> Iterator[Sent]:
    """The messages of a report line, each with its line."""
    _, what, *words = reply.split()
    places = range(len(words)) if what == "message" else [at for at, _ in enumerate(words) if words[at - 1] == "send"]
    for line, octets in (words[at].split(":") for at in places if ":" in words[at]):
        yield Sent(int(line), octets)


def called(octets: str) -> str:
    """The digits of the called party number of a SETUP, if it has one."""
    elements = bytes.fromhex(octets[10:])
    while elements:
        size = 1 if elements[0] & 0x80 else 2 + elements[1]
        if elements[0] == 0x70:
            return elements[3:size].decode()
        elements = elements[size:]
    return ""


def count_cases(cases: Counter[str], setting: Setting, event: str, messages: Sequence[Sent]) -> None:
    """Counts the cases of one event."""
    for sent in messages:
        cause, arrived = sent.octets[10:18], event.split(" ")[-1]
        if event.startswith("restart"):
            cases[RESTARTED] += cause == FAILURE
        elif event.startswith("up"):
            cases[RELEASED] += sent.kind == RELEASE
        elif event.startswith("F"):
            cases[RUNG if setting.rings else NOT_RUNG] += sent.kind == DISCONNECT and cause == NO_ANSWER
            cases[LINK_LOST] += sent.kind == DISCONNECT and cause == OUT_OF_ORDER
        elif cause == OUT_OF_ORDER:
            cases[LINK_DOWN] += event.startswith("M")
        elif sent.kind == SETUP:
            lines = setting.lists.get(called(sent.octets)[:2])
            cases[HUNTED] += lines is not None and lines.index(sent.line) > 0
        elif cause == FULL_LINE:
            # The caller's line has an idle channel: the exclusive one, or the one that it has in overlap sending.
            is_hunt = "1803A983" in arrived and called(arrived)[:2] in setting.lists
            cases[NOT_FOUND] += sent.kind == DISCONNECT or is_hunt


class Written(NamedTuple):
    """The lines of a trace, and the lines of its report."""

    trace: list[str]
    report: list[str]


def write(draw: random.Random, program: Path, events: int, cases: Counter[str]) -> Written:
    """A trace that simulated users write, and the report of the exchange that they talk to. It counts the cases."""
    setting = Setting(draw)
    users, pace = Users(setting, draw), draw.choice((1, 1 / 2, 1 / 4, 1 / 12, 1 / 60, 0))
    restarted = Restarts(cases)
    lines = [*setting.lines]
    replies: list[str] = []
    with subprocess.Popen([program, "follow"], stdin=subprocess.PIPE, stdout=subprocess.PIPE, text=True) as exchange:
        given, said = exchange.stdin, exchange.stdout
        assert given is not None and said is not None
        given.write("".join(f"{line}\n" for line in lines))
        for number in range(1, events + 1):
            event = users.event()
            lines.append(event)
            given.write(f"{event}\n")
            given.flush()
            replies.append(said.readline())
            while not replies[-1].startswith(f"{number} "):  # a meter's summary
                if not replies[-1]:
                    raise Refused(f"tst follow ended after {event}")
                replies.append(said.readline())
            sent = [*sent_in(replies[-1])]
            users.learn(sent)
            count_cases(cases, setting, event, sent)
            restarted.add(event, sent)
            if draw.random() < pace:
                lines.append(draw.choice(("sync", "sync", "sync", "change")))
                given.write(f"{lines[-1]}\n")
        given.close()
        replies += said
    return Written(lines, [reply.rstrip("\n") for reply in replies])
