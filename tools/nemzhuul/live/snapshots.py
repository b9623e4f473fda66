"""The state of a running exchange at a moment, for its operators. Nothing in it changes afterwards."""

from __future__ import annotations

from collections import Counter
from collections.abc import Iterable, Mapping, Sequence
from dataclasses import dataclass
from types import MappingProxyType

from nemzhuul.live.counts import Counts, Totals
from nemzhuul.live.following import Follower
from nemzhuul.live.lines import DChannel, Line
from nemzhuul.live.log import Writer
from nemzhuul.live.periods import Use
from nemzhuul.traces import following
from nemzhuul.traces.events import PLACES, Sizes, Slot, Target
from nemzhuul.traces.following import Call, room_of

IDLE, CLEARING = "idle", "clearing"
NAILED, SEATED = "nailed", "seated"
PHASES = ("dialling", "proceeding", "alerting", "active", CLEARING)  # of a call, and of its channels
STATES = (IDLE, *PHASES, NAILED, SEATED)  # of a channel


def phase(call: Call) -> str:
    """The phase of a call that has not ended."""
    if call.cleared is not None:
        return CLEARING
    if call.answered is not None:
        return "active"
    if call.alerted is not None:
        return "alerting"
    return "dialling" if call.caller is not None and call.caller.dials else "proceeding"


@dataclass(frozen=True)
class LineState:
    """A line, and its socket if it has one."""

    number: int
    place: str | None = None
    is_attached: bool = False
    messages: int = 0  # that were taken
    frames: int = 0  # with octets
    late: int = 0  # frames


@dataclass(frozen=True)
class LinkState:
    """The data link of a line, and its socket if it has one."""

    number: int
    is_up: bool
    place: str | None = None
    is_attached: bool = False
    frames: int = 0  # that were taken
    cut: int = 0
    lost: int = 0  # frames of the exchange


@dataclass(frozen=True)
class Pace:
    """The periods so far, and the processor time in them."""

    periods: int
    period: float  # seconds
    latest: float  # seconds that a period began late, at most
    tool: float  # seconds
    exchange: float  # seconds


@dataclass(frozen=True)
class Snapshot:
    """The state of an exchange between two periods."""

    frame: int  # the next one
    time: str  # by ISO 8601
    sizes: Sizes
    numbers: Mapping[str, Target]
    calls: Sequence[Call]  # that have not ended, in the order of their SETUPs
    ended: Sequence[Call]  # some, the last one first
    phases: Mapping[int, str]  # of the calls that have not ended, by number
    uses: Mapping[Slot, following.Use]
    ports: Mapping[Slot, int]  # of the members of rooms
    totals: Totals
    lines: Sequence[LineState]
    links: Sequence[LinkState]
    pace: Pace
    given_up: Mapping[str, bool]  # by file, whether it is given up
    refusal: str = ""  # why calls are followed no more

    def room(self, call: Call) -> int | None:
        """The room that a call reached."""
        return room_of(call, self.numbers)

    def state(self, slot: Slot) -> str:
        """The state of a channel."""
        use = self.uses.get(slot)
        if use is None:
            return IDLE
        if use.call is not None:
            return self.phases.get(use.call, CLEARING)
        return SEATED if use.partner is None else NAILED

    def rooms(self) -> dict[int, list[Slot]]:
        """The members of each room that has some."""
        members: dict[int, list[Slot]] = {}
        for slot, use in sorted(self.uses.items()):
            if use.room is not None:
                members.setdefault(use.room, []).append(slot)
        return members

    def nails(self) -> list[tuple[Slot, Slot]]:
        nailed = ((slot, use.partner) for slot, use in self.uses.items() if use.call is None and use.partner is not None)
        return sorted((slot, partner) for slot, partner in nailed if slot < partner)

    def paths(self) -> Counter[int]:
        """By line, how many live paths begin there, and as many end there. Bridge lines come after the others."""
        lines = Counter(slot.line for slot, use in self.uses.items() if (use.partner, use.room) != (None, None))
        lines.update(self.sizes.external + port // PLACES for port in self.ports.values())
        return lines


class Observer:
    """Takes the state of a running exchange. It reads what the exchange has, and changes nothing."""

    def __init__(
        self,
        follower: Follower,
        lines: Mapping[int, Line],
        channels: Mapping[int, DChannel],
        use: Use,
        writers: Mapping[str, Writer],
    ) -> None:
        self.follower = follower
        self.lines, self.channels, self.use, self.writers = lines, channels, use, writers
        self.counts = Counts(follower.trace.sizes.bridges)
        follower.listeners.append(self.counts)

    def snapshot(self) -> Snapshot:
        follower, run = self.follower, self.follower.run
        clock = follower.clocks[-1] if follower.clocks else None
        return Snapshot(
            frame=follower.frames,
            time=clock.text(follower.frames) if clock else "",
            sizes=follower.trace.sizes,
            numbers=follower.trace.numbers,
            calls=tuple(map(copied, run.calls)),
            ended=tuple(self.counts.last),
            phases={call.number: phase(call) for call in run.calls},
            uses=MappingProxyType(dict(run.uses)),
            ports=dict(self.counts.ports),
            totals=self.counts.totals(),
            lines=tuple(map(self._line, range(follower.trace.sizes.external))),
            links=tuple(self._links()),
            pace=Pace(self.use.count, self.use.period, self.use.latest, *self.use.processor_seconds()),
            given_up={name: writer.is_given_up for name, writer in self.writers.items() if writer.output.path is not None},
            refusal=follower.refusal,
        )

    def _line(self, number: int) -> LineState:
        line = self.lines.get(number)
        if line is None:
            return LineState(number)
        return LineState(number, line.listener.place, line.endpoint is not None, line.messages, line.frames, line.late)

    def _links(self) -> Iterable[LinkState]:
        """The data links: those in the exchange, and others that are down."""
        for number, is_up in self.follower.is_up.items():
            channel = self.channels.get(number)
            if channel is not None:
                is_attached = channel.endpoint is not None
                yield LinkState(number, is_up, channel.listener.place, is_attached, channel.frames, channel.cut, channel.lost)
            elif number in self.follower.trace.linked or not is_up:
                yield LinkState(number, is_up)


def copied(call: Call) -> Call:
    """A call as it is now."""
    return Call(
        call.number, call.line, call.digits, call.rows[:], call.left_out, call.caller, call.called,
        call.alerted, call.answered, call.cleared, call.released, call.refused,
    )  # fmt: skip
