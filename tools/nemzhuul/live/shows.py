"""What a console shows of a running exchange, line by line."""

from __future__ import annotations

from collections.abc import Iterator, Sequence
from typing import Callable

from nemzhuul.live.snapshots import STATES, Snapshot
from nemzhuul.pictures.ladders import title
from nemzhuul.traces.events import CHANNELS, PLACES, Slot

LETTERS = dict(zip(STATES, ".dpaAcns"))  # of the states of channels


def calls(state: Snapshot) -> Iterator[str]:
    """A line for each call that has not ended, as tools/calls has it, and one for all calls."""
    for call in state.calls:
        yield f"call {call.number}: {title(call, state)}"
    totals = state.totals
    refused = sum(totals.refused.values())
    yield f"{len(state.calls)} in progress; {totals.offered} offered, {totals.answered} answered, {refused} refused"


def lines(state: Snapshot) -> Iterator[str]:
    """A line for each line, with a letter for each channel."""
    for line in state.lines:
        letters = "".join(LETTERS[state.state(Slot(line.number, channel))] for channel in CHANNELS)
        where = "no socket"
        if line.place is not None:
            where = f"{'endpoint' if line.is_attached else 'no endpoint'} at {line.place}"
            where += f"; {line.messages} messages and {line.frames} frames with octets were taken"
        yield f"line {line.number:<2}  {letters}  {where}"
    yield ", ".join(f"{letter} {name}" for name, letter in LETTERS.items())


def links(state: Snapshot) -> Iterator[str]:
    """A line for each data link of the exchange, and for each other line whose data link is down."""
    for link in state.links:
        text = f"line {link.number}: its data link is {'up' if link.is_up else 'down'}"
        if link.place is not None:
            text += f"; {'endpoint' if link.is_attached else 'no endpoint'} at {link.place}"
            text += f"; {link.frames} frames were taken, {link.cut} cut; {link.lost} were lost to it"
        yield text
    if not state.links:
        yield "the exchange has no data link"


def fabric(state: Snapshot) -> Iterator[str]:
    """The live paths, those that moved, and the line with the most."""
    paths = state.paths()
    lines = state.sizes.external + state.sizes.bridges
    yield f"{sum(paths.values())} live paths of {lines * PLACES}"
    yield f"{state.totals.moved} paths were moved for {state.totals.connected} connections and seats"
    if paths:
        line, most = max(paths.items(), key=lambda item: (item[1], -item[0]))
        bridge = line - state.sizes.external
        name = f"line {line}" if bridge < 0 else f"line {line} (bridge {bridge})"
        yield f"the fullest is {name}: {most} of {PLACES} paths each way"


def late(state: Snapshot) -> Iterator[str]:
    """The periods, and each line whose octets came late."""
    pace = state.pace
    yield f"{pace.periods} periods of {pace.period * 1000:.3g} ms; the latest began {pace.latest * 1000:.1f} ms late"
    found = [line for line in state.lines if line.late]
    for line in found:
        yield f"line {line.number}: the octets of {line.late} frames came late, of {line.frames + line.late}"
    if not found:
        yield "no octets came late"


def rooms(state: Snapshot) -> Iterator[str]:
    """A line for each room with its members."""
    for room, members in sorted(state.rooms().items()):
        yield f"room {room}: {' '.join(map(str, members))}"
    yield f"{len(state.ports)} of {state.sizes.bridges * PLACES} ports are taken"


def nails(state: Snapshot) -> Iterator[str]:
    """A line for each nail, as the command is."""
    found = state.nails()
    for first, second in found:
        yield f"nail {first} {second}"
    if not found:
        yield "no slots are nailed"


SHOWS: dict[str, Callable[[Snapshot], Iterator[str]]] = {
    "calls": calls, "lines": lines, "links": links, "fabric": fabric, "late": late, "rooms": rooms, "nails": nails,
}  # fmt: skip


def shown(what: str, state: Snapshot) -> Sequence[str]:
    """The lines of an answer."""
    text = list(SHOWS[what](state))
    return [*text, f"calls are followed no more: {state.refusal}"] if state.refusal else text
