"""The paths of a run through the fabric, and the internal slots that they take.

A report says how many paths were moved for a connection, and not which. They follow from its rule: a path takes the
lowest internal slot that is free on its incoming and on its outgoing line. Where there is none, the paths of the
shorter of two chains of Paull's matrix exchange two slots. `Fabric.take` compares the numbers with the report's.
"""

from __future__ import annotations

from dataclasses import dataclass
from typing import NamedTuple

from nemzhuul.command_line import Refused
from nemzhuul.traces.events import PLACES, Moved, Slot, Trace, place_of_channel
from nemzhuul.traces.following import Run

SLOTS, STRICT_SLOTS = 30, 59  # internal slots of a line


class End(NamedTuple):
    """An end of a path; bridge lines come after the external ones."""

    line: int
    place: int


@dataclass(frozen=True)
class Path:
    """A one-way path between two ends."""

    source: End
    target: End
    room: int | None = None  # if one of the ends is a port, the room of its member


class Move(NamedTuple):
    """A path of a chain, and its internal slot."""

    path: Path
    number: int


class Laid(NamedTuple):
    """A path that was laid, with its internal slot, and the chain that moved for it between two slots, if one did."""

    path: Path
    number: int
    chain: list[Move]
    slots: tuple[int, int] | None = None  # free on its incoming line, and on its outgoing line


Paths = dict[int, Path]  # of a line, by internal slot


class Fabric:
    """The live paths, by their internal slot on their incoming line, and on their outgoing line."""

    def __init__(self, trace: Trace, slots: int = SLOTS) -> None:
        self.external, bridges, _ = trace.sizes
        self.slots = slots
        self.incoming: list[Paths] = [{} for _ in range(self.external + bridges)]
        self.outgoing: list[Paths] = [{} for _ in self.incoming]
        self.free_ports = {End(self.external + at // PLACES, at % PLACES) for at in range(bridges * PLACES)}
        self.far: dict[Slot, End] = {}  # by slot, the other end of its two paths
        self.laid: list[Laid] = []  # in the last event

    def take(self, run: Run) -> Moved | None:
        """Follows the last event of a run. Returns how many paths were moved there and back; None without a connection."""
        moved = None
        self.laid = []
        for slot in run.left:
            self._leave(slot)
        for slot, use in run.joined:
            near = end_of(slot)
            far = min(self.free_ports) if use.partner is None else end_of(use.partner)
            self.free_ports.discard(far)
            self.far[slot] = far
            there, back = self._connect(Path(near, far, use.room)), self._connect(Path(far, near, use.room))
            self.laid += [there, back]
            moved = Moved(len(there.chain), len(back.chain))
        return moved

    def _leave(self, slot: Slot) -> None:
        """A slot's two paths are undone; its partner has the same ones, and leaves with it."""
        if slot not in self.far:
            return
        near, far = end_of(slot), self.far.pop(slot)
        for source, target in ((near, far), (far, near)):
            lines = self.incoming[source.line], self.outgoing[target.line]
            (number,) = [at for at, path in lines[0].items() if path.source == source]
            for line in lines:
                del line[number]
        if far.line >= self.external:
            self.free_ports.add(far)

    def _connect(self, path: Path) -> Laid:
        """Lays a path."""
        row, column = self.incoming[path.source.line], self.outgoing[path.target.line]
        number = next((at for at in range(self.slots) if at not in row and at not in column), None)
        moves: list[Move] = []
        slots = None
        if number is None:
            slots = a, b = lowest_free(row), lowest_free(column)
            moves, other = self._chain(column, a, b), self._chain(row, b, a)
            number = a
            if len(other) < len(moves):
                moves, number = other, b
            self._exchange(moves, a, b)
        row[number] = column[number] = path
        return Laid(path, number, moves, slots)

    def _chain(self, line: Paths, a: int, b: int) -> list[Move]:
        """The paths of the chain that begins with the one in slot a of a line: in a and b by turns."""
        chain: list[Move] = []
        while a in line:
            path = line[a]
            chain.append(Move(path, a))
            ends = self.incoming[path.source.line], self.outgoing[path.target.line]
            line = ends[1] if ends[0] is line else ends[0]
            a, b = b, a
        return chain

    def _exchange(self, moves: list[Move], a: int, b: int) -> None:
        for path, number in moves:
            del self.incoming[path.source.line][number], self.outgoing[path.target.line][number]
        for path, number in moves:
            self.incoming[path.source.line][a + b - number] = path
            self.outgoing[path.target.line][a + b - number] = path


def end_of(slot: Slot) -> End:
    place = place_of_channel(slot.channel)
    if place is None:
        raise Refused(f"{slot} is no bearer channel, and so has no path")
    return End(slot.line, place)


def lowest_free(line: Paths) -> int:
    return next(at for at in range(len(line) + 1) if at not in line)
