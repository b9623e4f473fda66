"""Paull's matrix of a fabric: which internal slots carry the paths between an incoming and an outgoing line.

A path takes an internal slot that is free on its incoming and on its outgoing line. If no slot is free on both, the paths
of a chain exchange two slots: one that is free on the incoming line, and one that is free on the outgoing line.
"""

from __future__ import annotations

import textwrap
from collections.abc import Iterable, Iterator
from dataclasses import dataclass, field
from html import escape
from typing import NamedTuple

from nemzhuul.pictures.fabric import Laid, Paths

CHAIN, NEW = "*", "+"
TEXT_WIDTH = 100
MAX_LINES = 8  # that have a row and a column in a page


class Entry(NamedTuple):
    """A place of the matrix: an incoming and an outgoing line."""

    row: int
    column: int


Cells = dict[Entry, set[int]]  # the internal slots


@dataclass
class Matrix:
    """A matrix, and the mark of each internal slot that has one."""

    title: str
    cells: Cells
    marks: dict[tuple[Entry, int], str] = field(default_factory=dict)

    def mark(self, laid: Iterable[Laid], is_after: bool) -> None:
        for one in laid:
            for moved, before in one.chain:
                at = sum(one.slots or ()) - before if is_after else before
                self.marks[Entry(moved.source.line, moved.target.line), at] = CHAIN
            if is_after:
                self.marks[entry_of(one), one.number] = NEW

    def text(self, entry: Entry) -> str:
        """The slots of an entry: those with marks first, and the others as ranges."""
        slots = sorted(self.cells.get(entry, ()))
        marked = [f"{mark}{at}" for at in slots if (mark := self.marks.get((entry, at)))]
        return " ".join([*marked, *ranges([at for at in slots if (entry, at) not in self.marks])]) or "-"

    def mark_of(self, entry: Entry) -> str:
        """The mark of an entry: the mark of the chain, or else of a new path."""
        found = {mark for (there, _), mark in self.marks.items() if there == entry}
        return CHAIN if CHAIN in found else "".join(found)


def entry_of(laid: Laid) -> Entry:
    return Entry(laid.path.source.line, laid.path.target.line)


def cells(incoming: Iterable[Paths]) -> Cells:
    found: Cells = {}
    for row, paths in enumerate(incoming):
        for number, path in paths.items():
            found.setdefault(Entry(row, path.target.line), set()).add(number)
    return found


def ranges(numbers: list[int]) -> Iterator[str]:
    """Rising numbers, of which those that follow each other are joined."""
    first = 0
    for at, number in enumerate(numbers):
        if at + 1 == len(numbers) or numbers[at + 1] != number + 1:
            yield f"{numbers[first]}" if first == at else f"{numbers[first]}-{number}"
            first = at + 1


def takes(laid: Laid) -> str:
    source, target = entry_of(laid)
    return f"the path from line {source} to line {target} takes slot {laid.number}"


def lacks(laid: Laid) -> str:
    """Why a chain moves for a path."""
    source, target = entry_of(laid)
    a, b = laid.slots or (0, 0)
    return f"No slot is free on both: {a} is free on line {source}, {b} on line {target}"


def sentences(laid: Laid) -> Iterator[str]:
    """How a path got its slot."""
    if laid.slots is None:
        yield f"{takes(laid)}, the lowest that is free on both"
        return
    yield f"{takes(laid)}. {lacks(laid)}"
    moves = [f"{moved.source.line} to {moved.target.line} from {at} to {sum(laid.slots) - at}" for moved, at in laid.chain]
    yield from textwrap.wrap(f"a chain of {len(moves)} paths moves: {', '.join(moves)}", TEXT_WIDTH)


# ---- step by step, as HTML


class Rearrangement(NamedTuple):
    """An event that moved live paths: its number, what happened, and the paths that it laid, each with the matrix before."""

    event: int
    text: str
    laid: list[tuple[Laid, Cells]]


def rearrangement(event: int, text: str, incoming: Iterable[Paths], laid: Iterable[Laid]) -> Rearrangement:
    """The steps of an event, worked back from the paths after it."""
    now = cells(incoming)
    steps: list[tuple[Laid, Cells]] = []
    for one in reversed(list(laid)):
        now = {entry: set(numbers) for entry, numbers in now.items()}
        now[entry_of(one)].discard(one.number)
        for moved, before in one.chain:
            numbers = now[Entry(moved.source.line, moved.target.line)]
            numbers.discard(sum(one.slots or ()) - before)
        for moved, before in one.chain:
            now[Entry(moved.source.line, moved.target.line)].add(before)
        steps.append((one, now))
    return Rearrangement(event, text, steps[::-1])


def rearrangement_part(one: Rearrangement) -> str:
    """An event: for each path that moved others, the matrix between the lines of the chain, and the steps."""
    parts = [figure(laid, before) if laid.chain else f"<p>{sentence(takes(laid))}</p>" for laid, before in one.laid]
    return f'<article class="rearrangement"><h3>Event {one.event}</h3><p>{escape(sentence(one.text))}</p>{"".join(parts)}</article>'


def sentence(text: str) -> str:
    return f"{text[:1].upper()}{text[1:]}."


def figure(laid: Laid, before: Cells) -> str:
    """The matrix before a chain moves. Each slot that changes has the number of its step, and the slot after it."""
    new = entry_of(laid)
    total = sum(laid.slots or ())
    moves = {(Entry(moved.source.line, moved.target.line), at): step for step, (moved, at) in enumerate(laid.chain, 1)}
    rows = shown({entry.row for entry in before}, {entry.row for entry, _ in moves} | {new.row})
    columns = shown({entry.column for entry in before}, {entry.column for entry, _ in moves} | {new.column})
    heads = "".join(f'<th scope="col">to {name}</th>' for name, _ in columns)
    body = ""
    for name, sources in rows:
        body += f'<tr><th scope="row">from {name}</th>'
        for _, targets in columns:
            entries = [Entry(source, target) for source in sources for target in targets]
            slots = sorted((at, entry) for entry in entries for at in before.get(entry, ()))
            parts = [moved_slot(at, total - at, moves[entry, at]) for at, entry in slots if (entry, at) in moves]
            parts += ranges(sorted({at for at, entry in slots if (entry, at) not in moves}))
            parts += [f'<b class="new" data-step="{len(moves) + 1}">{laid.number}</b>'] if new in entries else []
            body += f'<td>{" ".join(parts)}</td>'
        body += "</tr>"
    texts = [lacks(laid)]
    texts += [f"the path from line {moved.source.line} to line {moved.target.line} moves from slot {at} to slot {total - at}"
              for moved, at in laid.chain]  # fmt: skip
    steps = "".join(f"<li>{sentence(text)}</li>" for text in [*texts, takes(laid)])
    caption = f"Paull's matrix for the path from line {new.row} to line {new.column}"
    buttons = '<span class="control"><button type="button" class="back">◀</button><button type="button" class="on">▶</button></span>'
    return (f'<figure class="matrix"><table><caption>{caption}</caption><tr><td></td>{heads}</tr>{body}</table>'
            f"{buttons}<ol start=\"0\">{steps}</ol></figure>")  # fmt: skip


def shown(lines: set[int], chain: set[int]) -> list[tuple[str, list[int]]]:
    """The rows or columns: one for each line, or if they are many for each line of the chain, and one for the others."""
    if len(lines | chain) <= MAX_LINES:
        return [(str(line), [line]) for line in sorted(lines | chain)]
    return [*((str(line), [line]) for line in sorted(chain)), ("others", sorted(lines - chain))]


def moved_slot(before: int, after: int, step: int) -> str:
    """A slot that a path of the chain leaves, and the one that it moves to."""
    return f'<b class="chain" data-step="{step}"><span class="was">{before}</span> <span class="is">{after}</span></b>'
