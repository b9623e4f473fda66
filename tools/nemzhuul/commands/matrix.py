"""Draws Paull's matrix of the fabric before and after an event: which internal slots carry paths between two lines."""

from __future__ import annotations

from collections.abc import Iterable, Iterator

from nemzhuul.command_line import Refused, WrongWords
from nemzhuul.pictures.fabric import STRICT_SLOTS, Fabric, Laid
from nemzhuul.pictures.matrices import CHAIN, NEW, Entry, Matrix, cells, sentences
from nemzhuul.traces.events import Step, Trace
from nemzhuul.traces.following import Run
from nemzhuul.traces.reading import numeral
from nemzhuul.traces.runs import read_run

USAGE = """usage: tools/matrix [--svg] TRACE REPORT EVENT
draws Paull's matrix before and after an event, by its number in the trace, as text or as SVG. A row is an incoming line, a
column an outgoing line, and an entry the internal slots of the paths between them. The slots of the chain are marked with *,
and the new paths with +. Bridge lines come after the external ones. Lines without a path are left out"""

WIDTH, ROW, LEFT, TOP, GAP = 150, 26, 70, 64, 46  # of an SVG: a column, a row, the margins, and the space between two matrices
COLOURS = {CHAIN: "#fbd38d", NEW: "#9ae6b4"}


def main(*words: str) -> str:
    as_svg = words[:1] == ("--svg",)
    words = words[as_svg:]
    number = numeral(words[2]) if len(words) == 3 else None
    if number is None or words[0].startswith("-"):
        raise WrongWords
    trace, steps = read_run(words[0], words[1])
    before, after, laid = around(trace, steps, number)
    texts = [f"event {number}: {len(laid) or 'no'} new paths", *(line for one in laid for line in sentences(one))]
    return svg(texts, [before, after]) if as_svg else text(texts, [before, after])


def around(trace: Trace, steps: list[Step], number: int) -> tuple[Matrix, Matrix, list[Laid]]:
    """The matrix before an event and after it, and the paths that it laid."""
    fabric = fitting_fabric(trace, steps)
    run = Run(trace)
    for event, reply in steps:
        before = cells(fabric.incoming)
        run.take(event, reply)
        fabric.take(run)
        if reply.event == number:
            matrices = Matrix("before", before), Matrix("after", cells(fabric.incoming))
            for is_after, matrix in enumerate(matrices):
                matrix.mark(fabric.laid, bool(is_after))
            return (*matrices, fabric.laid)
    raise Refused(f"the trace has {len(steps)} events, and no event {number}")


def fitting_fabric(trace: Trace, steps: list[Step]) -> Fabric:
    """A fabric without paths: the strict one if the report has as many moved paths as that one only, none."""
    run, fabric = Run(trace), Fabric(trace)
    for event, reply in steps:
        run.take(event, reply)
        if fabric.take(run) != reply.moved:
            return Fabric(trace, STRICT_SLOTS)
    return Fabric(trace)


def lines_of_all(matrices: Iterable[Matrix]) -> tuple[list[int], list[int]]:
    """The rows and the columns that have a path in one of the matrices."""
    keys = [key for matrix in matrices for key in matrix.cells]
    return sorted({row for row, _ in keys}), sorted({column for _, column in keys})


def text(said: Iterable[str], matrices: list[Matrix]) -> str:
    rows, columns = lines_of_all(matrices)
    lines = list(said)
    widths = [max(len(m.text(Entry(row, column))) for m in matrices for row in rows) for column in columns]
    for matrix in matrices:
        heads = (f"{f'to {column}':<{max(width, 6)}}" for column, width in zip(columns, widths))
        lines += ["", f"{matrix.title:<8} {'  '.join(heads)}".rstrip()]
        for row in rows:
            entries = (f"{matrix.text(Entry(row, column)):<{max(width, 6)}}" for column, width in zip(columns, widths))
            lines.append(f"from {row:<3} {'  '.join(entries)}".rstrip())
    return "".join(f"{line}\n" for line in lines)


def svg(said: list[str], matrices: list[Matrix]) -> str:
    rows, columns = lines_of_all(matrices)
    top = TOP + 18 * len(said)
    height = top + len(matrices) * (len(rows) * ROW + GAP)
    width = max(LEFT + WIDTH * len(columns) + 20, 760)
    parts = [
        f'<svg xmlns="http://www.w3.org/2000/svg" viewBox="0 0 {width} {height}" role="img" aria-labelledby="title"'
        ' font-family="DejaVu Sans, Arial, sans-serif" font-size="13">',
        f'<title id="title">Paull\'s matrix before and after {said[0]}</title>',
        f'<rect width="{width}" height="{height}" fill="white"/>',
        *(f'<text x="16" y="{26 + 18 * at}">{line}</text>' for at, line in enumerate(said)),
    ]
    for matrix in matrices:
        parts += grid(matrix, rows, columns, top)
        top += len(rows) * ROW + GAP
    return "\n".join([*parts, "</svg>\n"])


def grid(matrix: Matrix, rows: Iterable[int], columns: list[int], top: int) -> Iterator[str]:
    yield f'<text x="16" y="{top - 8}" font-weight="bold">{matrix.title}</text>'
    for at, column in enumerate(columns):
        yield f'<text x="{LEFT + WIDTH * at + 8}" y="{top - 8}">to {column}</text>'
    for down, row in enumerate(rows):
        y = top + ROW * down
        yield f'<text x="16" y="{y + 18}">from {row}</text>'
        for at, column in enumerate(columns):
            colour = COLOURS.get(matrix.mark_of(Entry(row, column)), "none")
            yield f'<rect x="{LEFT + WIDTH * at}" y="{y}" width="{WIDTH}" height="{ROW}" fill="{colour}" stroke="#4a5568"/>'
            yield f'<text x="{LEFT + WIDTH * at + 8}" y="{y + 18}">{matrix.text(Entry(row, column))}</text>'
