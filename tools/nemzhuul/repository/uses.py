"""Where a crate uses each library of its line in crates.txt."""

from __future__ import annotations

import re
from collections.abc import Iterator
from pathlib import Path

from nemzhuul.repository.crates import Crate

CODE, CONTRACTS, PROOFS, NOWHERE = "code", "contracts", "proofs", "nowhere"
LITERAL = re.compile(r"//[^\n]*|\"(?:\\.|[^\"\\])*\"|'(?:\\.|[^'\\])'", re.S)
GHOST = re.compile(
    r"\bghost use [^;]*;|\b(?:requires|ensures)\*?\s*(?:\w+\s*)?\{|\bghost\s+[\w-]+\s*[=:]\s*\{"
)


def block_end(text: str, start: int) -> int:
    """The end of the block that begins with the brace before a place."""
    depth = 1
    for brace in re.finditer(r"[{}]", text[start:]):
        depth += 1 if brace[0] == "{" else -1
        if depth == 0:
            return start + brace.end()
    return len(text)


def code_and_clauses(text: str) -> tuple[str, str]:
    """The code of a source, and its clauses with what they import, without comments and literals."""
    text = LITERAL.sub(lambda found: " " if found[0].startswith("//") else '""', text)
    code, clauses, at = [], [], 0
    for found in GHOST.finditer(text):
        if found.start() >= at:
            code.append(text[at : found.start()])
            at = found.end() if found[0].endswith(";") else block_end(text, found.end())
            clauses.append(text[found.start() : at])
    return " ".join([*code, text[at:]]), " ".join(clauses)


def texts(folder: Path) -> Iterator[str]:
    for path in sorted(folder.rglob("*")):
        if path.suffix in (".rt", ".antt"):
            yield path.read_text(encoding="utf-8")


def uses(crate: Crate) -> dict[str, str]:
    """Where the crate uses each library: in code, else in contracts and definitions, else only in proofs, or nowhere."""
    sources = [code_and_clauses(text) for text in texts(crate.folder / "src")]
    code = " ".join(code for code, _ in sources)
    contracts = " ".join([*(clauses for _, clauses in sources), *texts(crate.folder / "specs")])
    proofs = " ".join(texts(crate.folder / "proofs"))
    return {library: place(library, code, contracts, proofs) for library in crate.libraries}


def place(library: str, code: str, contracts: str, proofs: str) -> str:
    if re.search(rf"\b{library}\b", code):
        return CODE
    cited = f"Rattle.{library}."
    return CONTRACTS if cited in contracts else PROOFS if cited in proofs else NOWHERE
