"""What documents show of settings, sizes and signatures, compared with the sources."""

from __future__ import annotations

import re
import unittest

import support
from nemzhuul.repository.crates import read_crates
from nemzhuul.traces.reading import TraceReader, take_lines
from support import TOP

PARTS = ("src", "specs", "proofs")


def blocks(document: str, language: str) -> list[str]:
    text = (TOP / document).read_text()
    return re.findall(rf"^```{language}\n(.*?)^```$", text, re.MULTILINE | re.DOTALL)


def squeezed(text: str) -> str:
    """A text of Rust without what its layout decides."""
    return re.sub(r",\s*\)", ")", re.sub(r"\s+", " ", text)).replace("( ", "(")


class Documents(unittest.TestCase):
    def test_settings(self) -> None:
        (settings,) = (block for block in blocks("docs/INTEROP.md", "text") if block.startswith("exchange "))
        reader = TraceReader()
        self.assertIsNone(take_lines(reader, settings.splitlines()))
        self.assertEqual((len(reader.numbers), len(reader.tones), len(reader.timers), reader.count), (2, 1, 1, 1))

    def test_signatures(self) -> None:
        sources = [path for name in ("exchange_run", "exchange_follow", "ex_io") for path in (TOP / "crates" / name / "src").glob("*.rt")]
        held = squeezed(" ".join(path.read_text() for path in sources))
        (shown,) = blocks("docs/FORMATS.md", "rust")
        calls = re.findall(r"(?:pub )?fn .*?-> [^;{]*?(?=;|\npub|\ntrait)", shown, re.DOTALL)
        self.assertEqual(len(calls), 4)
        for call in calls:
            self.assertIn(squeezed(call), held)

    def test_size(self) -> None:
        """Within a tenth of what README says."""
        (row,) = re.findall(r"^\| Size \| (.*?) \|", (TOP / "README.md").read_text(), re.MULTILINE)
        said = [int(number.replace(",", "")) for number in re.findall("[0-9][0-9,]*", row)]
        files = {part: (TOP / "crates").glob(f"*/{part}/**/*") for part in PARTS}
        counts = [sum(path.read_bytes().count(b"\n") for path in files[part] if path.is_file()) for part in PARTS]
        for number, found in zip(said, [len(read_crates()), *counts]):
            self.assertAlmostEqual(number / found, 1, delta=0.1)


if __name__ == "__main__":
    support.main()
