"""Where a crate uses the libraries of its line in crates.txt."""

from __future__ import annotations

import unittest

import support
from nemzhuul.repository.uses import CODE, CONTRACTS, NOWHERE, PROOFS, code_and_clauses, place

SOURCE = """
//! A comment about low::Comment.
ghost use Rattle.imported.specs.One.{A};
use used::Name;

impl Model for Name {
    ghost view = { λ n. record { Rattle.viewed.x = n } };
}

fn step<'a>(text: &'a str, quote: char) -> bool
    requires { A text.now }
    ensures named { Rattle.ensured.specs.Two.B text.now × { C } }
{
    // called::comment
    text == "written::text \\" // }" && quote == '"' && inside::call(text)
}
"""


class Uses(unittest.TestCase):
    def test_code_and_clauses(self) -> None:
        code, clauses = code_and_clauses(SOURCE)
        for name in ("used", "inside", "step"):
            self.assertIn(name, code)
        for name in ("imported", "viewed", "ensured"):
            self.assertNotIn(name, code)
            self.assertIn(name, clauses)
        for name in ("low", "called", "written"):
            self.assertNotIn(name, code + clauses)

    def test_places(self) -> None:
        code, clauses = code_and_clauses(SOURCE)
        for library, wanted in (("used", CODE), ("ensured", CONTRACTS), ("cited", PROOFS), ("low", NOWHERE)):
            self.assertEqual(place(library, code, clauses, "use Rattle.cited.proofs.Three.{c}"), wanted)


if __name__ == "__main__":
    support.main()
