"""Random traces, by the exchange and the C reference program."""

from __future__ import annotations

import subprocess
import tempfile
import unittest

import support
from support import TOP, needs_program, slow


class RandomTraces(unittest.TestCase):
    @needs_program
    @slow
    def test_all_programs_agree(self) -> None:
        """Simulated users write 40 traces. The exchange and the C reference program write the same reports of them."""
        with tempfile.TemporaryDirectory() as folder:
            done = subprocess.run([TOP / "bench" / "random", "40"], cwd=folder, capture_output=True, text=True, check=False)
        self.assertEqual((done.returncode, done.stderr), (0, ""), done.stdout)
        self.assertIn("all programs agree on 40, on both fabrics", done.stdout)


if __name__ == "__main__":
    support.main()
