"""Which crates and steps .ci/quick finds for a change."""

from __future__ import annotations

import shutil
import subprocess
from pathlib import Path

import support
from support import TOP, InFolder

CRATES = "## Words\nlow:\nother:\n## Top\ntst: low\n## Tests\nlow_tests: low\nother_tests: other\n"
ECHO = '#!/bin/sh\necho "$(basename "$0")" "$@"\n'


class Quick(InFolder):
    def setUp(self) -> None:
        super().setUp()
        shutil.copytree(TOP / "tools", self.folder / "tools", ignore=shutil.ignore_patterns("out", "__pycache__", "wanted"))
        for name in ("low", "other", "tst", "low_tests", "other_tests"):
            self.write(f"crates/{name}/src/lib.rt", f"// {name}\n")
        self.write("crates.txt", CRATES)
        self.write(".gitignore", "out/\nbin/\n")
        for name in (".ci/mutations", ".ci/edits", ".ci/examples", "bin/rt"):
            self.write(name, ECHO).chmod(0o755)
        shutil.copy(TOP / ".ci" / "quick", self.folder / ".ci" / "quick")
        self.write("crates/tst/out/tst", "#!/bin/sh\n").chmod(0o755)
        self.git("init", "-q")
        self.git("add", "-A")
        self.git("-c", "user.name=a", "-c", "user.email=a@example", "commit", "-qm", "one")
        line = "from nemzhuul.programs import built, program; program.BUILT.record(built.sources_of('tst'))"
        subprocess.run(["python3", "-Bc", line], cwd=self.folder / "tools", env=self.environment(), check=True)

    def write(self, name: str, text: str) -> Path:
        path = self.folder / name
        path.parent.mkdir(parents=True, exist_ok=True)
        path.write_text(text)
        return path

    def git(self, *words: str) -> None:
        subprocess.run(["git", *words], cwd=self.folder, check=True)

    def environment(self) -> dict[str, str]:
        return {"PATH": f"{self.folder}/bin:/usr/bin:/bin", "PYTHONDONTWRITEBYTECODE": "1"}

    def ran(self, *words: str) -> tuple[int, list[str], str]:
        command = [str(self.folder / ".ci" / "quick"), *words]
        done = subprocess.run(command, env=self.environment(), capture_output=True, text=True, check=False)
        return done.returncode, done.stdout.splitlines(), done.stderr

    def test_no_crate(self) -> None:
        self.write("README.md", "more\n")
        status, lines, _ = self.ran("HEAD")
        self.assertEqual(status, 0)
        self.assertRegex(lines[0], "^quick: no crate differs from [0-9a-f]{10}$")

    def test_a_change(self) -> None:
        """Its crate and the tests that list it, whether a file or the crate's line is another."""
        for change in (("crates/other/src/lib.rt", "// more\n"), ("crates.txt", CRATES.replace("other:", "other may_wait=1:"))):
            self.git("checkout", "-q", ".")
            self.write(*change)
            status, lines, _ = self.ran("HEAD")
            self.assertEqual(status, 0)
            self.assertRegex(lines[0], "^quick: 1 crates differ from [0-9a-f]{10}: other$")
            self.assertEqual(lines[1::3], ["quick: .ci/examples", "quick: rt ci other other_tests", "quick: .ci/mutations other"])
            self.assertEqual(lines[2::3], ["examples", "rt ci other other_tests", "mutations other"])
            self.assertRegex(lines[9], r"^quick: mutations: passed, 0 min [0-9]{2} s$")

    def test_failures(self) -> None:
        """Every step is tried. Mutations whose libraries were not recorded are tried as edits."""
        self.write(".ci/mutations", "#!/bin/sh\nexit 2\n")
        self.write("bin/rt", "#!/bin/sh\nexit 3\n")
        self.write("crates/other/new", "")
        status, lines, _ = self.ran("HEAD")
        self.assertEqual((status, lines[-2]), (1, "edits other"))
        self.assertTrue(lines[5].startswith("quick: proofs and tests: FAILED with status 3, "), lines)

    def test_no_commit(self) -> None:
        for words, said in (((), "this branch follows none: name a commit"), (("none",), "there is no commit none")):
            status, _, errors = self.ran(*words)
            self.assertEqual((status, errors.splitlines()[-1]), (2, f"quick: error: {said}"))


if __name__ == "__main__":
    support.main()
