"""What an operator sees of an exchange, as the tests read it: metrics in Prometheus' text format, and pages."""

from __future__ import annotations

import re
from collections import Counter, defaultdict
from collections.abc import Sequence
from typing import NamedTuple

SAMPLE = re.compile(r'(nemzhuul_[a-z_]+)(?:\{((?:[a-z]+="(?:[^"\\\n]|\\.)*",?)+)\})? ([0-9.e+-]+|NaN)')
LABEL = re.compile(r'([a-z]+)="((?:[^"\\]|\\.)*)"')
SUFFIXES = ("_bucket", "_sum", "_count")  # of a histogram


class Sample(NamedTuple):
    """A sample, by the name of its family without the prefix."""

    name: str
    labels: dict[str, str]
    value: float


class Metrics:
    """The samples of a text, which has to be as Prometheus' format and its conventions say."""

    def __init__(self, text: str) -> None:
        self.kinds: dict[str, str] = {}
        self.samples: list[Sample] = []
        assert text.endswith("\n")
        lines = text.splitlines()
        for at, line in enumerate(lines):
            if line.startswith("# HELP "):
                assert re.fullmatch("# HELP nemzhuul_[a-z_]+ [A-Z0-9].*", line), line
            elif line.startswith("# TYPE "):
                self._begin(line, lines[at - 1])
            else:
                self._take(line)
        marks = [(sample.name, tuple(sample.labels.items())) for sample in self.samples]
        assert len(marks) == len(set(marks)), "a sample is twice in the text"
        for name, kind in self.kinds.items():
            assert (kind == "counter") == name.endswith("_total"), name
            if kind == "histogram":
                self._check_histogram(name)

    def _begin(self, line: str, before: str) -> None:
        _, _, name, kind = line.split(" ")
        assert before.startswith(f"# HELP {name} "), line
        name = name.removeprefix("nemzhuul_")
        assert name not in self.kinds, f"{name} is there twice"
        self.kinds[name] = kind

    def _take(self, line: str) -> None:
        match = SAMPLE.fullmatch(line)
        assert match, line
        name, labels, value = match.groups()
        name = name.removeprefix("nemzhuul_")
        family = [*self.kinds][-1]
        assert name == family or self.kinds[family] == "histogram" and name.removeprefix(family) in SUFFIXES, line
        self.samples.append(Sample(name, dict(LABEL.findall(labels or "")), float(value)))

    def _check_histogram(self, name: str) -> None:
        buckets = [(sample.labels["le"], sample.value) for sample in self.of(f"{name}_bucket")]
        bounds, counts = [float(bound.replace("+Inf", "inf")) for bound, _ in buckets], [count for _, count in buckets]
        assert bounds == sorted(set(bounds)) and counts == sorted(counts) and bounds[-1] == float("inf"), name
        assert counts[-1] == self.one(f"{name}_count"), name

    def of(self, name: str) -> list[Sample]:
        return [sample for sample in self.samples if sample.name == name]

    def one(self, name: str) -> float:
        """The value of the only sample of a family."""
        (sample,) = self.of(name)
        assert not sample.labels
        return sample.value

    def by(self, name: str, *labels: str) -> dict[Sequence[str], float]:
        """The values of a family that are not 0, summed by some labels."""
        sums: defaultdict[Sequence[str], float] = defaultdict(float)
        for sample in self.of(name):
            sums[tuple(sample.labels[label] for label in labels)] += sample.value
        return {labels: value for labels, value in sums.items() if value}


def causes(rows: Sequence[dict[str, str]]) -> Counter[Sequence[str]]:
    """How many records have each cause."""
    return Counter((row["cause"],) for row in rows)
