"""Explains why the exchange refuses a trace or a report: the line, the column, and the likely cause."""

from __future__ import annotations

import re
import shlex
import sys
from collections.abc import Iterable, Iterator, Sequence
from itertools import takewhile
from typing import NamedTuple

from nemzhuul.command_line import Progress, Refused, WrongWords, write_output
from nemzhuul.signalling.lapd import USUAL_TIMERS
from nemzhuul.traces import runs
from nemzhuul.traces.events import MAX_BYTES
from nemzhuul.traces.reading import METER, LineError, TraceReader, reply, take_lines

USAGE = """usage: tools/explain TRACE [REPORT]
       tools/explain --status [N]
explains why the exchange refuses TRACE, or which line of REPORT cannot be one: the line, the column and the
likely cause. It ends with the status of the exchange: 0 if TRACE is a trace, 1 if it is refused, and 6 if REPORT
cannot be its report. A log of tools/attach, and a trace with the report that `tst follow` wrote of it, can be of any
length. With --status it explains an exit status of the exchange, or all of them."""

STATUSES = {
    0: """the trace was run and its report was written (`run`, `follow`), the summary was written (`gen`), or the report is
one of the trace (`check`, which writes `valid`).""",
    1: """the input is not a trace. Standard output has `refused N REASON`: line N is the first that fails. With `follow`
the report of the lines before it comes first. `tools/explain TRACE` says where and why.""",
    2: """the arguments are no command. Standard output has `refused words`. The commands are `run [--strict]`,
`follow [--strict]`, `gen SEED CALLS` with 1 to 2000 calls, and `check [--strict]`.""",
    3: """reading failed: standard input is closed or is a directory, or the disk reports an error. Nothing is
written, or with `follow` the report of the whole lines that were read.""",
    4: """writing failed: standard output is closed, the disk is full, or the program that reads it has ended
(`.. | head`). What was written is a prefix of the report.""",
    5: """memory ran out: see `ulimit -v`, or the limit of the container. What was written is a prefix of the report,
which ends with a segment, or with `follow` with a line.""",
    6: """the report is not one of the trace (`check`). Standard output has `invalid N`: line N of the report is wrong
or missing.""",
}

REFUSED, INVALID = 1, 6  # statuses
FOLLOWED = ("link ", "# clock: frame ")  # how lines begin that only a trace of `tst follow` or a log of tools/attach has
DIVIDER = "report\n"  # the line between the trace and the report in an input of `check`
WINDOW = 72  # how many characters of a line are shown


class Explained(NamedTuple):
    """A text, and the status with which the exchange ends."""

    text: str
    status: int = 0


def main(*words: str) -> str:
    if words[:1] == ("--status",):
        return statuses(*words[1:])
    if len(words) not in (1, 2) or words[0].startswith("-"):
        raise WrongWords
    found = [explain_trace(words[0], has_report=len(words) == 2)]
    if len(words) == 2:
        found.append(explain_report(*words))
    write_output("".join(one.text for one in found))
    sys.exit(next((one.status for one in found if one.status), 0))


def statuses(*words: str) -> str:
    """The text of an exit status, or of all."""
    if not words:
        return "".join(f"{number}: {text}\n" for number, text in STATUSES.items())
    if len(words) > 1 or not re.fullmatch("[0-9]{1,3}", words[0]):
        raise WrongWords
    number = int(words[0])
    if number > 128:
        return f"{number}: signal {number - 128} ended the program; 137 often means that the machine's memory ran out.\n"
    return f"{number}: {STATUSES.get(number, 'the program never ends so: the shell did not find it, or could not start it.')}\n"


# ---- traces


class Lines:
    """The lines of a trace, which are read as often as they are wanted. A pipe is read once."""

    def __init__(self, path: str) -> None:
        self.path = path
        self.size = runs.size_of(path)
        self.last = ""  # of those that were read
        self._lines: Iterable[str] = () if self.size else list(runs.lines_in(path))

    def __iter__(self) -> Iterator[str]:
        return takewhile(DIVIDER.__ne__, runs.lines_in(self.path) if self.size else self._lines)

    def with_progress(self) -> Iterator[str]:
        """The lines without their ends."""
        progress, octets = Progress(self.path, self.size), 0
        try:
            for number, line in enumerate(self):
                octets += len(line)
                if number % runs.SHOWN_LINES == 0:
                    progress.show(octets)
                self.last = line.removesuffix("\n")
                yield self.last
            self.last = ""
        finally:
            progress.end()


def explain_trace(path: str, has_report: bool = False) -> Explained:
    """A trace is one of `tst follow` if its lines show that. If it is too long for `tst run`, its report shows it too."""
    lines = Lines(path)
    is_followed = any(line.startswith(FOLLOWED) for line in lines) or has_report and runs.is_over_limits(path)
    if not is_followed and sum(map(len, lines)) > MAX_BYTES:
        limit = f"it has over {MAX_BYTES:,} bytes, and `tst follow` alone reads so many"
        return Explained(f"{path} is no trace: the exchange writes `refused 0 limit` and ends with status 1\n{limit}\n", REFUSED)
    reader = TraceReader(is_followed)
    wrong = take_lines(reader, lines.with_progress())
    if wrong is None:
        return Explained(summary(path, reader))
    number, error = wrong
    head = f"{path} is no trace: the exchange writes `refused {number} {error}` and ends with status 1\n"
    return Explained(head + (octet_text(path, number, lines.last) or word_text(number, lines.last, error)), REFUSED)


def summary(path: str, reader: TraceReader) -> str:
    lines, bridges, processors = reader.sizes
    said = [f"{lines} lines", f"{bridges} bridges", f"{processors} processors", f"{len(reader.numbers)} numbers"]
    said.append(f"{reader.count} events, {reader.frames} of them frames")
    kind = "a trace"
    if reader.linked:
        kind = "a trace of `tst follow`, whose data links `tst run` refuses"
    elif runs.is_over_limits(path):
        kind = "a trace of `tst follow`, which is too long for `tst run`"
    return f"{path} is {kind}: {', '.join(said)}\n"


def octet_text(path: str, number: int, line: str) -> str:
    """What is said of an octet that no line of a trace or a report has; nothing where there is none."""
    out = f"<{shlex.quote(path)} >good"
    causes = (
        ("\xef\xbb\xbf", "the file begins with a byte order mark, as some editors write it", f"tail -c +4 {out}"),
        ("\xff\xfe|\xfe\xff|\0", "the file is in UTF-16", f"iconv -f UTF-16 -t ASCII {out}"),
        ("\r$", "the line ends with a carriage return, as on Windows", f"tr -d '\\r' {out}"),
        ("\t", "there is a tab, and only spaces part words", f"tr '\\t' ' ' {out}"),
        ("\xc2\xa0", "there is a no-break space, as word processors write it", f"sed 's/\\xc2\\xa0/ /g' {out}"),
    )
    for pattern, said, remedy in causes:
        if match := re.search(pattern, line):
            return place(number, line, match.start(), said) + f"remedy: {remedy}\n"
    if match := re.search("[^ -~]+", line):
        octets = match.group().encode("latin-1")
        said = f"{octets.decode(errors='replace')!r} is no text of ASCII"
        return place(number, line, match.start(), said)
    return ""


def word_text(number: int, line: str, error: LineError) -> str:
    """What is said of the word that fails, and where it may come from."""
    starts = [match.start() for match in re.finditer("[^ ]+", line)]
    words = line.split()
    at = starts[error.word] if error.word < len(starts) else len(line)
    word = words[error.word] if error.word < len(words) else ""
    return place(number, line, at, error.said) + likely_text(word_cause(error, word, words))


def word_cause(error: LineError, word: str, words: Sequence[str]) -> str:
    """Where a word comes from that is none, or nothing."""
    reason = str(error)
    if reason == "header":
        return header_cause(words)
    if reason == "limit" and words[0] != "number":
        return "the trace is one for `tst follow`, which has no such limit"
    if reason == "hex" or reason == "length":
        return digits_cause(word.rpartition(":")[2])
    if reason == "word" and error.word == 0 and reply(" ".join(words)):
        return "this is a line of a report, and not of a trace"
    if reason == "word" and word in ("link", "L", *USUAL_TIMERS):
        return "only `tst follow` takes data links"
    if reason == "word" and error.word == 0:
        known = {name.lower(): name for name in TraceReader().kinds}
        return f"the word is `{known[word.lower()]}`" if word.lower() in known else ""
    if reason == "word" and words[:1] == ["M"]:
        return "the octets of a message are written without spaces between them"
    if re.fullmatch("0[0-9]+", word) and reason != "prefix":
        return "a number has no leading zero"
    if reason == "slot" and re.search("/(0|16)$", word):
        return "channel 0 carries the framing of a primary rate line, and channel 16 its signalling"
    return ""


def header_cause(words: Sequence[str]) -> str:
    if re.fullmatch("exchange [0-9]+ lines?", " ".join(words[:3])):
        return "this is a script: `tools/script FILE >TRACE` writes its trace"
    if words and reply(" ".join(words)):
        return "this is a report; the trace is another file"
    return ""


def digits_cause(digits: str) -> str:
    if digits.lower().startswith("0x"):
        return "the octets have no 0x in front"
    wrong = [digit for digit in digits if digit in "OoIl"]
    return f"the letter {wrong[0]} is written for a digit" if wrong else ""


# ---- reports


def explain_report(trace: str, path: str) -> Explained:
    try:
        for _ in runs.open_run(trace, path, has_links=True).steps:
            pass
    except runs.WrongReport as wrong:
        if wrong.row and not METER.fullmatch(wrong.line):
            why = octet_text(path, wrong.row, wrong.line) or report_text(wrong.row, wrong.line)
            return Explained(f"{path} is no report\n{why}", INVALID)
        return Explained(f"{wrong}\n", INVALID)
    except Refused as refusal:
        return Explained(f"{refusal}\n", INVALID)
    return Explained(f"{path} has a line for each event of {trace}; `tst check` finds out whether it is its report\n")


def report_text(number: int, line: str) -> str:
    """What is said of a line that no report has."""
    causes = (
        ("^refused ()", "this is the report of a refusal"),
        (":[0-9A-F]*([a-f])", "octets of a report are upper-case digits"),
        ("(^ | {2,}| $)", "there is one space between two words, and none before or after them"),
        (r"\b(0[0-9]+)\b(?!:)", "a number has no leading zero"),
    )
    for pattern, said in causes:
        if match := re.search(pattern, line):
            return place(number, line, match.start(1), said)
    return place(number, line, 0, "no line of a report is so written")


# ---- the text


def likely_text(cause: str) -> str:
    return f"likely cause: {cause}\n" if cause else ""


def place(number: int, line: str, at: int, said: str) -> str:
    """A line with a mark under the column, which counts from 1; of a long line the part around it."""
    first = max(0, at - WINDOW // 2)
    before, rest = escape(line[first:at]), escape(line[at : first + WINDOW])
    dots = "..." if first else ""
    text = f"{dots}{before}{rest}" + ("..." if len(line) > first + WINDOW else "")
    return f"line {number}, column {at + 1}: {said}\n    {text}\n    {' ' * len(dots + before)}^\n"


def escape(text: str) -> str:
    """The text with each octet that is not printable as an escape."""
    return "".join(c if " " <= c <= "~" else c.encode("unicode_escape").decode() for c in text)
