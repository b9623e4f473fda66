"""Writes the messages of a capture as a trace, so that a call that was recorded elsewhere is replayed."""

from __future__ import annotations

from collections.abc import Mapping, Sequence, Set
from typing import NamedTuple

from nemzhuul.command_line import NAME, Refused, WrongWords, say, watch
from nemzhuul.programs.program import Trace
from nemzhuul.signalling.captures import Signal, read_capture
from nemzhuul.signalling.q931 import INFORMATION, SETUP, message_text, printable, read_message
from nemzhuul.traces.events import FRAMES_PER_SECOND, MAX_EVENTS, MAX_MESSAGE_DIGITS, MAX_NUMBERS
from nemzhuul.traces.reading import DIGITS

USAGE = """usage: tools/unpcap [--users | --replay] CAPTURE >TRACE
writes the Q.931 messages of a capture (pcap or pcapng, link type LINUX_LAPD or LAPD) as a trace.
Each endpoint of the capture, told by its TEI, has two lines: what it sent arrives on the first
line, and what was sent to it on the second line. The digits of a SETUP, and of the INFORMATION that follows it,
lead to the endpoint's other line.
--users: what an endpoint sent arrives on the line of the number of its TEI, and what was sent to it is left
out. The digits of a SETUP that was sent to an endpoint lead to its line.
--replay: as without it, but the side that is called has the call references that the exchange gives, which the
program is run to learn; and as many frames pass between two messages as between their times in the capture. Where a
trace has no room for all, long pauses are shortened, and standard error says so.
Where one number begins another, the number that came first counts."""

MAX_LINES = 32


class Chosen(NamedTuple):
    """How the side that chose a call reference names its call."""

    terminal: int
    is_user: bool
    reference: int


class Dialled(NamedTuple):
    """A SETUP with the digits that its caller dials."""

    setup: Signal
    digits: str


def main(*words: str) -> bytes:
    option = words[0] if words[:1] in (("--users",), ("--replay",)) else None
    files = words[1:] if option else words
    if len(files) != 1 or files[0].startswith("-"):
        raise WrongWords
    path = files[0]
    signals = read_capture(path)
    if not signals:
        raise Refused(f"{path} has no message of signalling")
    users_only = option == "--users"
    first_line = lines_of(path, {signal.terminal for signal in signals}, users_only)
    trace = Trace()
    trace.note(f"The messages of {name_of(path)}")
    trace.header(f"exchange 1 {max(first_line.values()) + (1 if users_only else 2)} 0 1")
    for digits, line in numbers(signals, first_line, users_only).items():
        trace.header(f"number {digits} line {line}")
    references: dict[Chosen, int] | None = {} if option == "--replay" else None
    pauses = frames_between(path, signals) if option == "--replay" else [0] * len(signals)
    for signal, pause in zip(watch(signals, path), pauses):
        if pause:
            pass_frames(trace, pause)
        if signal.is_from_user or not users_only:
            line = first_line[signal.terminal] + (0 if signal.is_from_user else 1)
            message(path, trace, signal, line, references)
    return trace.text()


def frames_between(path: str, signals: Sequence[Signal]) -> list[int]:
    """How many frames pass before each message. The longest pauses are as long as a trace has room for."""
    frames = [None if signal.time is None else round(signal.time * FRAMES_PER_SECOND) for signal in signals]
    pauses = [0] + [0 if before is None or at is None else max(0, at - before) for before, at in zip(frames, frames[1:])]
    room = MAX_EVENTS - len(signals)
    longest = longest_pause(pauses, room)
    if longest is not None:
        say(f"{NAME}: {path} lasts for {sum(pauses)} frames, and a trace has room for {max(room, 0)}: "
            f"no pause is longer than {longest} frames")  # fmt: skip
    return [pause if longest is None else min(pause, longest) for pause in pauses]


def longest_pause(pauses: Sequence[int], room: int) -> int | None:
    """The length to which pauses are cut, so that all together have so much room; None where they have it."""
    if sum(pauses) <= room:
        return None
    room, left = max(room, 0), len(pauses)
    for pause in sorted(pauses):
        if pause * left > room:
            return room // left
        room, left = room - pause, left - 1
    return None


def pass_frames(trace: Trace, count: int) -> None:
    trace.note(f"{count} frames pass")
    for _ in range(count):
        trace.event("F")
    trace.segment()


def name_of(path: str) -> str:
    """The name of a file, as it may be in a comment."""
    return printable(path.rsplit("/", 1)[-1])


def lines_of(path: str, terminals: Set[int], users_only: bool) -> dict[int, int]:
    """The first line of each endpoint."""
    if not users_only:
        if 2 * len(terminals) > MAX_LINES:
            raise Refused(f"{path} has {len(terminals)} endpoints, and an exchange has lines for {MAX_LINES // 2}")
        return {terminal: 2 * at for at, terminal in enumerate(sorted(terminals))}
    if max(terminals) >= MAX_LINES:
        raise Refused(f"{path} has TEI {max(terminals)}, and an exchange has lines 0 to {MAX_LINES - 1}")
    return {terminal: terminal for terminal in terminals}


def numbers(signals: Sequence[Signal], first_line: Mapping[int, int], users_only: bool) -> dict[str, int]:
    """The line that each number leads to; of those that begin one another, the first that is dialled."""
    leads_to: dict[str, int] = {}
    for signal, digits in dialled_calls(signals):
        if users_only and signal.is_from_user or len(leads_to) == MAX_NUMBERS or not DIGITS.fullmatch(digits):
            continue
        if not any(digits.startswith(held) or held.startswith(digits) for held in leads_to):
            leads_to[digits] = first_line[signal.terminal] + (1 if signal.is_from_user else 0)
    return leads_to


def dialled_calls(signals: Sequence[Signal]) -> list[Dialled]:
    """Each SETUP with the digits that its caller dials, there and in INFORMATION of the same call."""
    begun: dict[Chosen, int] = {}  # where the last SETUP is among all
    calls: list[Dialled] = []
    for signal in signals:
        found = read_message(signal.octets)
        if found is None or found.flag:
            continue
        name = Chosen(signal.terminal, signal.is_from_user, found.reference)
        if found.kind == SETUP:
            begun[name] = len(calls)
            calls.append(Dialled(signal, found.digits or ""))
        elif found.kind == INFORMATION and name in begun:
            call = calls[begun[name]]
            calls[begun[name]] = Dialled(call.setup, call.digits + (found.digits or ""))
    return calls


def message(path: str, trace: Trace, signal: Signal, line: int, references: dict[Chosen, int] | None) -> None:
    """Adds a message to the trace, with the call reference that the exchange gave, where it gave one."""
    length, most = len(signal.octets), MAX_MESSAGE_DIGITS // 2
    if length > most:
        raise Refused(f"{path} has a message of {length} octets in packet {signal.packet}, and a trace takes {most}")
    octets = signal.octets if references is None else rename(signal, references)
    way = "from" if signal.is_from_user else "to"
    trace.pass_over()
    trace.note(f"packet {signal.packet}, {way} TEI {signal.terminal}: {message_text(octets)}")
    trace.event(f"M {line} {octets.hex().upper()}".rstrip())
    found = read_message(octets)
    if references is not None and found is not None and found.kind in (SETUP, INFORMATION) and found.flag == 0:
        name = Chosen(signal.terminal, not signal.is_from_user, found.reference)
        for setup in (read_message(sent.octets) for sent in trace.sent()):
            if setup is not None and setup.kind == SETUP:
                references[name] = setup.reference
    trace.segment()


def rename(signal: Signal, references: Mapping[Chosen, int]) -> bytes:
    """The octets of a message from the side that did not choose its reference, with the exchange's own."""
    found = read_message(signal.octets)
    if found is None or found.flag == 0:
        return signal.octets
    own = references.get(Chosen(signal.terminal, signal.is_from_user, found.reference), found.reference)
    return signal.octets[:2] + (1 << 15 | own).to_bytes(2, "big") + signal.octets[4:]
