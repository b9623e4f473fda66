"""Writes a trace from plain lines: who calls whom, who answers, who speaks what, and how many frames pass."""

from __future__ import annotations

from collections.abc import Iterable, Sequence
from pathlib import Path
from typing import NamedTuple

from nemzhuul.command_line import Refused, WrongWords, watch
from nemzhuul.programs.program import TEXT, Trace
from nemzhuul.signalling.endpoints import Endpoints, Where, place_of
from nemzhuul.signalling.q931 import CALL_REJECTED, NORMAL_CALL_CLEARING, message_text
from nemzhuul.sound.wave import read_sound
from nemzhuul.traces.events import IDLE, MAX_NUMBERS, MAX_TONE_DIGITS, PLACES, Slot, place_of_channel
from nemzhuul.traces.phrases import Act, Phrases, Values

USAGE = """usage: tools/script [--program PROGRAM] FILE >TRACE
writes the trace that the lines of FILE tell of; a line that begins with # is a comment. SLOT is `line L
channel C` or `L/C`, WHO is `line L` or a SLOT. The sizes come first, then numbers, tones and timers:
    exchange E lines [B bridges] [P processors]
    number DIGITS leads to line L             number DIGITS leads to room R
    number DIGITS leads to lines L,L,..       (the first of them that has an idle channel)
    ringing tone from WAV                     busy tone from WAV
    timer T303 runs N frames                  (or T301, T302, T305, T308, T309, T310)
What happens:
    WHO calls DIGITS [as DIGITS]              WHO hangs up [with CAUSE]
    WHO proceeds, WHO alerts, WHO answers     WHO rejects [with CAUSE]
    WHO asks for its state                    WHO restarts
    line L prefers channel C and calls DIGITS
    WHO begins to dial                        WHO dials DIGITS [to the end]
    line L falls silent                       line L recovers
    the link of line L fails                  the link of line L is up
    line L is restarted                       (by the exchange)
    line L sends HEX                          SLOT is nailed to SLOT
    SLOT joins room R                         SLOT is freed
    SLOT speaks from WAV                      SLOT is silent
    N frames pass                             frames pass until the sounds end
    a meter is changed                        at once: (the lines that are indented below it)
A WAV file has 8,000 samples a second of A-law or 16 bits, and is looked for beside FILE. Where there are
messages, PROGRAM is run on the trace so far (the proved one, or an unproved one of the sources, if none is named)."""

BLANKS = " \t\r"


def main(*words: str) -> bytes:
    program = None
    if words[:1] == ("--program",) and len(words) > 1:
        program, words = words[1], words[2:]
    if len(words) != 1 or words[0].startswith("-"):
        raise WrongWords
    path = words[0]
    lines = Path(path).read_bytes().decode(*TEXT).removesuffix("\n").split("\n")
    script = Script(Path(path).parent, program)
    for number, line in enumerate(watch(lines, path), start=1):
        try:
            script.take(line)
            if number == len(lines):
                script.end()
        except Refused as refusal:
            raise Refused(f"{path}: line {number}: {refusal}") from None
        except OSError as error:
            raise Refused(f"{path}: line {number}: {error.filename} cannot be read: {error.strerror}") from None
    if script.values is None:
        raise Refused(f"{path}: the line that gives the sizes of the exchange is missing")
    return script.trace.text()


class Signal(NamedTuple):
    """A message that the endpoint of a line sends."""

    line: int
    octets: bytes


class Block(NamedTuple):
    """A line `at once:`: how far in it is, and the number of events before it."""

    indentation: int
    events: int


class Script:
    """Takes the lines of a script one by one, and adds to the trace what they tell of."""

    def __init__(self, folder: Path, program: str | None) -> None:
        self.folder = folder
        self.trace = Trace(program)
        self.values: Values | None = None  # once the sizes are known
        self.numbers: list[str] = []
        self.tones: set[str] = set()
        self.timers: set[str] = set()
        self.endpoints = Endpoints()
        self.sounds: dict[Slot, bytes] = {}  # by slot, what is still to be said
        self.bridges = 0
        self.indentation = 0  # how far in the line is
        self.block: Block | None = None  # within `at once:`
        self.phrases = Phrases(ACTS)

    def take(self, line: str) -> None:
        text = line.strip(BLANKS)
        if text.startswith("#"):
            self.trace.add(text)
        elif text:
            self.indentation = len(line) - len(line.lstrip(BLANKS))
            if self.block is not None and self.indentation <= self.block.indentation:
                self.end()
            self.phrase(text.split())

    def end(self) -> None:
        """Ends what is done at once, if anything is: the endpoints answer what the exchange has sent for it."""
        if self.block is None:
            return
        if self.block.events == self.trace.events:
            raise Refused("nothing happens in the lines below `at once:`, which are further in than it")
        self.block = None
        answers = self.heard() if self.trace.has_messages else []
        self.trace.segment()
        self.talk(answers)

    def at_once(self) -> None:
        if self.block is not None:
            raise Refused("`at once:` is within another one")
        self.block = Block(self.indentation, self.trace.events)

    def phrase(self, words: Sequence[str]) -> None:
        act, names = self.phrases.read(words)
        if (act in (Script.sizes, Script.processors)) != (self.values is None):
            raise Refused("the sizes of the exchange stand once, in the first line: exchange 2 lines")
        if act in SETTINGS and self.trace.events:
            raise Refused("numbers, tones and timers stand before anything happens")
        values = (self.values or Values(0)).read(names)
        self.trace.note(" ".join(words))
        act(self, *values)

    # ---- the header

    def sizes(self, lines: int, bridges: int = 0, processors: int = 1) -> None:
        if not (1 <= lines <= 32 and bridges <= 2 and 1 <= processors <= 8):
            raise Refused("an exchange has 1 to 32 lines, at most 2 bridges, and 1 to 8 processors")
        self.values = Values(lines)
        self.bridges = bridges
        self.trace.header(f"exchange 1 {lines} {bridges} {processors}")

    def processors(self, lines: int, processors: int) -> None:
        self.sizes(lines, 0, processors)

    def number_to_line(self, digits: str, line: int) -> None:
        self.number(digits, f"line {line}")

    def number_to_lines(self, digits: str, lines: Iterable[int]) -> None:
        self.number(digits, "lines " + " ".join(map(str, lines)))

    def number_to_room(self, digits: str, room: int) -> None:
        self.number(digits, f"room {room}")

    def number(self, digits: str, target: str) -> None:
        for other in self.numbers:
            if digits.startswith(other) or other.startswith(digits):
                raise Refused(f"number {digits} equals, begins or continues number {other}")
        if len(self.numbers) == MAX_NUMBERS:
            raise Refused(f"the exchange has more than {MAX_NUMBERS} numbers")
        self.numbers.append(digits)
        self.trace.header(f"number {digits} {target}")

    def ringing(self, file: str) -> None:
        self.tone("ringback", file)

    def busy(self, file: str) -> None:
        self.tone("busy", file)

    def tone(self, kind: str, file: str) -> None:
        if kind in self.tones:
            raise Refused("this tone is given already")
        octets = read_sound(self.folder / file)
        if not 1 <= len(octets) <= MAX_TONE_DIGITS // 2:
            raise Refused(f"{file} has {len(octets)} octets, and a tone has 1 to {MAX_TONE_DIGITS // 2}")
        self.tones.add(kind)
        self.trace.header(f"tone {kind} {octets.hex().upper()}")

    def timer(self, name: str, frames: int) -> None:
        if name in self.timers:
            raise Refused("this timer is given already")
        if frames == 0:
            raise Refused("a timer runs for at least one frame")
        self.timers.add(name)
        self.trace.header(f"timer {name} {frames}")

    # ---- calls

    def calls(self, who: Where, digits: str, caller: str | None = None) -> None:
        self.message(who, self.endpoints.call(who, digits, caller))

    def prefers(self, slot: Slot, digits: str) -> None:
        self.message(slot, self.endpoints.call(slot, digits, is_exclusive=False))

    def begins_to_dial(self, who: Where) -> None:
        self.message(who, self.endpoints.call(who))

    def dials(self, who: Where, digits: str, to_the_end: bool = False) -> None:
        self.message(who, self.endpoints.dial(who, digits, to_the_end))

    def dials_to_the_end(self, who: Where, digits: str) -> None:
        self.dials(who, digits, to_the_end=True)

    def proceeds(self, who: Where) -> None:
        self.message(who, self.endpoints.proceed(who))

    def alerts(self, who: Where) -> None:
        self.message(who, self.endpoints.alert(who))

    def answers(self, who: Where) -> None:
        self.message(who, self.endpoints.answer(who))

    def hangs_up(self, who: Where, cause: int = NORMAL_CALL_CLEARING) -> None:
        self.message(who, self.endpoints.hang_up(who, cause))

    def rejects(self, who: Where, cause: int = CALL_REJECTED) -> None:
        self.message(who, self.endpoints.reject(who, cause))

    def asks(self, who: Where) -> None:
        self.message(who, self.endpoints.ask(who))

    def restarts(self, who: Where) -> None:
        self.message(who, self.endpoints.restart(who))

    def sends(self, line: int, octets: bytes) -> None:
        self.message(line, octets)

    def falls_silent(self, line: int) -> None:
        self.endpoints.fall_silent(line)

    def recovers(self, line: int) -> None:
        self.endpoints.recover(line)

    def link_fails(self, line: int) -> None:
        self.endpoints.link_fails(line)
        self.changes(f"down {line}")

    def link_is_up(self, line: int) -> None:
        self.endpoints.link_is_up(line)
        self.changes(f"up {line}")

    def is_restarted(self, line: int) -> None:
        self.changes(f"restart {line}")

    def changes(self, text: str) -> None:
        """A change of a data link, or a restart of a line by the exchange, and, unless more happens at once, what comes of it."""
        self.trace.event(text)
        if self.block is None:
            answers = self.heard() if self.trace.has_messages else []
            self.trace.segment()
            self.talk(answers)

    def message(self, who: Where, octets: bytes) -> None:
        """A message from a line, and, unless more happens at once, what comes of it."""
        signal = Signal(place_of(who).line, octets)
        if self.block is None:
            self.talk([signal])
        else:
            self.send(signal)

    def send(self, signal: Signal) -> None:
        line, octets = signal
        self.trace.note(f"  line {line} sends {message_text(octets)}")
        self.trace.event(f"M {line} {octets.hex().upper()}".rstrip())

    def talk(self, waiting: list[Signal]) -> None:
        """Messages, what the exchange sends for them, and what the endpoints answer to that."""
        while waiting:
            self.send(waiting.pop(0))
            waiting += self.heard()
            self.trace.segment()

    def heard(self) -> list[Signal]:
        """What the endpoints answer to what the exchange has sent last."""
        answers: list[Signal] = []
        for to, sent in self.trace.sent():
            self.trace.note(f"  line {to} gets {message_text(sent)}")
            answer = self.endpoints.receive(to, sent)
            if answer is not None:
                answers.append(Signal(to, answer))
        return answers

    # ---- commands

    def joins(self, slot: Slot, room: int) -> None:
        if self.bridges == 0:
            raise Refused("the exchange has no bridge, and so no room: exchange 2 lines 1 bridge")
        self.command(f"seat {slot} {room}")

    def is_nailed(self, first: Slot, second: Slot) -> None:
        if first == second:
            raise Refused(f"{first} cannot be nailed to itself")
        self.command(f"nail {first} {second}")

    def is_freed(self, slot: Slot) -> None:
        self.command(f"free {slot}")

    def command(self, text: str) -> None:
        self.trace.event(text)
        if self.block is None:
            self.trace.segment()

    def meter_is_changed(self) -> None:
        if self.block is not None:
            raise Refused("a meter is changed between two segments, and what happens at once is one segment")
        self.trace.header("change")

    # ---- frames

    def speaks(self, slot: Slot, file: str) -> None:
        self.sounds[slot] = read_sound(self.folder / file)

    def is_silent(self, slot: Slot) -> None:
        self.sounds.pop(slot, None)

    def frames_pass(self, count: int) -> None:
        """Frames. Where the exchange sends something in one of them, the endpoints answer before the next."""
        self.trace.check_room(count)
        if self.block is not None:
            self.frames(count)
            return
        while count:
            passing = self.trace.quiet_frames(count)
            self.frames(passing)
            answers = self.heard() if self.trace.has_messages else []
            self.trace.segment()
            self.talk(answers)
            count -= passing

    def frames(self, count: int) -> None:
        for at in range(count):
            parts = [f" {line}:{octets.hex().upper()}" for line, octets in sorted(self.frame(at).items())]
            self.trace.event("F" + "".join(parts), asked="F")
        self.sounds = {slot: sound[count:] for slot, sound in self.sounds.items() if len(sound) > count}

    def frame(self, at: int) -> dict[int, bytearray]:
        """The octets of each line on which something is said, n frames from here."""
        lines: dict[int, bytearray] = {}
        for slot, sound in self.sounds.items():
            place = place_of_channel(slot.channel)
            if at < len(sound) and place is not None:
                lines.setdefault(slot.line, bytearray([IDLE] * PLACES))[place] = sound[at]
        return lines

    def sounds_end(self) -> None:
        if not self.sounds:
            raise Refused("nobody speaks")
        self.frames_pass(max(map(len, self.sounds.values())))


SETTINGS = (Script.number_to_line, Script.number_to_lines, Script.number_to_room, Script.ringing, Script.busy, Script.timer)

ACTS: dict[str, Act] = {
    "exchange COUNT line|lines": Script.sizes,
    "exchange COUNT line|lines COUNT bridge|bridges": Script.sizes,
    "exchange COUNT line|lines COUNT processor|processors": Script.processors,
    "exchange COUNT line|lines COUNT bridge|bridges COUNT processor|processors": Script.sizes,
    "number DIGITS leads to line LINE": Script.number_to_line,
    "number DIGITS leads to lines LIST": Script.number_to_lines,
    "number DIGITS leads to room ROOM": Script.number_to_room,
    "ringing tone from FILE": Script.ringing,
    "busy tone from FILE": Script.busy,
    "timer TIMER runs COUNT frame|frames": Script.timer,
    "WHO calls DIGITS": Script.calls,
    "WHO calls DIGITS as DIGITS": Script.calls,
    "line LINE prefers channel CHANNEL and calls DIGITS": Script.prefers,
    "WHO begins to dial": Script.begins_to_dial,
    "WHO dials DIGITS": Script.dials,
    "WHO dials DIGITS to the end": Script.dials_to_the_end,
    "WHO proceeds": Script.proceeds,
    "WHO alerts": Script.alerts,
    "WHO answers": Script.answers,
    "WHO hangs up": Script.hangs_up,
    "WHO hangs up with CAUSE": Script.hangs_up,
    "WHO rejects": Script.rejects,
    "WHO rejects with CAUSE": Script.rejects,
    "WHO asks for its state": Script.asks,
    "WHO restarts": Script.restarts,
    "line LINE falls silent": Script.falls_silent,
    "line LINE recovers": Script.recovers,
    "line LINE sends HEX": Script.sends,
    "the link of line LINE fails": Script.link_fails,
    "the link of line LINE is up": Script.link_is_up,
    "line LINE is restarted": Script.is_restarted,
    "AT joins room ROOM": Script.joins,
    "AT is nailed to AT": Script.is_nailed,
    "AT is freed": Script.is_freed,
    "AT speaks from FILE": Script.speaks,
    "AT is silent": Script.is_silent,
    "COUNT frame|frames pass|passes": Script.frames_pass,
    "frames pass until the sounds end": Script.sounds_end,
    "a meter is changed": Script.meter_is_changed,
    "at once:": Script.at_once,
}
