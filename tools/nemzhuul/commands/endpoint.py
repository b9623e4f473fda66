"""An endpoint on a line of a running exchange: it calls, answers, speaks and records as the lines of a script say."""

from __future__ import annotations

import functools
import os
import select
from collections.abc import Callable, Collection, Iterable, Iterator
from pathlib import Path
from typing import NamedTuple

from nemzhuul.command_line import Refused, WrongWords, write_output
from nemzhuul.live import load
from nemzhuul.live.wire import FRAMES, PIECE, Address, frames_text, octets_of, read_address, receive
from nemzhuul.outputs import Output, is_same_file
from nemzhuul.programs.program import TEXT
from nemzhuul.signalling.endpoints import (
    CALLS,
    CLEARS,
    DIALS,
    IS_CALLED,
    PROCEEDS,
    RELEASES,
    STANDING,
    TALKS,
    UNANSWERED,
    Endpoints,
    Leg,
    Where,
    place_of,
)
from nemzhuul.signalling.q931 import CALL_REJECTED, NORMAL_CALL_CLEARING, cause_text, message_text, read_message
from nemzhuul.sound.wave import a_law_wave, read_sound
from nemzhuul.traces.events import FRAMES_PER_SECOND, IDLE, PLACES, place_of_channel
from nemzhuul.traces.phrases import Act, Phrases, Values

USAGE = """usage: tools/endpoint [--overwrite] ADDRESS [SCRIPT]
       tools/endpoint --calls N --rate R [--holding S] [--patience S] [--answer N] ADDRESS DIGITS
       tools/endpoint --answer N ADDRESS
attaches to the line of tools/attach at ADDRESS, unix:PATH or tcp:HOST:PORT, and does in turn what each line of the file
SCRIPT, or of standard input, says. `channel C` may be in front of any of them:
    calls DIGITS [as DIGITS]                  hangs up [with CAUSE]
    begins to dial                            dials DIGITS [to the end]
    proceeds, alerts, answers                 rejects [with CAUSE]
    asks for its state, restarts              sends HEX
    speaks from WAV, is silent                records to WAV, stops recording
    is called, is answered, is cleared        (it waits until that is so)
    N frames pass                             frames pass until the sounds end
It waits too if there is no call to do it with yet. It prints each message. A recording ends with its call. A sound has
8,000 samples a second of A-law or 16 bits, and a recording is A-law; both are looked for beside SCRIPT. A recording
does not replace a file that has content, unless --overwrite is given.
With --calls or --answer it loads the exchange, and answers each call that comes. At the end it prints how many of the
calls that it placed were offered, answered and refused by cause, and the least, median and most time from SETUP to
CONNECT. The status is 3 if a call was not answered, was cut, or was not released.
    --calls N        places N calls to DIGITS
    --rate R         begins R calls a second
    --holding S      clears a call S seconds after its answer (1)
    --patience S     gives a call or its clearing up if the exchange does not go on with it for S seconds (10)
    --answer N       ends only after N calls have come, and each of them is over"""

LEAD = FRAMES_PER_SECOND // 5  # frames that are sent before their time, so that this process may be late


class Recording(NamedTuple):
    """What a place is sent: where it is written, the octets so far, and the leg of a call that has the place."""

    output: Output
    octets: bytearray
    leg: Leg | None


def main(*words: str) -> str:
    if words and words[0] in load.LIMITS:
        return load.main(*words)
    may_overwrite = words[:1] == ("--overwrite",)
    words = words[may_overwrite:]
    if len(words) not in (1, 2) or words[0].startswith("-"):
        raise WrongWords
    address, *script = words
    endpoint = Endpoint(read_address(address), script[0] if script else None, may_overwrite)
    try:
        endpoint.run()
    finally:
        endpoint.save(list(endpoint.recordings))
    return ""


class OneLine(Values):
    """The values of phrases on the only line that the endpoint has."""

    def __init__(self, line: int) -> None:
        super().__init__(line + 1)
        self.own = line

    def line(self, word: str) -> int:
        if int(word) != self.own:
            raise Refused(f"this is the endpoint of line {self.own}")
        return self.own


class Endpoint:
    """The endpoint of a line, with its calls, its sounds and its recordings."""

    def __init__(self, address: Address, script: str | None = None, may_overwrite: bool = False) -> None:
        self.may_overwrite = may_overwrite
        self.name = script or "standard input"
        self.folder = Path(script).parent if script else Path()
        self.script = os.open(script, os.O_RDONLY) if script else 0
        self.connection = address.connect()
        self.connection.setblocking(False)
        self.unsent = bytearray()
        self.begun = b""
        self.number: int | None = None  # of its line, once the exchange has said it
        self.calls_of_line = Endpoints()
        self.cause: int | None = None  # the last one that the exchange sent
        self.gets_frames = False
        self.heard = 0  # frames
        self.lead = 0  # frames that were sent before their time
        self.sounds: dict[int, memoryview] = {}  # by place, the octets that are still to be sent
        self.read_sound = functools.lru_cache(read_sound)
        self.recordings: dict[int, Recording] = {}  # by place

    @property
    def line(self) -> int:
        """The number of its line. The exchange says it before anything else."""
        assert self.number is not None
        return self.number

    def run(self) -> None:
        phrases = Phrases(ACTS)
        self.wait(lambda: self.number is not None)
        for number, text in enumerate(self.texts(), start=1):
            try:
                self.take(phrases, text)
            except Refused as refusal:
                raise Refused(f"{self.name}: line {number}: {refusal}") from None
            except OSError as error:
                raise Refused(f"{self.name}: line {number}: {error.filename} cannot be read: {error.strerror}") from None
        self.wait(lambda: not (self.unsent or self.legs(self.line, (CLEARS, RELEASES))))

    def texts(self) -> Iterator[str]:
        """The lines of the script, as they come. The line of the exchange is served meanwhile."""
        begun = b""
        while True:
            self.wait(lambda: False, self.script)
            text = os.read(self.script, PIECE)
            *whole, begun = (begun + text).split(b"\n")
            if not text and begun:
                whole.append(begun)
            yield from (line.decode(*TEXT) for line in whole)
            if not text:
                return

    def take(self, phrases: Phrases, text: str) -> None:
        words = text.split()
        if not words or words[0].startswith("#"):
            return
        self.say("# " + " ".join(words))
        if words[0] not in ("line", "frames") and not words[0][0].isdecimal():
            words = ["line", str(self.line), *words]
        act, names = phrases.read(words)
        act(self, *OneLine(self.line).read(names))

    @staticmethod
    def say(text: str) -> None:
        write_output(f"{text}\n")

    # ---- the socket

    def wait(self, is_met: Callable[[], bool], other: int | None = None) -> None:
        """Serves the line until a condition is met, or until there is something to read at another end."""
        while not is_met():
            reads = [self.connection.fileno()] if other is None else [self.connection.fileno(), other]
            ready, writable, _ = select.select(reads, reads[:1] if self.unsent else [], [])
            if writable:
                self.send(b"")
            if reads[0] in ready:
                self.receive()
            if other is not None and other in ready:
                return

    def send(self, text: bytes) -> None:
        self.unsent += text
        try:
            del self.unsent[: self.connection.send(self.unsent)]
        except BlockingIOError:
            pass
        except OSError:  # what was received says why
            self.receive()

    def receive(self) -> None:
        text = receive(self.connection)
        if text is None:
            return
        if not text:
            raise Refused("the exchange has closed the line")
        whole, feed, self.begun = (self.begun + text).rpartition(b"\n")
        at, whole = 0, whole + feed
        while at < len(whole):
            frames = FRAMES.match(whole, at)
            end = frames.end() if frames else whole.index(b"\n", at) + 1
            if frames:
                self.hear(octets_of(frames.group()))
            else:
                self.get(whole[at : end - 1].decode())
            at = end

    def get(self, text: str) -> None:
        word, _, rest = text.partition(" ")
        if word == "line":
            self.number = int(rest)
        elif word == "refused":
            raise Refused(f"the exchange has closed the line: {rest}")
        elif word == "M":
            self.get_message(bytes.fromhex(rest))

    # ---- messages

    def message(self, octets: bytes) -> None:
        self.say(f"line {self.line} sends {message_text(octets)}")
        self.send(f"M {octets.hex().upper()}\n".encode())

    def get_message(self, octets: bytes) -> None:
        self.say(f"line {self.line} gets {message_text(octets)}")
        message = read_message(octets)
        self.cause = (message and message.cause) or self.cause
        reply = self.calls_of_line.receive(self.line, octets)
        if reply is not None:
            self.message(reply)
        over = [place for place, (_, _, leg) in self.recordings.items() if leg is not None and leg.state != TALKS]
        self.save(over)

    def legs(self, who: Where, states: Collection[str]) -> list[Leg]:
        channel = place_of(who).channel
        return [leg for leg in self.calls_of_line.legs if leg.state in states and channel in (None, leg.channel)]

    def when(self, who: Where, *states: str) -> None:
        """Waits for a call that is in one of these states."""
        self.wait(lambda: bool(self.legs(who, states)))

    def calls(self, who: Where, digits: str, caller: str | None = None) -> None:
        self.message(self.calls_of_line.call(who, digits, caller))

    def begins_to_dial(self, who: Where) -> None:
        self.message(self.calls_of_line.call(who))

    def dials(self, who: Where, digits: str, to_the_end: bool = False) -> None:
        self.when(who, DIALS)
        self.message(self.calls_of_line.dial(who, digits, to_the_end))

    def dials_to_the_end(self, who: Where, digits: str) -> None:
        self.dials(who, digits, to_the_end=True)

    def is_called(self, who: Where) -> None:
        self.when(who, *UNANSWERED)

    def proceeds(self, who: Where) -> None:
        self.when(who, IS_CALLED)
        self.message(self.calls_of_line.proceed(who))

    def alerts(self, who: Where) -> None:
        self.when(who, IS_CALLED, PROCEEDS)
        self.message(self.calls_of_line.alert(who))

    def answers(self, who: Where) -> None:
        self.when(who, *UNANSWERED)
        self.message(self.calls_of_line.answer(who))

    def rejects(self, who: Where, cause: int = CALL_REJECTED) -> None:
        self.when(who, IS_CALLED)
        self.message(self.calls_of_line.reject(who, cause))

    def is_answered(self, who: Where) -> None:
        self.wait(lambda: bool(self.legs(who, (TALKS,))) or not self.legs(who, (CALLS, DIALS)))
        if not self.legs(who, (TALKS,)):
            raise Refused("there is no call" + ("" if self.cause is None else f": {cause_text(self.cause)}"))

    def is_cleared(self, who: Where) -> None:
        self.wait(lambda: not self.legs(who, STANDING))

    def hangs_up(self, who: Where, cause: int = NORMAL_CALL_CLEARING) -> None:
        self.message(self.calls_of_line.hang_up(who, cause))

    def asks(self, who: Where) -> None:
        self.message(self.calls_of_line.ask(who))

    def restarts(self, who: Where) -> None:
        self.message(self.calls_of_line.restart(who))

    def sends(self, who: Where, octets: bytes) -> None:
        self.message(octets)

    # ---- frames

    def place(self, who: Where) -> int:
        """The place of a channel; without one, it is the channel of the only call that is answered."""
        channel = place_of(who).channel
        if channel is None:
            self.when(who, TALKS)
            channel = self.calls_of_line.find(who, (TALKS,), "that is answered").channel
        place = None if channel is None else place_of_channel(channel)
        if place is None:
            raise Refused("the call has no channel")
        return place

    def speaks(self, who: Where, file: str) -> None:
        sound = self.read_sound(self.folder / file)  # before the call is there, since it takes long
        self.sounds[self.place(who)] = memoryview(sound)
        self.speak()

    def is_silent(self, who: Where) -> None:
        self.sounds.pop(self.place(who), None)

    def records(self, who: Where, file: str) -> None:
        place = self.place(who)
        talking = self.legs(self.line, (TALKS,))
        leg = next((leg for leg in talking if leg.channel is not None and place_of_channel(leg.channel) == place), None)
        self.save([place])
        self.recordings[place] = Recording(self.output(self.folder / file), bytearray(), leg)
        self.listen()

    def output(self, path: Path) -> Output:
        """The file of a recording, which is refused before the recording begins if its script is there, or other content."""
        if self.script and is_same_file(path, self.name):
            raise Refused(f"{path} cannot be both the script and a recording")
        return Output(path, self.may_overwrite)

    def stops(self, who: Where) -> None:
        self.save([self.place(who)])

    def frames_pass(self, count: int) -> None:
        self.listen()
        end = self.heard + count
        self.wait(lambda: self.heard >= end)

    def sounds_end(self) -> None:
        self.wait(lambda: not (self.sounds or self.lead))

    def listen(self) -> None:
        if not self.gets_frames:
            self.gets_frames = True
            self.send(b"F none\n")

    def hear(self, octets: bytes) -> None:
        """The octets of some frames. As many more may be sent."""
        count = len(octets) // PLACES
        self.heard += count
        for place, recording in self.recordings.items():
            recording.octets.extend(octets[place::PLACES])
        self.lead = max(0, self.lead - count)
        self.speak()

    def speak(self) -> None:
        """Sends the next frames of the sounds; after the last one, none."""
        while self.sounds and self.lead < LEAD:
            count = min(LEAD - self.lead, max(map(len, self.sounds.values())))
            octets = bytearray([IDLE]) * (count * PLACES)
            for place, sound in self.sounds.items():
                octets[place::PLACES] = bytes(sound[:count]).ljust(count, bytes([IDLE]))
            self.sounds = {place: sound[count:] for place, sound in self.sounds.items() if len(sound) > count}
            self.lead += count
            self.gets_frames = True
            self.send(frames_text(octets) + (b"" if self.sounds else b"F none\n"))

    def save(self, places: Iterable[int]) -> None:
        for place in places:
            recording = self.recordings.pop(place, None)
            if recording is None:
                continue
            output, octets, _ = recording
            if octets:
                output.begin()
                output.write(a_law_wave([octets]))
                self.say(f"line {self.line} recorded {len(octets)} frames to {output.path}")
            output.close()


ACTS: dict[str, Act] = {
    "WHO calls DIGITS": Endpoint.calls,
    "WHO calls DIGITS as DIGITS": Endpoint.calls,
    "WHO begins to dial": Endpoint.begins_to_dial,
    "WHO dials DIGITS": Endpoint.dials,
    "WHO dials DIGITS to the end": Endpoint.dials_to_the_end,
    "WHO is called": Endpoint.is_called,
    "WHO proceeds": Endpoint.proceeds,
    "WHO alerts": Endpoint.alerts,
    "WHO answers": Endpoint.answers,
    "WHO rejects": Endpoint.rejects,
    "WHO rejects with CAUSE": Endpoint.rejects,
    "WHO is answered": Endpoint.is_answered,
    "WHO is cleared": Endpoint.is_cleared,
    "WHO hangs up": Endpoint.hangs_up,
    "WHO hangs up with CAUSE": Endpoint.hangs_up,
    "WHO asks for its state": Endpoint.asks,
    "WHO restarts": Endpoint.restarts,
    "WHO sends HEX": Endpoint.sends,
    "WHO speaks from FILE": Endpoint.speaks,
    "WHO is silent": Endpoint.is_silent,
    "WHO records to FILE": Endpoint.records,
    "WHO stops recording": Endpoint.stops,
    "COUNT frame|frames pass|passes": Endpoint.frames_pass,
    "frames pass until the sounds end": Endpoint.sounds_end,
}
