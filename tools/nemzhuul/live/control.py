"""The console of a running exchange: a socket on which operators give commands, each a line, and get answers.

An answer is lines, and then `ok`, or `refused WHY`. A command that changes something is an event of the exchange: it is in
the log, and the answer is its line of the report. One command is carried out in a period, whoever gives it.
"""

from __future__ import annotations

import socket
from collections import deque
from collections.abc import Sequence
from functools import partial
from typing import Callable, NamedTuple

from nemzhuul.command_line import NAME, Refused, say
from nemzhuul.live.processes import Loop
from nemzhuul.live.shows import SHOWS, shown
from nemzhuul.live.snapshots import Snapshot
from nemzhuul.live.wire import Address, receive
from nemzhuul.traces.events import Event, Free, Nail, Restart, Seat, Slot
from nemzhuul.traces.phrases import Act, Phrases, Values

MODE = 0o600  # only the owner of the socket gives commands
MAX_CONSOLES = 8
MAX_COMMAND = 256  # octets of a line
OK, REFUSED = "ok", "refused"
ENDS = "the exchange ends"

HELP = {
    "show calls": "the calls in progress, and how many there were",
    "show lines": "the lines, with a letter for each channel",
    "show links": "the data links",
    "show fabric": "live paths, moved paths, the fullest line",
    "show late": "the frames that came late",
    "show rooms": "the members of conference rooms",
    "show nails": "the slots that are nailed",
    "nail L/C L/C": "connects two slots, both ways",
    "seat L/C ROOM": "makes a slot a member of a room",
    "free L/C": "releases the nail or the seat of a slot",
    "restart L": "ends the calls of a line, and sends its user RESTART",
    "help": "this list",
    "quit": "ends the console, and not the exchange",
}
UNCHANGED = {
    "busy": "a slot is not idle",
    "noport": "the bridges have no idle port",
    "notnailed": "the slot has no nail and no seat",
}  # the replies to commands that changed nothing
REPLIES = frozenset(word.encode() for word in ("granted", "seated", "freed", *UNCHANGED))
NUMBERS_COME_FIRST = "the exchange takes numbers only before its first event, so in the settings with which it begins"


class Desk(NamedTuple):
    """What the commands look at and change."""

    lines: int
    snapshot: Callable[[], Snapshot]
    give: Callable[[Event, str], None]  # gives the exchange an event, whose line this is


class Console:
    """The connection of an operator, and the commands."""

    def __init__(self, connection: socket.socket, desk: Desk) -> None:
        self.connection = connection
        self.begun = b""  # the commands that were not carried out, and a part of one
        self.unsent = bytearray()
        self.is_waiting = False  # for the reply to its command
        self.has_ended = False
        self.desk = desk
        acts: dict[str, Act] = {f"show {what}": partial(self._show, what) for what in SHOWS}
        acts |= {"nail AT AT": self._nail, "seat AT ROOM": self._seat, "free AT": self._free, "restart LINE": self._restart}
        self.phrases = Phrases({**acts, "help": self._help, "quit": self._quit})

    @property
    def is_ready(self) -> bool:
        """Whether a command can be carried out: until its answer is read, no other one is."""
        has_command = b"\n" in self.begun or len(self.begun) > MAX_COMMAND
        return has_command and not (self.is_waiting or self.has_ended or self.unsent)

    def carry_out(self) -> None:
        """Carries out the next command."""
        line, end, self.begun = self.begun.partition(b"\n")
        if len(line) > MAX_COMMAND:
            self.end(f"a command has at most {MAX_COMMAND} octets")
            return
        words = "".join(chr(octet) if 0x20 <= octet <= 0x7E else f"\\x{octet:02x}" for octet in line).split()
        try:
            if words[:1] == ["number"]:
                raise Refused(NUMBERS_COME_FIRST)
            act, names = self.phrases.read(words or ["help"])
            act(*Values(self.desk.lines).read(names))
        except Refused as refusal:
            self.answer([], str(refusal))

    def take(self, reply: str) -> None:
        """Takes the line of the report for the command that it waits for."""
        self.is_waiting = False
        self.answer([reply], UNCHANGED.get(reply.split(" ")[1]))

    def answer(self, lines: Sequence[str], why: str | None = None) -> None:
        """Answers a command, which is refused if there is a reason."""
        last = OK if why is None else f"{REFUSED} {why}"
        self.unsent += "".join(f"{line}\n" for line in (*lines, last)).encode("utf-8", "backslashreplace")

    def end(self, why: str | None = None) -> None:
        """Answers that it ends."""
        self.answer([], why)
        self.has_ended = True

    def _show(self, what: str) -> None:
        self.answer(shown(what, self.desk.snapshot()))

    def _help(self) -> None:
        width = max(map(len, HELP))
        self.answer([f"{command:<{width}}  {meaning}" for command, meaning in HELP.items()])

    def _quit(self) -> None:
        self.end()

    def _nail(self, first: Slot, second: Slot) -> None:
        if first == second:
            raise Refused("a slot is nailed to another one")
        self._give(Nail(first, second), f"nail {first} {second}")

    def _seat(self, slot: Slot, room: int) -> None:
        self._give(Seat(slot, room), f"seat {slot} {room}")

    def _free(self, slot: Slot) -> None:
        self._give(Free(slot), f"free {slot}")

    def _restart(self, line: int) -> None:
        self._give(Restart(line), f"restart {line}")

    def _give(self, event: Event, line: str) -> None:
        self.is_waiting = True
        self.desk.give(event, line)


class Control:
    """The socket of the console, and its connections."""

    def __init__(self, address: Address, loop: Loop, desk: Desk) -> None:
        if address.path is None:
            raise Refused(f"{address.word} is no address of a console: it is unix:PATH")
        self.loop, self.desk = loop, desk
        self.listener = address.listen(mode=MODE)
        self.listener.sock.setblocking(False)
        self.consoles: list[Console] = []
        self.ready: deque[Console] = deque()  # by turns, those with a command
        self.asked: deque[Console] = deque()  # whose commands have no replies so far

    def open(self) -> None:
        self.loop.watch(self.listener.sock, self._accept)
        say(f"{NAME}: the console listens on {self.listener.place}")

    def close(self) -> None:
        """Says to each operator that the exchange ends."""
        for console in list(self.consoles):
            console.end(ENDS)
            self._write(console)
        self.listener.close()

    def work(self) -> None:
        """Carries out a command, if there is one."""
        while self.ready:
            console = self.ready.popleft()
            if console in self.consoles and console.is_ready:
                console.carry_out()
                if console.is_waiting:
                    self.asked.append(console)
                self._write(console)
                return

    def take(self, reply: bytes) -> None:
        """Takes the reply to a command of an operator, or to one of the settings."""
        if self.asked:
            console = self.asked.popleft()
            console.take(reply.decode("latin-1"))
            self._write(console)

    def _accept(self) -> None:
        try:
            connection, _ = self.listener.sock.accept()
        except OSError:  # it has gone again
            return
        connection.setblocking(False)
        console = Console(connection, self.desk)
        self.consoles.append(console)
        if len(self.consoles) > MAX_CONSOLES:
            console.end(f"there are {MAX_CONSOLES} consoles already")
        self._write(console)

    def _read(self, console: Console) -> None:
        text = receive(console.connection, MAX_COMMAND)
        if text:
            console.begun += text
            self._watch(console)
        elif text is not None:
            self._leave(console)

    def _write(self, console: Console) -> None:
        if console not in self.consoles:
            return
        try:
            if console.unsent:
                del console.unsent[: console.connection.send(console.unsent)]
        except BlockingIOError:
            pass
        except OSError:
            self._leave(console)
            return
        self._watch(console)

    def _watch(self, console: Console) -> None:
        """Waits for a command; or has it carried out, if it is there; or waits until the answer is read."""
        if console.has_ended and not console.unsent:
            self._leave(console)
            return
        if console.is_ready and console not in self.ready:
            self.ready.append(console)
        reads = not (console.is_ready or console.is_waiting or console.has_ended or console.unsent)
        self.loop.watch(
            console.connection,
            partial(self._read, console) if reads else None,
            partial(self._write, console) if console.unsent else None,
        )

    def _leave(self, console: Console) -> None:
        """A connection ends. A command that waits for its reply has its effect."""
        self.consoles.remove(console)
        self.loop.watch(console.connection)
        console.connection.close()
