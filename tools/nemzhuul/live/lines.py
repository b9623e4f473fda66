"""A line of a running exchange: the queues of what its endpoint sent, and the socket of its endpoint.

A line with a data link has a D channel, which is another socket. Each datagram there is a frame with two octets of check
sequence at its end, in both directions, as a driver of a D channel has it.
"""

from __future__ import annotations

import enum
import select
import socket
from collections import deque
from collections.abc import Iterator
from typing import Union

from nemzhuul.command_line import NAME, Refused, say
from nemzhuul.live.processes import Loop
from nemzhuul.live.states import LinkState
from nemzhuul.live.wire import FRAMES, IDLE_ROW, MAX_LINE, MESSAGE, NO_FRAMES, Address, receive, without_delay
from nemzhuul.signalling.lapd import FCS, MAX_FRAME, check_sequence
from nemzhuul.signalling.q931 import RESTART, restart_indicator, write_message

AHEAD = 8_000  # frames and messages in a queue from which on its endpoint is not read
MAX_MESSAGES = 64  # of a line in a period, so that no endpoint delays the others; the rest waits
MAX_WAITING = 8_000  # messages in a queue, after which its endpoint is treated as one that does not read
MAX_UNREAD = 1 << 23  # octets that an endpoint may leave unread: 16 seconds of frames
MAX_LINK_FRAMES = 256  # in the queue of a D channel, from which on its endpoint is not read
ENDS = b"the exchange ends"  # the last line that an endpoint gets
DATAGRAM = 4096  # octets that are read of a datagram, of which fewer are used

SHUT_DOWN = write_message(0, 0, RESTART, restart_indicator(is_whole_line=True)).hex().upper().encode()


class Mark(enum.Enum):
    """A mark in a queue."""

    SILENCE = "no octets from there on"
    GONE = "no endpoint from there on"


Item = Union[list[bytes], Mark]  # of a queue: frames, or a mark


class Port:
    """A socket on which a line listens for one endpoint at a time. `loop.watch` waits until a socket can be read or written."""

    def __init__(self, number: int, address: Address, loop: Loop, kind: int = socket.SOCK_STREAM) -> None:
        self.number = number
        self.loop = loop
        self.listener = address.listen(kind)
        self.listener.sock.setblocking(False)
        self.endpoint: socket.socket | None = None

    def open(self) -> None:
        """Accepts an endpoint."""
        self.loop.watch(self.listener.sock, self.accept)

    def accept(self) -> None:
        """Takes an endpoint that has come. While it is there, no other one is taken."""
        try:
            connection, _ = self.listener.sock.accept()
        except OSError:  # it has gone again
            return
        connection.setblocking(False)
        if self.endpoint is None:
            self.attach(connection)
        else:
            self.turn_away(connection)

    def attach(self, connection: socket.socket) -> None:
        raise NotImplementedError

    def turn_away(self, connection: socket.socket) -> None:
        raise NotImplementedError

    def watch(self) -> None:
        raise NotImplementedError

    def close(self) -> None:
        if self.endpoint is not None:
            self.endpoint.close()
        self.listener.close()

    def say(self, text: str) -> None:
        say(f"{NAME}: line {self.number}: {text}")


class Line(Port):
    """A line with a socket on which it listens for its endpoint.

    Its queue has lists of frames, and marks, in the order in which the endpoint sent them. A frame there is the part of
    a trace line, ` L:HEX`. Messages have a separate queue, as a D channel does not wait for the bearer channels. If the
    line has a data link, its messages come over that.
    """

    def __init__(self, number: int, address: Address, loop: Loop, has_link: bool = False) -> None:
        super().__init__(number, address, loop)
        self.key = b"%d" % number
        self.has_link = has_link
        self.queue: deque[Item] = deque()  # what the endpoint sent, except messages
        self.waiting: deque[bytes] = deque()  # messages
        self.queued = 0  # frames and messages
        self.left = 0  # messages that may still be taken in this period
        self.begun = b""  # the line that the endpoint has sent a part of
        self.unsent = bytearray()  # what the endpoint's socket did not take yet
        self.due: list[bytes] = []  # lines for the endpoint, without their ends
        self.is_speaking = False  # it sends octets
        self.has_lead = False  # it sent octets before this period: a frame that is not there is late, and not delayed
        self.is_listening = False  # it gets octets
        self.messages = self.frames = self.late = 0  # how many were taken, and how many frames were not there in time
        self.owed = 0  # late frames, which are left out when they come: the line was idle in their time
        self.is_new = False  # its first endpoint gets nothing before its RESTART
        self.say(f"listens on {self.listener.place}")

    # ---- its endpoint

    def attach(self, connection: socket.socket) -> None:
        self.endpoint = without_delay(connection)
        self.say("an endpoint is attached")
        if not self.is_new:
            self.greet()
            self.send()
        self.watch()

    def greet(self) -> None:
        """Says to the endpoint which line it has."""
        self.is_new = False
        if self.endpoint is not None:
            self.due.append(b"line %d" % self.number)

    @property
    def is_served(self) -> bool:
        """Whether an endpoint gets what the exchange sends."""
        return self.endpoint is not None and not self.is_new

    def turn_away(self, connection: socket.socket) -> None:
        self.refuse(connection, f"line {self.number} has an endpoint already")

    def watch(self) -> None:
        """Waits for the endpoint; if its queue is long, it is not read."""
        if self.endpoint is not None:
            can_read = self.queued < AHEAD
            self.loop.watch(self.endpoint, self.receive if can_read else None, self.write if self.unsent else None)

    def receive(self) -> None:
        text = None if self.endpoint is None else receive(self.endpoint)
        if text is None:
            return
        if not text:
            self.leave("has gone")
            return
        whole, end, self.begun = (self.begun + text).rpartition(b"\n")
        try:
            self.take(whole + end)
            if len(self.begun) > MAX_LINE:
                raise Refused(f"a line has at most {MAX_LINE} octets")
        except Refused as refusal:
            self.leave(f"is refused: {refusal}", refusal)
        if len(self.waiting) > MAX_WAITING and self.endpoint is not None:
            self.leave(f"has sent more than {MAX_WAITING} messages that wait")
        self.watch()

    def send(self) -> None:
        """Sends the lines that are due."""
        if self.due and self.endpoint is not None:
            self.unsent += b"\n".join(self.due) + b"\n"
            self.write()
        self.due.clear()

    def write(self) -> None:
        try:
            if self.endpoint is not None:
                del self.unsent[: self.endpoint.send(self.unsent)]
        except BlockingIOError:
            pass
        except OSError:
            self.leave("has gone")
        if len(self.unsent) > MAX_UNREAD:
            self.leave("does not read")
        self.watch()

    def part(self) -> None:
        """Says to the endpoint that the exchange ends."""
        if self.endpoint is not None:
            self.due.append(b"refused " + ENDS)
            self.send()

    def leave(self, why: str, refusal: Refused | None = None) -> None:
        """The endpoint goes. The next one is accepted when what it sent has taken effect, and the restart of the line."""
        gone, self.endpoint = self.endpoint, None
        if gone is None:
            return
        self.say(f"its endpoint {why}")
        self.loop.watch(gone)
        self.loop.watch(self.listener.sock)
        if refusal is None:
            gone.close()
        else:
            self.refuse(gone, refusal)
        self.queue.append(Mark.GONE)
        self.is_listening = False
        self.begun = b""
        self.unsent.clear()

    def refuse(self, connection: socket.socket, why: object) -> None:
        """Says why an endpoint is refused, and reads until it has gone: else what it sent could undo the line."""

        def drain() -> None:
            if not receive(connection):
                self.loop.watch(connection)
                connection.close()

        try:
            connection.send(f"refused {why}\n".encode())
            connection.shutdown(socket.SHUT_WR)
        except OSError:
            pass
        self.loop.watch(connection, drain)

    # ---- what its endpoint sends

    def take(self, text: bytes) -> None:
        """Appends whole lines to the queue."""
        at = 0
        while at < len(text):
            frames = FRAMES.match(text, at)
            if frames:
                self.take_frames(frames.group())
                at = frames.end()
            else:
                end = text.index(b"\n", at)
                self.take_line(text[at:end].rstrip(b" \r"))
                at = end + 1

    def take_frames(self, text: bytes) -> None:
        rows = text.replace(b"F ", b" %d:" % self.number).split(b"\n")
        rows.pop()
        self.is_listening = True
        left_out = min(self.owed, len(rows))
        self.owed -= left_out
        if left_out == len(rows):
            return
        last = self.queue[-1] if self.queue else None
        if isinstance(last, list):
            last += rows[left_out:]
        else:
            self.queue.append(rows[left_out:])
        self.queued += len(rows) - left_out

    def take_line(self, text: bytes) -> None:
        message = MESSAGE.fullmatch(text)
        if message and self.has_link:
            raise Refused(f"line {self.number} has a data link, over which its messages come")
        if message:
            self.waiting.append(message.group(1))
            self.queued += 1
        elif text == NO_FRAMES:
            self.owed = 0
            self.queue.append(Mark.SILENCE)
            self.is_listening = True
        elif FRAMES.fullmatch(text + b"\n"):
            self.take_frames(text + b"\n")
        else:
            begun = text[:40].decode("ascii", "backslashreplace")
            raise Refused(f'"{begun}" is not `M HEX`, `F HEX` with 60 digits, or `F none`')

    # ---- what the exchange gets

    def begin_period(self) -> None:
        """A period of frames begins. An endpoint's lead is settled in the first period in which it sends octets."""
        self.left = MAX_MESSAGES
        self.has_lead = self.is_speaking

    def messages_due(self) -> Iterator[bytes]:
        """Takes the messages that have come, before frames that were sent earlier, and the marks before the next frame.

        A shutdown of the line, which comes last, is a message too, if it has no data link.
        """
        while self.waiting and self.left:
            self.queued -= 1
            self.left -= 1
            self.messages += 1
            yield self.waiting.popleft()
        while self.queue and isinstance(self.queue[0], Mark):
            if self.queue[0] is Mark.GONE and self.waiting:
                return
            mark = self.queue.popleft()
            self.is_speaking = self.has_lead = False
            self.owed = 0
            if mark is Mark.GONE and self.has_link:
                self.open()
            elif mark is Mark.GONE:
                yield SHUT_DOWN

    def frames_before_mark(self) -> int | None:
        """How many frames come before the next mark; None if none is there."""
        first = self.queue[0] if len(self.queue) > 1 else None
        return len(first) if isinstance(first, list) else None

    def column(self, count: int) -> list[bytes]:
        """Takes the parts of the next frames; an idle frame has none."""
        rows: list[bytes] = []
        first = self.queue[0] if self.queue else None
        if isinstance(first, list):
            rows, rest = first[:count], first[count:]
            if rest:
                self.queue[0] = rest
            else:
                self.queue.popleft()
            self.is_speaking = True
        self.queued -= len(rows)
        self.frames += len(rows)
        missing = count - len(rows)
        if self.is_speaking:
            self.late += missing
        if self.has_lead:
            self.owed += missing
        return rows + [b""] * missing if missing else rows

    # ---- what the exchange sends

    def hear(self, octets: bytes | None) -> None:
        """Its octets of the next frame, None if they are idle."""
        self.due.append(b"F " + (octets or IDLE_ROW))


class DChannel(Port):
    """The D channel of a line with a data link.

    While no endpoint is there, or none that reads, the frames of the exchange are lost. The data link finds that out.
    """

    def __init__(self, number: int, address: Address, loop: Loop) -> None:
        super().__init__(number, address, loop, socket.SOCK_SEQPACKET)
        self.queue: deque[bytes] = deque()  # frames that the endpoint sent
        self.frames = self.cut = self.lost = 0  # how many were taken, and cut, and how many of the exchange were lost
        self.state = LinkState(self.say)
        self.say(f"its data link listens on {self.listener.place}")

    def attach(self, connection: socket.socket) -> None:
        self.endpoint = connection
        self.say("an endpoint is attached to its data link")
        self.state.begin()
        self.watch()

    def turn_away(self, connection: socket.socket) -> None:
        self.say("its data link has an endpoint already, and another one is not accepted")
        connection.close()

    def watch(self) -> None:
        """Waits for the endpoint; if its queue is long, it is not read."""
        if self.endpoint is not None:
            self.loop.watch(self.endpoint, self.receive if len(self.queue) < MAX_LINK_FRAMES else None)

    def receive(self) -> None:
        if self.endpoint is None:
            return
        datagram = receive(self.endpoint, DATAGRAM)
        if datagram is None:
            return
        if not datagram and is_closed(self.endpoint):
            self.leave()
            return
        octets = datagram[:-FCS]
        self.frames += 1
        self.cut += len(octets) > MAX_FRAME
        self.state.check(octets)
        self.queue.append(octets[:MAX_FRAME])
        self.watch()

    def leave(self) -> None:
        gone, self.endpoint = self.endpoint, None
        if gone is None:
            return
        self.say("the endpoint of its data link has gone")
        self.loop.watch(gone)
        gone.close()

    def frames_due(self) -> Iterator[bytes]:
        """Takes the frames that have come, at most as many as a line has messages in a period."""
        for _ in range(min(len(self.queue), MAX_MESSAGES)):
            yield self.queue.popleft()

    def send(self, octets: bytes) -> None:
        """Sends a frame with its check sequence, if the endpoint's socket takes it."""
        is_sent = False
        try:
            is_sent = self.endpoint is not None and self.endpoint.send(octets + check_sequence(octets)) > 0
        except BlockingIOError:
            pass
        except OSError:
            self.leave()
        self.lost += not is_sent


def is_closed(connection: socket.socket) -> bool:
    """Whether the other side has closed its socket, and has not just sent an empty datagram."""
    poll = select.poll()
    poll.register(connection, select.POLLRDHUP)
    return bool(poll.poll(0))
