"""The gateway's end of the socket of a line: its calls by call reference, and the streams of its channels.

The exchange gives the clock. For the frames of a period the line returns as many, and nothing in it waits for time.
"""

from __future__ import annotations

import errno
import socket
from collections import Counter
from collections.abc import MutableMapping
from dataclasses import dataclass
from typing import Any

from nemzhuul.command_line import NAME, say
from nemzhuul.live.processes import Loop
from nemzhuul.live.wire import FRAMES, PIECE, Address, frames_text, octets_of, receive, without_delay
from nemzhuul.signalling.q931 import (
    NULL,
    RELEASE,
    RELEASE_COMPLETE,
    RESTART,
    SETUP,
    STATUS,
    STATUS_ENQUIRY,
    Message,
    cause,
    message_text,
    read_message,
    restart_acknowledge,
    status,
    write_message,
)
from nemzhuul.sip.calls import Call, CallContext, Reference
from nemzhuul.sip.causes import INVALID_REFERENCE
from nemzhuul.sip.rtp import Stream
from nemzhuul.traces.events import IDLE, PLACES

RETRY_SECONDS = 1  # until a line is tried again
MAX_UNSENT = 1 << 22  # octets
MAX_CALLS = 64  # of a line, which has 30 channels; the others are being set up or cleared
REFERENCES = 0x7FFF


@dataclass
class Totals:
    """The counts of the streams that were closed."""

    counts: Counter[str]
    streams: int = 0


@dataclass(frozen=True)
class LineOptions:
    lead: int  # frames that are sent before their time, so that the gateway may be late
    prints_messages: bool


class Line:
    def __init__(self, context: CallContext, loop: Loop, totals: Totals, options: LineOptions, address: Address) -> None:
        self.context, self.loop, self.totals, self.options, self.address = context, loop, totals, options, address
        self.number: int | None = None
        self.socket: socket.socket | None = None
        self.calls: MutableMapping[Reference, Call] = {}
        self.streams: list[Stream] = []
        self.last_reference = 0
        self.begun, self.unsent = b"", bytearray()
        self.is_speaking = False
        self.attach()

    @property
    def is_attached(self) -> bool:
        return self.number is not None

    @property
    def has_room(self) -> bool:
        return self.is_attached and len(self.calls) < MAX_CALLS

    @property
    def name(self) -> str:
        return self.address.word if self.number is None else f"line {self.number}"

    def attach(self) -> None:
        self.begun, self.unsent = b"", bytearray()
        self.is_speaking = False
        try:
            self.socket = connecting(self.address)
        except OSError:
            self.context.timers.after(RETRY_SECONDS, self.attach)
        else:
            self.loop.watch(self.socket, None, self.take_connection)

    def take_connection(self) -> None:
        """The socket is connected, or cannot be."""
        tried = self.socket
        if tried is None:
            return
        if tried.getsockopt(socket.SOL_SOCKET, socket.SO_ERROR):
            self.loop.watch(tried)
            tried.close()
            self.socket = None
            self.context.timers.after(RETRY_SECONDS, self.attach)
        else:
            self.loop.watch(tried, self.receive)

    def leave(self, why: str) -> None:
        gone, self.socket = self.socket, None
        if gone is None:
            return
        say(f"{NAME}: {self.name}: {why}; {len(self.calls)} calls end")
        self.loop.watch(gone)
        gone.close()
        self.number = None
        for call in list(self.calls.values()):
            call.drop()
        self.context.timers.after(RETRY_SECONDS, self.attach)

    # ---- to the exchange

    def send(self, text: bytes) -> None:
        self.unsent += text
        self.write()

    def write(self) -> None:
        if self.socket is None:
            return
        try:
            del self.unsent[: self.socket.send(self.unsent)]
        except BlockingIOError:
            pass
        except OSError:
            self.leave("the exchange has closed it")
            return
        if len(self.unsent) > MAX_UNSENT:
            self.leave("the exchange does not read")
            return
        self.loop.watch(self.socket, self.receive, self.write if self.unsent else None)

    def send_message(self, octets: bytes) -> None:
        if self.socket is None:
            return
        if self.options.prints_messages:
            say(f"{self.name} sends {message_text(octets)}")
        self.send(b"M " + octets.hex().upper().encode() + b"\n")

    def new_reference(self) -> Reference:
        """The next call reference that no call has. A line has fewer calls than references."""
        while True:
            self.last_reference = self.last_reference % REFERENCES + 1
            if Reference(True, self.last_reference) not in self.calls:
                return Reference(True, self.last_reference)

    # ---- from the exchange

    def receive(self) -> None:
        text = None if self.socket is None else receive(self.socket, PIECE)
        if text is None:
            return
        if not text:
            self.leave("the exchange has closed it")
            return
        whole, end, self.begun = (self.begun + text).rpartition(b"\n")
        whole, at = whole + end, 0
        while at < len(whole) and self.socket is not None:
            frames = FRAMES.match(whole, at)
            if frames:
                at = frames.end()
                self.take_frames(octets_of(frames.group()))
            else:
                last = whole.index(b"\n", at)
                self.take_line(whole[at:last])
                at = last + 1

    def take_line(self, text: bytes) -> None:
        word, _, rest = text.partition(b" ")
        if word == b"M":
            octets = bytes.fromhex(rest.decode())
            if self.options.prints_messages:
                say(f"{self.name} gets {message_text(octets)}")
            message = read_message(octets)
            if message is not None:
                self.take_message(message)
        elif word == b"line":
            self.number = int(rest)
            say(f"{NAME}: {self.address.word} is line {self.number}")
            self.send(b"F none\n")
        else:
            say(f"{NAME}: {self.name}: {text.decode('latin-1')}")

    def take_message(self, message: Message) -> None:
        call = self.calls.get(Reference(message.flag == 1, message.reference))
        if call is not None:
            call.take(message)
        elif message.kind == SETUP and message.flag == 0 and message.channel:
            Call(self.context, self).take_setup(message)
        elif message.kind == RESTART and message.reference == 0:
            self.restart(message)
        elif message.kind == STATUS_ENQUIRY and message.reference:
            self.send_message(status(1 - message.flag, message.reference, NULL))
        elif message.kind == RELEASE and message.reference:
            self.send_message(write_message(1 - message.flag, message.reference, RELEASE_COMPLETE))
        elif message.reference and message.kind not in (RELEASE_COMPLETE, STATUS):
            unknown = cause(INVALID_REFERENCE)
            self.send_message(write_message(1 - message.flag, message.reference, RELEASE_COMPLETE, unknown))

    def restart(self, message: Message) -> None:
        """Ends the calls of the channels that the exchange restarts."""
        for call in [call for call in self.calls.values() if message.restarts(call.channel)]:
            call.drop()
        self.send_message(restart_acknowledge(message))

    # ---- frames

    def take_frames(self, octets: bytes) -> None:
        """The octets of some frames. As many are sent back, and the frames of the lead before the first of them."""
        count = len(octets) // PLACES
        if not self.streams:
            if self.is_speaking:
                self.is_speaking = False
                self.send(b"F none\n")
            return
        lead = 0 if self.is_speaking else self.options.lead
        self.is_speaking = True
        back = bytearray([IDLE]) * (PLACES * (lead + count))
        for stream in self.streams:
            place = stream.channel_place
            if place is None:
                stream.pass_by(count)
                continue
            stream.take_octets(octets[place::PLACES])
            stream.receive()
            played = stream.play(count)
            first = PLACES * lead + place
            back[first : first + PLACES * len(played) : PLACES] = played
        self.send(frames_text(back))

    def open_stream(self, stream: Stream) -> None:
        if stream not in self.streams:
            self.streams.append(stream)

    def close_stream(self, stream: Stream) -> None:
        if stream in self.streams:
            self.streams.remove(stream)
        counts = stream.counts()
        self.totals.counts.update(counts)
        self.totals.streams += 1
        if self.options.prints_messages:
            said = ", ".join(f"{value} {name}" for name, value in counts.items() if value)
            say(f"{self.name} place {stream.channel_place}: {said}")
        stream.close()


def connecting(address: Address) -> socket.socket:
    """A socket whose connection to an address has begun, without waiting for it; or an error."""
    place: Any = address.path
    family: int = socket.AF_UNIX
    if address.path is None:
        family, _, _, _, place = socket.getaddrinfo(address.host, address.port, type=socket.SOCK_STREAM)[0]
    connection = socket.socket(family)
    connection.setblocking(False)
    error = connection.connect_ex(place)
    if error not in (0, errno.EINPROGRESS):
        connection.close()
        raise OSError(error, address.word)
    return without_delay(connection)
