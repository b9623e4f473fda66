"""A call between a SIP user and the exchange: the mapping of SIP to Q.931 on the user side.

A call has two halves. `leg` is the dialog of SIP, and the other half is the user side of Q.931 with its call state.
"""

from __future__ import annotations

import re
from collections import Counter
from collections.abc import Callable, MutableMapping
from dataclasses import dataclass
from typing import NamedTuple, Optional, Protocol

from nemzhuul.signalling.q931 import (
    ALERTING,
    CALLED_PARTY_NUMBER,
    CALLING_PARTY_NUMBER,
    CALL_PROCEEDING,
    CHANNEL_IDENTIFICATION,
    CONNECT,
    CONNECT_ACKNOWLEDGE,
    DISCONNECT,
    PROGRESS_INDICATOR,
    RELEASE,
    RELEASE_COMPLETE,
    SETUP,
    SETUP_ACKNOWLEDGE,
    SPEECH,
    STATUS,
    STATUS_ENQUIRY,
    Element,
    Message,
    cause,
    number,
    sending_complete,
    status,
    write_message,
)
from nemzhuul.sip import sdp
from nemzhuul.sip.causes import (
    INCOMPATIBLE,
    NORMAL,
    NO_RESOURCE,
    REJECTED,
    TEMPORARY_FAILURE,
    TIMER_EXPIRY,
    UNALLOCATED,
    cause_of,
    status_of,
)
from nemzhuul.sip.dialogs import CONFIRMED, OVER, Dialogs, Incoming, Outgoing
from nemzhuul.sip.jitter import Depths
from nemzhuul.sip.limits import ANYWHERE, Failures, Networks
from nemzhuul.sip.messages import Received, read_uri
from nemzhuul.sip.pins import PIN_SECONDS, PinEntry
from nemzhuul.sip.registrar import NUMBER, Registrar
from nemzhuul.sip.rtp import Ports, Stream
from nemzhuul.sip.timers import Timer, Timers
from nemzhuul.sip.transactions import ServerTransaction, Transport
from nemzhuul.traces.events import FRAMES_PER_SECOND, place_of_channel

ANY_CHANNEL = Element(CHANNEL_IDENTIFICATION, b"\xa3")
T303, T305, T308, T313 = 4, 30, 4, 4  # seconds
QUIET = 60  # seconds without a packet from which on a user is asked

# The call states of the user side (Q.931).
ASKING = -1  # for a PIN: the exchange has no call yet
NULL, INITIATED, OVERLAP, PROCEEDING, DELIVERED = 0, 1, 2, 3, 4
RECEIVED, REQUESTED, INCOMING_PROCEEDING, ACTIVE, DISCONNECTING, RELEASING = 7, 8, 9, 10, 11, 19


class Reference(NamedTuple):
    """A call reference of a line, and whether the gateway chose it."""

    is_own: bool
    value: int


class LineSide(Protocol):
    """The line of a call."""

    calls: MutableMapping[Reference, Call]

    def new_reference(self) -> Reference: ...

    def send_message(self, octets: bytes) -> None: ...

    def open_stream(self, stream: Stream) -> None: ...

    def close_stream(self, stream: Stream) -> None: ...


@dataclass(frozen=True)
class CallContext:
    """What the calls of a gateway share."""

    transport: Transport
    timers: Timers
    dialogs: Dialogs
    registrar: Registrar
    networks: Networks
    ports: Ports
    depths: Depths
    wrong_pins: Failures  # by caller and number
    counts: Counter[str]  # of INVITE, and of refusals by their causes

    def read_media(self, body: bytes) -> sdp.Media | None:
        """The media of a description, to whose address octets may be sent; None if there are none."""
        try:
            media = sdp.read_sdp(body)
        except sdp.Unacceptable:
            return None
        host = media.address.host
        return media if host == ANYWHERE or self.networks.may_send_to(host) else None


class Call:
    """A call of the gateway, on one of its lines."""

    def __init__(self, context: CallContext, line: LineSide) -> None:
        self.context, self.line = context, line
        self.leg: Optional[Incoming | Outgoing] = None
        self.reference: Reference | None = None
        self.channel: int | None = None
        self.state = NULL
        self.stream: Stream | None = None
        self.body = b""  # the description that the user gets at the answer
        self.version = 1
        self.on_key: Callable[[str], object] = self.play_key
        self.timer: Timer | None = None

    # ---- from SIP

    def begin(self, server: ServerTransaction) -> None:
        """A SIP user calls: the call reaches the exchange, at once or after a PIN, or it is refused."""
        self.leg = leg = Incoming(self.context.transport, self.context.dialogs, self, server)
        came = server.request
        digits = dialled(came.uri)
        caller = calling_user(came)
        who = caller or came.source.host
        pin = self.context.registrar.users.pin_of(digits) if digits else None
        media = self.context.read_media(came.body) if came.body else None
        if digits is None:
            leg.refuse(404, UNALLOCATED)
        elif media is None and came.body:
            leg.refuse(488)
        elif pin is not None and self.context.wrong_pins.is_muted(who, pin.start):
            leg.refuse(403, REJECTED)
        elif not self.open_stream():
            leg.refuse(503, NO_RESOURCE)
        else:
            self.agree(media)
            self.reserve_reference()
            if pin is None:
                self.set_up(caller, digits)
            else:
                self.ask(PinEntry(pin, who), caller, digits)

    def agree(self, media: sdp.Media | None) -> None:
        """Takes an offer, or makes one if the user has made none."""
        assert self.stream is not None
        if media is None:
            self.body = sdp.offer(self.stream.address)
        else:
            self.stream.agree(media, self.host())
            self.body = sdp.answer(media, self.stream.address)

    def reserve_reference(self) -> None:
        self.reference = self.line.new_reference()
        self.line.calls[self.reference] = self

    def ask(self, entry: PinEntry, caller: str, digits: str) -> None:
        """Answers the telephone, and has it dial a PIN before the exchange gets the call."""

        def take(key: str) -> None:
            is_right = entry.press(key) if self.state == ASKING else None
            if is_right:
                self.on_key = self.play_key
                self.set_up(caller, digits)
            elif is_right is not None:
                self.context.wrong_pins.add(entry.who, entry.pin.start)
                self.reject()

        self.state = ASKING
        self.on_key = lambda key: self.context.timers.after(0, lambda: take(key))  # the stream is being read
        self.wait(PIN_SECONDS, self.reject)
        if isinstance(self.leg, Incoming):
            self.leg.answer(self.body)
        self.connect_stream()

    def reject(self) -> None:
        """The PIN is wrong, or was not dialled in time."""
        self.end_leg(REJECTED)
        self.end()

    def set_up(self, caller: str, digits: str) -> None:
        callers = [number(CALLING_PARTY_NUMBER, caller)] if caller else []
        self.state = INITIATED
        self.send(SETUP, sending_complete(), SPEECH, ANY_CHANNEL, *callers, number(CALLED_PARTY_NUMBER, digits))
        self.wait(T303, lambda: self.fail(TIMER_EXPIRY))

    def rings(self, status: int) -> None:
        """A provisional response of the called user: with or without ringing it ends T310 of the exchange."""
        if self.state == INCOMING_PROCEEDING and status in (180, 181, 182, 183):
            self.state = RECEIVED
            self.send(ALERTING)

    def answers(self, body: bytes) -> None:
        media = self.context.read_media(body)
        if media is None or self.stream is None:
            self.end_incompatible()
            return
        self.stream.agree(media, self.host())
        self.state = REQUESTED
        self.connect_stream()
        self.send(CONNECT)
        self.wait(T313, lambda: self.fail(TIMER_EXPIRY))

    def end_incompatible(self) -> None:
        if self.leg is not None:
            self.leg.bye(INCOMPATIBLE)
        self.clear(INCOMPATIBLE)

    def refuses(self, status: int, value: int | None) -> None:
        self.clear(value or cause_of(status))

    def ends(self, value: int | None) -> None:
        self.clear(value or NORMAL)

    def offers(self, body: bytes) -> bytes | None:
        """A further offer: its answer, or an offer if it has none; None if it is not acceptable."""
        if self.stream is None:
            return None
        self.version += 1
        if not body:
            return sdp.offer(self.stream.address, self.version)
        media = self.context.read_media(body)
        if media is None:
            return None
        self.stream.agree(media, self.host())
        return sdp.answer(media, self.stream.address, self.version)

    def acknowledges(self, body: bytes) -> None:
        """The answer to an offer of this side, in ACK."""
        media = self.context.read_media(body)
        if media is None or self.stream is None:
            self.end_incompatible()
        else:
            self.stream.agree(media, self.host())
            self.connect_stream()

    def presses(self, key: str) -> None:
        self.on_key(key)

    def play_key(self, key: str) -> None:
        if self.stream is not None:
            self.stream.tones.press(key)

    # ---- from the exchange

    def take_setup(self, message: Message) -> None:
        """SETUP of the exchange."""
        self.reference = Reference(False, message.reference)
        self.channel = message.channel.number if message.channel else None
        self.line.calls[self.reference] = self
        found = self.context.registrar.find(message.digits or "")
        if isinstance(found, int) or not self.open_stream() or self.stream is None:
            self.send(RELEASE_COMPLETE, cause(found if isinstance(found, int) else NO_RESOURCE))
            self.end()
            return
        self.state = INCOMING_PROCEEDING
        self.send(CALL_PROCEEDING)
        leg = self.leg = Outgoing(self.context.transport, self.context.dialogs, self, found)
        leg.invite(calling_digits(message) or "anonymous", sdp.offer(self.stream.address))

    def take(self, message: Message) -> None:
        """A further message of the exchange. One that does not fit the call state is ignored."""
        kind = message.kind
        if message.channel is not None and self.channel is None:
            self.channel = message.channel.number
        if kind in (DISCONNECT, RELEASE, RELEASE_COMPLETE, STATUS):
            self.take_clearing(message)
        elif kind == STATUS_ENQUIRY:
            self.line.send_message(status(1 - message.flag, message.reference, self.state))
        elif kind in (CALL_PROCEEDING, SETUP_ACKNOWLEDGE) and self.state in (INITIATED, OVERLAP):
            self.state = PROCEEDING if kind == CALL_PROCEEDING else OVERLAP
            self.stop_timer()
        elif kind == ALERTING and self.state in (INITIATED, OVERLAP, PROCEEDING):
            self.state = DELIVERED
            self.stop_timer()
            self.ring(PROGRESS_INDICATOR in message.elements)
        elif kind == CONNECT and self.state in (INITIATED, OVERLAP, PROCEEDING, DELIVERED):
            self.state = ACTIVE
            self.stop_timer()
            self.send(CONNECT_ACKNOWLEDGE)
            self.connect_stream()
            if isinstance(self.leg, Incoming):
                self.leg.answer(self.body)
        elif kind == CONNECT_ACKNOWLEDGE and self.state == REQUESTED:
            self.state = ACTIVE
            self.stop_timer()

    def take_clearing(self, message: Message) -> None:
        kind = message.kind
        if kind == DISCONNECT and self.state != RELEASING:
            self.end_leg(message.cause)
            self.release()
        elif kind == RELEASE:
            self.end_leg(message.cause)
            if self.state != RELEASING:
                self.send(RELEASE_COMPLETE)
            self.end()
        elif kind == RELEASE_COMPLETE or (kind == STATUS and message.call_state == NULL):
            self.end_leg(message.cause)
            self.end()

    def ring(self, has_tone: bool) -> None:
        """180, or 183 with a description if the exchange sends ringing tone in the channel."""
        if not isinstance(self.leg, Incoming):
            return
        if has_tone:
            self.connect_stream()
            self.leg.progress(183, self.body)
        else:
            self.leg.progress(180)

    def end_leg(self, value: int | None) -> None:
        """Ends the SIP half, whose user did not end it."""
        leg, value = self.leg, value or NORMAL
        if leg is None or leg.state == OVER:
            return
        if isinstance(leg, Outgoing):
            leg.cancel(value)
        elif leg.state == CONFIRMED:
            leg.bye(value)
        else:
            self.context.counts[f"refused {value}"] += 1
            leg.refuse(status_of(value), value)

    # ---- the half of Q.931

    def send(self, kind: int, *elements: Element) -> None:
        if self.reference is not None:
            flag = 0 if self.reference.is_own else 1
            self.line.send_message(write_message(flag, self.reference.value, kind, *elements))

    def clear(self, value: int) -> None:
        """The SIP user has ended the call (Q.931)."""
        if self.state in (NULL, DISCONNECTING, RELEASING):
            return
        if self.state == ASKING:
            self.end()
            return
        self.state = DISCONNECTING
        self.send(DISCONNECT, cause(value))
        self.wait(T305, self.release)

    def release(self) -> None:
        self.state = RELEASING
        self.send(RELEASE)
        self.wait(T308, self.release_again)

    def release_again(self) -> None:
        self.send(RELEASE)
        self.wait(T308, self.end)

    def fail(self, value: int) -> None:
        """The exchange does not reply."""
        self.end_leg(value)
        self.clear(value)

    def drop(self) -> None:
        """The line has gone."""
        self.end_leg(TEMPORARY_FAILURE)
        self.end()

    def wait(self, seconds: float, act: Callable[[], object]) -> None:
        self.stop_timer()
        self.timer = self.context.timers.after(seconds, act)

    def stop_timer(self) -> None:
        if self.timer is not None:
            self.timer.cancel()
            self.timer = None

    def end(self) -> None:
        """The call reference is free."""
        self.stop_timer()
        self.state = NULL
        if self.reference is not None:
            self.line.calls.pop(self.reference, None)
        if self.stream is not None:
            self.line.close_stream(self.stream)
            self.stream = None

    # ---- its octets

    def open_stream(self) -> bool:
        """Opens a stream; false if no port is free."""
        try:
            self.stream = Stream(self.context.ports, self.context.depths, self.presses)
        except OSError:
            return False
        return True

    def host(self) -> str:
        """The address that the call is signalled from."""
        return self.leg.first_address.host if self.leg is not None else ANYWHERE

    def connect_stream(self) -> None:
        """The channel and the stream are joined, once both are known."""
        stream = self.stream
        if stream is None or stream.media is None or stream.channel_place is not None:
            return
        if self.state == ASKING:
            self.line.open_stream(stream)
        if self.channel is None:
            return
        stream.channel_place = place_of_channel(self.channel)
        if stream.channel_place is not None:
            self.line.open_stream(stream)
            self.context.timers.after(QUIET / 2, self.probe_if_quiet)

    def probe_if_quiet(self) -> None:
        """Asks a user who sends nothing whether the call still is, so that the call of one who is gone ends."""
        if self.stream is None or self.leg is None or self.leg.state == OVER:
            return
        self.context.timers.after(QUIET / 2, self.probe_if_quiet)
        if self.leg.state == CONFIRMED and self.stream.quiet >= QUIET * FRAMES_PER_SECOND:
            self.leg.probe(self.take_probe_response)

    def take_probe_response(self, answer: Received | None) -> None:
        is_gone = answer is None or answer.status in (408, 481)
        if is_gone and self.leg is not None and self.leg.state == CONFIRMED:
            self.leg.bye(TIMER_EXPIRY)
            self.clear(TIMER_EXPIRY)


def dialled(uri: str) -> str | None:
    """The digits that a user dials; None if there are none."""
    found = re.fullmatch(r"sips?:\+?([0-9().-]{1,40})(?:[;:][^@]*)?@.*", uri, re.I)
    digits = re.sub("[^0-9]", "", found[1]) if found else ""
    return digits if 0 < len(digits) <= 20 else None


def calling_user(request: Received) -> str:
    """The digits of the caller, who has proved them or is a peer; empty if they are not digits."""
    user = read_uri(request.sender.uri).user
    return user if NUMBER.fullmatch(user) else ""


def calling_digits(message: Message) -> str:
    contents = message.elements.get(CALLING_PARTY_NUMBER, b"")
    at = 1 if contents and contents[0] & 0x80 else 2
    digits = "".join(chr(octet & 0x7F) for octet in contents[at:])
    return digits if NUMBER.fullmatch(digits) else ""
