"""Follows the calls and the taken slots of a run, event by event, in the order of its report.

What its messages say of a call: a SETUP that CALL PROCEEDING or SETUP ACKNOWLEDGE answers
begins a leg on the caller's line, and the SETUP that goes out for it begins the other, at once or
after INFORMATION with the rest of the number. A leg ends with RELEASE, RELEASE COMPLETE or a STATUS
of the null state from its user, with RELEASE COMPLETE to it, by RESTART, or without a word: in the frame in
which T308 runs out after RELEASE was sent to it twice, when the data link of its line fails before CONNECT, and in
the frame in which T309 runs out. The two slots of a call are connected from CONNECT on until
its clearing begins.
"""

from __future__ import annotations

from collections import defaultdict
from collections.abc import Iterable, Iterator, Mapping, Sequence
from dataclasses import dataclass, field
from typing import NamedTuple, Protocol

from nemzhuul.command_line import Refused
from nemzhuul.signalling.q931 import (
    ADDRESS_INCOMPLETE,
    ALERTING,
    CALL_PROCEEDING,
    CONNECT,
    DESTINATION_OUT_OF_ORDER,
    DISCONNECT,
    INFORMATION,
    NORMAL_CALL_CLEARING,
    NO_ANSWER_FROM_USER,
    NO_USER_RESPONDING,
    NULL,
    RELEASE,
    RELEASE_COMPLETE,
    RESTART,
    SETUP,
    SETUP_ACKNOWLEDGE,
    STATUS,
    TEMPORARY_FAILURE,
    Message,
    read_message,
)
from nemzhuul.traces.events import (
    PLACES,
    Arrival,
    Event,
    Frame,
    Free,
    Link,
    Moved,
    Nail,
    Reply,
    Restart,
    Seat,
    Slot,
    Step,
    Target,
    Trace,
    place_of_channel,
)


@dataclass(frozen=True)
class Use:
    """What has a slot, a nail, a seat or a call, and with which slot or room it is connected."""

    call: int | None = None
    partner: Slot | None = None
    room: int | None = None

    def __str__(self) -> str:
        if self.partner is not None:
            return f"with {self.partner}"
        return f"call {self.call}" if self.room is None else f"in room {self.room}"


class LegName(NamedTuple):
    """How messages name a leg."""

    line: int
    chooser: int  # 0 if the user chose the call reference, and 1 if the exchange did
    reference: int


@dataclass(eq=False)
class Leg:
    call: Call
    name: LegName
    slot: Slot
    dials: bool  # whether more digits are awaited
    releases: int = 0  # how often RELEASE was sent to it
    since: int = 0  # the next frame when it was sent last
    outage: int | None = None  # the next frame when the data link of its line failed, while T309 runs
    has_ended: bool = False

    @property
    def is_active(self) -> bool:
        return self.call.answered is not None and self.call.cleared is None

    @property
    def awaits_timer(self) -> bool:
        """Whether a timer may end it without a message."""
        return self.releases >= 2 or self.outage is not None


class Row(NamedTuple):
    """A message of a call, or one on no call."""

    event: int
    frame: int  # the number of the next frame
    line: int
    is_sent: bool
    message: Message | None
    leg: Leg | None = None
    moved: Moved | None = None

    def with_leg(self, leg: Leg | None) -> Row:
        """The row of a call, on this leg of it."""
        return Row(self.event, self.frame, self.line, self.is_sent, self.message, leg, self.moved)


class SentMessage(NamedTuple):
    """A message that is sent on a line."""

    line: int
    message: Message


class Clearing(NamedTuple):
    """The frame in which the clearing of a call begins, and its cause."""

    frame: int
    cause: int | None


class Join(NamedTuple):
    """A slot that is connected, the first of its connection, and with what."""

    slot: Slot
    use: Use


@dataclass(eq=False)
class Call:
    number: int
    line: int
    digits: str | None
    rows: list[Row] = field(default_factory=list)
    left_out: int = 0  # rows after the first half of them
    caller: Leg | None = None
    called: Leg | None = None
    alerted: int | None = None  # the frame
    answered: int | None = None  # the frame
    cleared: Clearing | None = None
    released: int | None = None  # the frame, once no leg is left
    refused: int | None = None  # the cause

    @property
    def has_ended(self) -> bool:
        return self.released is not None or self.refused is not None


class Rooms(Protocol):
    """What knows the room that a call reached."""

    def room(self, call: Call) -> int | None: ...


class Run:
    """The calls of a run so far, and the slots that are taken. An event takes the time of the calls that it changes.

    With a limit to the rows of a call, it keeps the first half of them and the last.
    """

    def __init__(self, trace: Trace, max_rows: int | None = None) -> None:
        self.timers = trace.timers
        self.numbers = trace.numbers
        self.max_rows = max_rows
        self.calls: list[Call] = []
        self.count = 0  # of the calls, also those that a user of this run has removed
        self.on_no_call: list[Row] = []
        self.frames = 0
        self.uses: dict[Slot, Use] = {}  # by slot, if it is taken
        self.joined: list[Join] = []  # in the last event
        self.left: list[Slot] = []  # in the last event: the slots that lost their connection
        self.answered: list[Call] = []  # in the last event
        self.ended: list[Call] = []  # in the last event: the calls that were refused, or have no leg any more
        self._legs: dict[LegName, Leg] = {}
        self._legs_of: defaultdict[int, dict[LegName, Leg]] = defaultdict(dict)  # by line
        self._waiting: list[dict[LegName, Leg]] = [{} for _ in range(PLACES)]  # by place, the legs that a frame may end
        self._down: set[int] = set()  # the lines whose data links are down

    def take(self, event: Event, reply: Reply) -> None:
        self.joined, self.left, self.answered, self.ended = [], [], [], []
        self._take(event, reply)

    def may_end_leg(self, frame: int) -> bool:
        """Whether a frame may end a leg without a message."""
        return bool(self._waiting[frame % PLACES])

    def may_end_legs(self) -> bool:
        """Whether any frame may."""
        return any(self._waiting)

    def pass_frame(self, frame: int) -> None:
        """Takes a frame in which no message is sent, and no data link changes."""
        if self.may_end_leg(frame) or self.ended or self.left or self.joined:
            self.take(Frame({}), Reply(0, "frame", frame=frame))
        else:
            self.frames = frame + 1

    def _take(self, event: Event, reply: Reply) -> None:
        if isinstance(event, Frame) and reply.frame is not None:
            self._frame(reply.frame, reply)
        elif isinstance(event, Arrival):
            self._message(event, reply)
        elif isinstance(event, Link):
            self._link(event, reply)
        elif isinstance(event, Restart):
            self._line_restart(event, reply)
        elif isinstance(event, Nail) and reply.word == "granted":
            self._join(event.first, Use(partner=event.second))
        elif isinstance(event, Seat) and reply.word == "seated":
            self._join(event.slot, Use(room=event.room))
        elif isinstance(event, Free) and reply.word == "freed":
            for slot in filter(None, (event.slot, self.uses[event.slot].partner)):
                self._leave(slot)
                self.uses.pop(slot, None)

    def room(self, call: Call) -> int | None:
        """The room of a call that reached none of the lines; None where its digits lead to none."""
        return room_of(call, self.numbers)

    def _join(self, slot: Slot, use: Use) -> None:
        """A slot is connected with its partner, or sits in its room."""
        self.joined.append(Join(slot, use))
        self.uses[slot] = use
        if use.partner is not None:
            self.uses[use.partner] = Use(use.call, slot)

    def _leave(self, slot: Slot) -> None:
        """A slot that is connected with a slot or a room is so no more, and its call, if it has one, still has it."""
        use = self.uses.get(slot)
        if use is not None and (use.partner, use.room) != (None, None):
            self.left.append(slot)
            self.uses[slot] = Use(call=use.call)

    def _answer(self, call: Call, row: Row) -> None:
        if call.caller is None:
            raise never_sent(row.event)
        call.answered = row.frame
        self.answered.append(call)
        for leg in filter(None, (call.caller, call.called)):
            self._await_link(leg)
        if call.called is not None:
            self._join(call.caller.slot, Use(call.number, partner=call.called.slot))
        else:
            self._join(call.caller.slot, Use(call.number, room=self.room(call)))

    def _clear(self, call: Call, frame: int, cause: int | None) -> None:
        """The clearing of a call begins, and its connection ends."""
        if call.cleared is None:
            call.cleared = Clearing(frame, cause)
            for leg in filter(None, (call.caller, call.called)):
                self._leave(leg.slot)
                leg.outage = None
                self._watch(leg)

    def _frame(self, frame: int, reply: Reply) -> None:
        """A frame ends the legs whose users were sent RELEASE twice and have waited, and those whose data link was down
        too long, and sends what is due of others."""
        self.frames = frame + 1
        for leg in sorted(self._waiting[frame % PLACES].values(), key=lambda leg: leg.name):
            self._expire(leg, frame)
        for line, octets in reply.sent:
            message = sent_message(octets, reply.event)
            row = Row(reply.event, self.frames, line, True, message)
            name = key(line, message, 1)
            if name in self._legs:
                self._sent_in_frame(name, row, message)
            else:
                self.on_no_call.append(row)

    def _expire(self, leg: Leg, frame: int) -> None:
        """A frame in which a timer of a leg may run out, without a message of the report."""
        if leg.outage is not None:
            if leg.outage + self.timers["T309"] <= frame:
                self._clear(leg.call, self.frames, DESTINATION_OUT_OF_ORDER)
                self._end(leg.name)
        elif leg.since + self.timers["T308"] <= frame:
            self._end(leg.name)

    def _sent_in_frame(self, name: LegName, row: Row, message: Message) -> None:
        leg = self._legs[name]
        call = leg.call
        self._add(call, row.with_leg(leg))
        self._sent(leg, message, row.frame)
        if message.kind in (DISCONNECT, RELEASE_COMPLETE):
            unanswered = NO_USER_RESPONDING if call.alerted is None else NO_ANSWER_FROM_USER
            self._clear(call, row.frame, ADDRESS_INCOMPLETE if leg.dials else unanswered)
        if message.kind == DISCONNECT:
            leg.dials = False
        elif message.kind == RELEASE_COMPLETE:
            self._end(name)

    def _message(self, event: Arrival, reply: Reply) -> None:
        message = read_message(event.octets)
        sent = [SentMessage(line, sent_message(octets, reply.event)) for line, octets in reply.sent]
        row = Row(reply.event, self.frames, event.line, False, message, moved=reply.moved)
        leg = None if message is None else self._legs.get(key(event.line, message, 0))
        if message is None or not (leg or sent):
            self._on_none(row, sent)
        elif leg:
            self._on_call(leg, row, message, sent)
        elif message.kind == SETUP and message.flag == 0:
            self._setup(row, message, sent)
        elif message.kind == RESTART and message.reference == 0:
            self._restart(row, message, sent)
        else:
            self._on_none(row, sent)

    def _setup(self, row: Row, setup: Message, sent: Iterable[SentMessage]) -> None:
        self.count += 1
        call = Call(self.count, row.line, setup.digits)
        self.calls.append(call)
        for line, message in sent:
            if message.kind in (CALL_PROCEEDING, SETUP_ACKNOWLEDGE):
                call.caller = self._begin(call, row, line, message)
            elif message.kind == SETUP:
                call.called = self._begin(call, row, line, message)
            elif message.kind == RELEASE_COMPLETE:
                call.refused = message.cause
                self.ended.append(call)
            elif message.kind == CONNECT:
                self._answer(call, row)
        self._note(call, row, call.caller, sent)

    def _on_call(self, leg: Leg, row: Row, message: Message, sent: list[SentMessage]) -> None:
        call = leg.call
        if leg.dials and message.kind == INFORMATION:
            self._information(leg, row, message, sent)
        self._note(call, row, leg, sent)
        if any(out.kind == ALERTING for _, out in sent):
            call.alerted = row.frame
        if any(out.kind == CONNECT for _, out in sent):
            self._answer(call, row)
        if ends_leg(message) or message.kind == DISCONNECT:
            self._clear(call, row.frame, clearing_cause(message))
        elif message.kind == STATUS:
            self._report(call, row, sent)
        if ends_leg(message):
            self._end(key(row.line, message, 0))

    def _report(self, call: Call, row: Row, sent: Iterable[SentMessage]) -> None:
        """The exchange clears a call whose user reports another state than it has."""
        for _, out in sent:
            if out.kind == DISCONNECT:
                self._clear(call, row.frame, out.cause)

    def _information(self, leg: Leg, row: Row, message: Message, sent: list[SentMessage]) -> None:
        """More of the number: the call goes on as after a SETUP, or is cleared, or still more is awaited."""
        call = leg.call
        if message.digits is not None:
            call.digits = (call.digits or "") + message.digits
        for line, out in sent:
            if out.kind == SETUP:
                call.called = self._begin(call, row, line, out)
            elif out.kind == DISCONNECT:
                self._clear(call, row.frame, out.cause)
        leg.dials = not sent

    def _restart(self, row: Row, message: Message, sent: list[SentMessage]) -> None:
        """A user restarts channels."""
        channel = message.channel.number if message.channel else None
        legs = self._legs_of[row.line].values()
        ended = [leg for leg in legs if message.restarts_line or leg.slot.channel == channel]
        self._remove(ended, row, sent)
        if not ended:
            self._on_none(row, sent)

    def _line_restart(self, event: Restart, reply: Reply) -> None:
        """The exchange restarts a line."""
        sent = [SentMessage(line, sent_message(octets, reply.event)) for line, octets in reply.sent]
        row = Row(reply.event, self.frames, event.line, False, None)
        ended = list(self._legs_of[event.line].values())
        self._remove(ended, row, sent)
        if not ended:
            self.on_no_call += [Row(row.event, row.frame, line, True, message) for line, message in sent]

    def _remove(self, ended: Sequence[Leg], row: Row, sent: list[SentMessage]) -> None:
        """A restart is in the ladder of each call that it ends, with what was sent for it."""
        for call in dict.fromkeys(leg.call for leg in ended):
            own = [out for out in sent if out.message.reference == 0 or self._call_at(*out) is call]
            leg = next(leg for leg in ended if leg.call is call)
            self._note(call, row, leg, own)
            self._clear(call, row.frame, TEMPORARY_FAILURE)
        for leg in ended:
            self._end(leg.name)

    def _link(self, event: Link, reply: Reply) -> None:
        """A data link that fails ends the legs of its line that are neither active nor being cleared, and those that are
        active wait. One that is up ends the wait, and clears the callers that still dial."""
        legs = list(self._legs_of[event.line].values())
        lost = [] if event.is_up else [leg for leg in legs if leg.call.answered is None and leg.call.cleared is None]
        (self._down.discard if event.is_up else self._down.add)(event.line)
        for line, octets in reply.sent:
            message = sent_message(octets, reply.event)
            leg = self._legs.get(key(line, message, 1))
            row = Row(reply.event, self.frames, line, True, message, leg)
            if leg is None:
                self.on_no_call.append(row)
                continue
            self._add(leg.call, row)
            self._sent(leg, message, row.frame)
            if message.kind == DISCONNECT:
                self._clear(leg.call, self.frames, message.cause)
                leg.dials = False
        for leg in lost:
            self._clear(leg.call, self.frames, DESTINATION_OUT_OF_ORDER)
            self._end(leg.name)
        for leg in legs:
            self._await_link(leg)

    def _await_link(self, leg: Leg) -> None:
        """T309 runs at an active leg while the data link of its line is down."""
        if leg.name.line not in self._down:
            leg.outage = None
        elif leg.is_active and leg.outage is None:
            leg.outage = self.frames
        self._watch(leg)

    def _call_at(self, line: int, message: Message) -> Call | None:
        leg = self._legs.get(key(line, message, 1))
        return None if leg is None else leg.call

    def _begin(self, call: Call, row: Row, line: int, message: Message) -> Leg:
        if message.channel is None:
            raise never_sent(row.event)
        name = key(line, message, 1)
        if name in self._legs:
            self._legs[name].has_ended = True
            self._watch(self._legs[name])
        leg = Leg(call, name, Slot(line, message.channel.number), message.kind == SETUP_ACKNOWLEDGE)
        self._legs[name] = self._legs_of[line][name] = leg
        self.uses[leg.slot] = Use(call.number)
        return leg

    def _end(self, name: LegName) -> None:
        leg = self._legs.pop(name)
        leg.has_ended = True
        del self._legs_of[name.line][name]
        self._watch(leg)
        self._leave(leg.slot)
        self.uses.pop(leg.slot, None)
        call = leg.call
        if all(other is None or other.has_ended for other in (call.caller, call.called)):
            call.released = self.frames
            self.ended.append(call)

    def _watch(self, leg: Leg) -> None:
        """Has each frame look at a leg, if a timer may end it."""
        legs = self._waiting[place_of_channel(leg.slot.channel) or 0]
        if not leg.has_ended and leg.awaits_timer:
            legs[leg.name] = leg
        elif legs.get(leg.name) is leg:
            del legs[leg.name]

    def _note(self, call: Call, row: Row, leg: Leg | None, sent: Iterable[SentMessage]) -> None:
        if row.message is not None:
            self._add(call, row.with_leg(leg))
        for line, message in sent:
            to = self._legs.get(key(line, message, 1), leg)
            self._add(call, Row(row.event, row.frame, line, True, message, to))
            if to is not None:
                self._sent(to, message, row.frame)

    def _add(self, call: Call, row: Row) -> None:
        call.rows.append(row)
        if self.max_rows is not None and len(call.rows) > self.max_rows:
            del call.rows[self.max_rows // 2]
            call.left_out += 1

    def _sent(self, leg: Leg, message: Message, frame: int) -> None:
        """Counts a message that is sent to a leg before a frame."""
        if message.kind == RELEASE:
            leg.releases += 1
            leg.since = frame
            self._watch(leg)

    def _on_none(self, row: Row, sent: Iterable[SentMessage]) -> None:
        self.on_no_call.append(row)
        for line, message in sent:
            self.on_no_call.append(Row(row.event, row.frame, line, True, message))


def room_of(call: Call, numbers: Mapping[str, Target]) -> int | None:
    """The room to which the digits of a call lead by a plan of numbers."""
    for digits, target in numbers.items():
        if call.digits is not None and call.digits.startswith(digits) and target.room is not None:
            return target.room
    return None


def follow(trace: Trace, steps: Iterable[Step]) -> Run:
    """The whole run of a trace."""
    run = Run(trace)
    for event, reply in steps:
        run.take(event, reply)
    return run


def calls_in_order(run: Run, steps: Iterable[Step]) -> Iterator[Call]:
    """The calls in the order of their SETUPs, each when it and those before it have ended, and at the end the others.

    The run forgets them.
    """
    for event, reply in steps:
        if isinstance(event, Frame) and reply.frame is not None and not reply.sent:
            run.pass_frame(reply.frame)
        else:
            run.take(event, reply)
        while run.ended and run.calls and run.calls[0].has_ended:
            yield run.calls.pop(0)
    while run.calls:
        yield run.calls.pop(0)


def sent_message(octets: bytes, event: int) -> Message:
    """A message of a report, which has a header."""
    message = read_message(octets)
    if message is None:
        raise never_sent(event)
    return message


def never_sent(event: int) -> Refused:
    return Refused(f"event {event} of the report has a message that the exchange never sends")


def key(line: int, message: Message, is_sent: int) -> LegName:
    """The leg that a message names: who chose its reference follows from the flag and the direction."""
    return LegName(line, message.flag ^ is_sent, message.reference)


def ends_leg(message: Message) -> bool:
    """Whether a message from the user of a leg ends that leg."""
    if message.kind == STATUS:
        return message.call_state == NULL
    return message.kind in (RELEASE, RELEASE_COMPLETE)


def clearing_cause(message: Message) -> int:
    """The cause that the other user gets: normal call clearing, if the message has no readable one."""
    if message.kind == STATUS:
        return TEMPORARY_FAILURE
    return NORMAL_CALL_CLEARING if message.cause is None else message.cause
