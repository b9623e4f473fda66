"""The gateway: the lines, the users and the calls, and the requests of SIP that begin something."""

from __future__ import annotations

import signal
import socket
import time
from collections import Counter

from nemzhuul.command_line import NAME, say
from nemzhuul.live.processes import Loop
from nemzhuul.sip.calls import Call, CallContext
from nemzhuul.sip.causes import NO_CHANNEL, TEMPORARY_FAILURE
from nemzhuul.sip.dialogs import Dialogs
from nemzhuul.sip.digest import Authenticator
from nemzhuul.sip.jitter import MILLISECOND, depths_of
from nemzhuul.sip.limits import Failures, Networks
from nemzhuul.sip.lines import Line, LineOptions, Totals
from nemzhuul.sip.messages import Field, Received, read_uri, reason, token
from nemzhuul.sip.options import Settings
from nemzhuul.sip.pins import MAX_WRONG_PINS
from nemzhuul.sip.registrar import Registrar
from nemzhuul.sip.rtp import COUNTS, Ports
from nemzhuul.sip.timers import Now, Timers
from nemzhuul.sip.transactions import METHODS, ServerTransaction, Transport, listening_socket
from nemzhuul.sip.users import UsersFile

NOTE_SECONDS = 1  # between two remarks on what came


class Gateway:
    """It gets the requests of SIP from its transport."""

    def __init__(self, settings: Settings, now: Now = time.monotonic) -> None:
        self.settings = settings
        self.loop, self.timers = Loop(), Timers(now)
        users = settings.users or UsersFile({})
        networks = Networks(settings.networks)
        self.users = users
        self.authenticator = Authenticator(None if settings.users is None else users.passwords, self.timers.now)
        self.registrar = Registrar(users, self.timers.now)
        self.dialogs: Dialogs = {}
        self.noted = 0.0
        self.transport = Transport(self.loop, self.timers, listening_socket(settings.listen), self, networks)
        ports = Ports(settings.listen.host, *settings.media)
        self.context = CallContext(
            transport=self.transport, timers=self.timers, dialogs=self.dialogs, registrar=self.registrar, networks=networks, ports=ports,
            depths=depths_of(settings.buffer), wrong_pins=Failures(self.timers.now, MAX_WRONG_PINS), counts=Counter(),
        )  # fmt: skip
        say(f"{NAME}: listens on {self.transport.address.host}:{self.transport.address.port}")
        self.totals = Totals(Counter())
        options = LineOptions(settings.lead * MILLISECOND, settings.prints_messages)
        self.lines = [Line(self.context, self.loop, self.totals, options, address) for address in settings.lines]

    def note(self, text: str) -> None:
        """Says something about what came, once a second at most."""
        now = self.timers.now()
        if now - self.noted >= NOTE_SECONDS:
            self.noted = now
            say(f"{NAME}: {text.encode('ascii', 'backslashreplace').decode()}")

    def close(self) -> None:
        """Closes all sockets."""
        for line in self.lines:
            line.leave("the gateway ends")
        self.transport.socket.close()

    # ---- requests

    def take_new_request(self, server: ServerTransaction) -> None:
        request = server.request
        if request.method == "CANCEL":
            self.take_cancel(server)
        elif not request.uri.lower().startswith(("sip:", "sips:")):
            server.answer(416, token())
        elif request.get("max-forwards") == "0" and request.method != "OPTIONS":
            server.answer(483, token())
        elif request.has("require"):
            server.answer(420, token(), [Field("unsupported", ", ".join(request.all("require")))])
        elif request.receiver.tag:
            self.take_request_within(server)
        elif request.method == "OPTIONS":
            server.answer(200, token(), [Field("allow", METHODS), Field("accept", "application/sdp")])
        elif request.method in ("REGISTER", "INVITE"):
            self.authenticate(server)
        else:
            server.answer(481 if request.method in ("BYE", "INFO") else 405, token(), [Field("allow", METHODS)])

    def take_cancel(self, server: ServerTransaction) -> None:
        invite = self.transport.invite_of(server.request)
        server.answer(200 if invite else 481, token())
        if invite and invite.leg:
            invite.leg.take_cancel(server.request)

    def take_request_within(self, server: ServerTransaction) -> None:
        leg = self.dialogs.get((server.request.call_id, server.request.receiver.tag))
        if leg is None:
            server.answer(481)
        else:
            server.keep()
            leg.take_request(server)

    def take_ack(self, message: Received) -> None:
        leg = self.dialogs.get((message.call_id, message.receiver.tag))
        if leg is not None:
            leg.take_ack(message)

    def authenticate(self, server: ServerTransaction) -> None:
        """REGISTER and INVITE are from a user who proves that, and INVITE may be from a peer."""
        request = server.request
        user = read_uri(request.sender.uri).user
        if request.method == "INVITE" and self.users.is_peer(request.source):
            self.begin_call(server)
            return
        if self.authenticator.is_ignored(request):
            return
        proved = self.authenticator.user_of(request)
        if proved is None:
            server.answer(401, token(), self.authenticator.challenge(request))
        elif proved != user:
            server.answer(403, token())
        elif request.method == "REGISTER":
            self.register(server, proved)
        else:
            self.begin_call(server)

    def register(self, server: ServerTransaction, user: str) -> None:
        server.keep()
        outcome = self.registrar.register(server.request, user)
        server.answer(outcome.status, token(), outcome.fields)
        if outcome.status == 200:
            binding = self.registrar.binding(user)
            where = f"at {binding.target.address.host}:{binding.target.address.port}" if binding else "not there"
            self.note(f"{user} is {where}")

    def begin_call(self, server: ServerTransaction) -> None:
        server.keep()
        self.context.counts["INVITE"] += 1
        attached = [line for line in self.lines if line.is_attached]
        free = [line for line in attached if line.has_room]
        if free:
            Call(self.context, min(free, key=lambda line: len(line.calls))).begin(server)
        else:
            server.answer(503, token(), reason(NO_CHANNEL if attached else TEMPORARY_FAILURE))

    # ---- the run

    def run(self) -> None:
        came = self.catch_interrupts()
        if self.settings.seconds:
            self.timers.after(self.settings.seconds, lambda: came.append(0))
        while not came:
            self.loop.wait(self.timers.act())
        for line in self.lines:
            for call in list(line.calls.values()):
                call.end_leg(TEMPORARY_FAILURE)
        say(self.text())

    def catch_interrupts(self) -> list[int]:
        """A list to which each interrupt is appended; it also ends a wait."""
        came: list[int] = []
        reader, writer = socket.socketpair()
        writer.setblocking(False)
        signal.set_wakeup_fd(writer.fileno())
        self.loop.watch(reader, lambda: reader.recv(64))
        for number in (signal.SIGINT, signal.SIGTERM):
            signal.signal(number, lambda *_: came.append(writer.fileno()))
        signal.signal(signal.SIGUSR1, lambda *_: say(self.text()))
        return came

    def text(self) -> str:
        """What has happened so far, in three lines."""
        calls = [call for line in self.lines for call in line.calls.values()]
        totals = Counter(self.totals.counts)
        for call in calls:
            if call.stream is not None:
                totals.update(call.stream.counts())
        one, counts = self.transport, self.context.counts
        invites = ", ".join(f"{name} {value}" for name, value in sorted(counts.items())) or "no INVITE"
        return (
            f"{NAME}: {time.process_time():.2f} s of processor time; {len(calls)} calls now, "
            f"{self.totals.streams} streams before; {invites}\n"
            f"{NAME}: SIP: {one.received} datagrams came, {one.sent} were sent, {one.repeated} repetitions, "
            f"{one.malformed} malformed, {one.refused} not taken, {one.failed} failed; "
            f"{len(one.servers)} and {len(one.clients)} transactions, {len(self.dialogs)} dialogs\n"
            f"{NAME}: RTP: " + ", ".join(f"{totals[name]} {name}" for name in COUNTS)
        )
