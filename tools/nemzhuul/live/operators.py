"""What the operators of a running exchange have: a console and a page, if they are wanted."""

from __future__ import annotations

import contextlib
from typing import Callable, NamedTuple

from nemzhuul.live.control import Control, Desk
from nemzhuul.live.processes import Loop
from nemzhuul.live.snapshots import Observer
from nemzhuul.live.status import StatusServer
from nemzhuul.live.wire import Address
from nemzhuul.traces.events import Event


class Places(NamedTuple):
    """Where the console and the page of an exchange are, if they are wanted, and its name."""

    control: Address | None
    status: str
    name: str


class Operators:
    """The console and the page. `command` gives the exchange an event, whose line this is."""

    def __init__(
        self,
        places: Places,
        observer: Observer,
        loop: Loop,
        command: Callable[[Event, str], None],
        ends: contextlib.ExitStack,
    ) -> None:
        self.observer = observer
        self.control: Control | None = None
        self.status: StatusServer | None = None
        if places.control is not None:
            desk = Desk(observer.follower.trace.sizes.external, observer.snapshot, command)
            self.control = Control(places.control, loop, desk)
            ends.callback(self.control.close)
        if places.status:
            self.status = StatusServer(places.status, places.name)
            ends.callback(self.status.close)

    def open(self) -> None:
        """Begins to listen."""
        if self.control is not None:
            self.control.open()
        if self.status is not None:
            self.status.begin()

    def serve(self) -> None:
        """Leaves a state for the page, if it wants one, and carries out a command of the console, if there is one."""
        if self.status is not None and self.status.is_wanted:
            self.status.leave(self.observer.snapshot())
        if self.control is not None:
            self.control.work()

    def take(self, reply: bytes) -> None:
        """Takes the reply to a command."""
        if self.control is not None:
            self.control.take(reply)
