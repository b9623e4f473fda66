"""Gives an operator's commands to a running exchange, and prints the answers."""

from __future__ import annotations

import contextlib
import os
import re
import socket
import sys
from collections.abc import Iterator, Sequence
from pathlib import Path

from nemzhuul.command_line import NAME, Refused, WrongWords, say, write_output
from nemzhuul.live.control import HELP, MAX_COMMAND, OK, REFUSED
from nemzhuul.live.wire import Address

try:
    import readline
except ImportError:  # a Python that was built without it
    readline = None  # type: ignore[assignment]

COMMANDS = "".join(f"    {command:<16} {meaning}\n" for command, meaning in HELP.items())
USAGE = f"""usage: tools/console PATH [COMMAND ..]
gives a command to the exchange whose console listens at PATH, which `tools/attach` runs, and prints the answer. Without a
COMMAND it reads commands from standard input, one in a line, until `quit`. On a terminal, it has history and completion.
{COMMANDS}A command that connects or releases slots is in the log of the exchange, and the answer is its line of the report. The
status is 1 if a command was refused, or changed nothing because a slot was not as it has to be."""

PROMPT = "> "
ANSWER_SECONDS = 10  # that the exchange has for an answer
MAX_HISTORY = 500  # lines
HISTORY = "nemzhuul/console"  # below the user's folder for states


def main(*words: str) -> str:
    if not words or words[0].startswith("-"):
        raise WrongWords
    path = words[0].removeprefix("unix:")
    with contextlib.closing(Client(Address(f"unix:{path}", path=path))) as client:
        if len(words) > 1:
            client.ask(" ".join(words[1:]))
        else:
            converse(client)
    return ""


def converse(client: Client) -> None:
    """Gives the commands of standard input, until one of them or the exchange ends it."""
    refusals = 0
    for command in commands():
        try:
            client.ask(command)
        except Refused as refusal:
            if client.has_ended:
                raise
            refusals += 1
            say(f"{NAME}: {refusal}")
        if client.has_ended:
            break
    if refusals and not sys.stdin.isatty():
        raise Refused(f"{refusals} commands were refused" if refusals > 1 else "a command was refused")


class Client:
    """A connection to the console of an exchange."""

    def __init__(self, address: Address) -> None:
        self.address = address
        self.connection = address.connect()
        self.connection.settimeout(ANSWER_SECONDS)
        self.lines = self.connection.makefile("rb")
        self.has_ended = False

    def close(self) -> None:
        self.lines.close()
        self.connection.close()

    def ask(self, command: str) -> None:
        """Gives a command, and prints its answer. Refuses as the exchange does."""
        text = command.encode("utf-8", "backslashreplace")
        if len(text) > MAX_COMMAND or b"\n" in text:
            raise Refused(f"a command is one line of at most {MAX_COMMAND} octets")
        try:
            self.connection.sendall(text + b"\n")
            for line in self.lines:
                end, _, why = line.decode("utf-8", "replace").rstrip("\n").partition(" ")
                if end == OK and not why:
                    self.has_ended = command.split() == ["quit"]
                    return
                if end == REFUSED:
                    raise Refused(why)
                write_output(line)
        except socket.timeout:
            self.has_ended = True
            raise Refused(f"{self.address.word} gives no answer") from None
        except OSError:
            pass  # the exchange has closed it
        self.has_ended = True
        raise Refused("the exchange has ended")


def commands() -> Iterator[str]:
    """The commands of the user, without empty lines."""
    with history():
        while True:
            try:
                line = input(PROMPT if sys.stdin.isatty() else "")
            except EOFError:
                if sys.stdin.isatty():
                    write_output("\n")
                return
            except UnicodeDecodeError:
                raise Refused("standard input is no text") from None
            if line.strip():
                yield line


@contextlib.contextmanager
def history() -> Iterator[None]:
    """Has lines of a terminal edited and completed, with the history of earlier consoles."""
    if readline is None or not sys.stdin.isatty():
        yield
        return
    path = history_path()
    with contextlib.suppress(OSError):
        readline.read_history_file(path)
    readline.set_history_length(MAX_HISTORY)
    readline.set_completer_delims("")
    readline.set_completer(complete)
    readline.parse_and_bind("tab: complete")
    try:
        yield
    finally:
        with contextlib.suppress(OSError):
            path.parent.mkdir(mode=0o700, parents=True, exist_ok=True)
            readline.write_history_file(path)


def history_path() -> Path:
    folder = os.environ.get("XDG_STATE_HOME", "")
    return (Path(folder) if os.path.isabs(folder) else Path.home() / ".local" / "state") / HISTORY


def complete(begun: str, number: int) -> str | None:
    """One of the completions of a line, by its number."""
    return (*completions(begun), None)[number]


def completions(begun: str) -> Sequence[str]:
    """The commands that begin so, up to what differs: a command with arguments has a space after its name."""
    start = re.sub(" +", " ", begun.lstrip())
    names = (command_start(command) for command in HELP)
    return list(dict.fromkeys(name for name in names if name.startswith(start)))


def command_start(command: str) -> str:
    """A command as far as it is the same for all arguments."""
    words = [word for word in command.split() if word.islower()]
    return " ".join(words) + " " * (len(words) < len(command.split()))
