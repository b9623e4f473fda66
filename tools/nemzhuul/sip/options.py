"""The settings of the gateway, and the options of tools/sip that set them."""

from __future__ import annotations

import ipaddress
import re
from collections.abc import Callable, Sequence
from dataclasses import dataclass, replace

from nemzhuul.command_line import Refused, WrongWords
from nemzhuul.live.wire import Address, read_address
from nemzhuul.sip.limits import ANYWHERE
from nemzhuul.sip.messages import DEFAULT_PORT, SocketAddress
from nemzhuul.sip.users import UsersFile, read_users_file

FLAGS = ("messages", "no-passwords")


@dataclass(frozen=True)
class Settings:
    lines: Sequence[Address]
    users: UsersFile | None  # without one, each telephone is the user that it says
    listen: SocketAddress = SocketAddress("127.0.0.1", DEFAULT_PORT)
    media: tuple[int, int] = (20_000, 29_999)  # the first and the last UDP port
    networks: Sequence[str] = ()
    lead: int = 20  # milliseconds
    buffer: int = 50  # milliseconds
    prints_messages: bool = False
    seconds: int | None = None


def read_settings(words: Sequence[str]) -> Settings:
    """The settings that the arguments are."""
    settings = Settings((), None)
    given: set[str] = set()
    left = list(words)
    while left and left[0].startswith("--"):
        name = left.pop(0)[2:]
        if name not in FLAGS and not left:
            raise WrongWords
        settings = with_option(settings, name, "" if name in FLAGS else left.pop(0))
        given.add(name)
    if not left or left[0].startswith("-") or {"users", "no-passwords"} <= given:
        raise WrongWords
    if not {"users", "no-passwords"} & given:
        raise Refused("it needs --users FILE, or --no-passwords: without passwords, all processes of this machine can call")
    if settings.users is None and not ipaddress.ip_address(settings.listen.host).is_loopback:
        raise Refused("--no-passwords listens on 127.0.0.1 only: who reaches another address could call as anyone")
    return replace(settings, lines=[read_address(word) for word in left])


def with_option(settings: Settings, name: str, word: str) -> Settings:
    changes: dict[str, Callable[[], Settings]] = {
        "users": lambda: replace(settings, users=read_users_file(word)),
        "no-passwords": lambda: settings,
        "listen": lambda: replace(settings, listen=read_listen_address(word)),
        "media": lambda: replace(settings, media=read_ports(word)),
        "allow": lambda: replace(settings, networks=[*settings.networks, str(ipaddress.IPv4Network(word))]),
        "buffer": lambda: replace(settings, buffer=int_of(word, 20, 500)),
        "lead": lambda: replace(settings, lead=int_of(word, 0, 500)),
        "messages": lambda: replace(settings, prints_messages=True),
        "seconds": lambda: replace(settings, seconds=int_of(word, 1, 999_999_999)),
    }
    if name not in changes:
        raise WrongWords
    try:
        return changes[name]()
    except ValueError:
        raise WrongWords from None


def read_listen_address(word: str) -> SocketAddress:
    host, _, port = word.rpartition(":")
    address = SocketAddress(str(ipaddress.IPv4Address(host)), int_of(port, 0, 65_535))
    if address.host == ANYWHERE:
        raise Refused(f"{ANYWHERE} is not an address that a telephone can send to: name one of this machine")
    return address


def read_ports(word: str) -> tuple[int, int]:
    first, _, last = word.partition("-")
    return int_of(first, 1024, 65_535), int_of(last, 1024, 65_535)


def int_of(word: str, least: int, most: int) -> int:
    if not re.fullmatch("[0-9]{1,9}", word) or not least <= int(word) <= most:
        raise WrongWords
    return int(word)
