"""Digest authentication (RFC 2617, MD5, `auth`): who a request is from, by the password of the users file.

A nonce is a sealed time, so that no state is kept for a challenge. The count of a nonce has to rise, so that nobody can
repeat a request of another one.
"""

from __future__ import annotations

import hashlib
import hmac
import os
import re
from collections.abc import Mapping
from dataclasses import dataclass

from nemzhuul.sip.limits import Failures
from nemzhuul.sip.messages import Field, Malformed, Message, Received, read_uri, split_outside, token
from nemzhuul.sip.timers import Now

REALM = "exchange"
NONCE_SECONDS = 300
MAX_FAILURES = 20  # wrong replies for a user from an address, until it is not heard for some time
MAX_NONCES = 10_000


@dataclass(frozen=True)
class Credentials:
    """The words of an Authorization field."""

    username: str
    realm: str
    nonce: str
    uri: str
    response: str
    count: str
    client_nonce: str


def read_credentials(text: str) -> Credentials | None:
    """The credentials of an Authorization field; None if they are not of digest with MD5 and `auth`."""
    kind, _, rest = text.partition(" ")
    if kind.lower() != "digest":
        return None
    words: dict[str, str] = {}
    for part in split_outside(rest, ","):
        name, _, value = part.partition("=")
        words.setdefault(name.strip().lower(), value.strip().strip('"'))
    usual = words.get("algorithm", "MD5").upper() == "MD5" and words.get("qop") == "auth"
    names = ("username", "realm", "nonce", "uri", "response", "nc", "cnonce")
    if not usual or not words.get("response", "").isascii():
        return None
    return Credentials(*(words.get(name, "") for name in names))


def digest(credentials: Credentials, method: str, password: str) -> str:
    """The response that RFC 2617 asks for."""

    def md5(*parts: str) -> str:
        return hashlib.md5(":".join(parts).encode("utf-8", "surrogateescape")).hexdigest()

    first, second = md5(credentials.username, credentials.realm, password), md5(method, credentials.uri)
    return md5(first, credentials.nonce, credentials.count, credentials.client_nonce, "auth", second)


class Authenticator:
    """Proves who a request is from. Without passwords, each request is from the user that it says."""

    def __init__(self, passwords: Mapping[str, str] | None, now: Now) -> None:
        self.passwords = passwords
        self.now = now
        self.secret = os.urandom(16)
        self.counts: dict[str, int] = {}  # the highest of each nonce that was used
        self.failures = Failures(now, MAX_FAILURES)  # by address and user

    def user_of(self, request: Received) -> str | None:
        """The digits of the user that a request is from; None if it has to prove that."""
        if self.passwords is None:
            return read_uri(request.sender.uri).user
        credentials = read_credentials(request.get("authorization"))
        if credentials is None or not self.is_fresh(credentials.nonce):
            return None
        if self.is_right(credentials, request):
            return credentials.username
        self.failures.add(request.source.host, credentials.username)
        return None

    def is_right(self, credentials: Credentials, request: Message) -> bool:
        assert self.passwords is not None
        password = self.passwords.get(credentials.username)
        wanted = digest(credentials, request.method, token() if password is None else password)
        if not hmac.compare_digest(wanted, credentials.response.lower()) or password is None:
            return False
        if credentials.realm != REALM or not is_same_user(credentials.uri, request.uri):
            return False
        return self.takes_count(credentials.nonce, credentials.count)

    def challenge(self, request: Message) -> list[Field]:
        """The field of a 401 (RFC 2617)."""
        credentials = read_credentials(request.get("authorization"))
        is_stale = credentials is not None and self.is_own(credentials.nonce) and not self.is_fresh(credentials.nonce)
        stale = ", stale=true" if is_stale else ""
        words = f'Digest realm="{REALM}", nonce="{self.nonce()}", algorithm=MD5, qop="auth"{stale}'
        return [Field("www-authenticate", words)]

    # ---- nonces

    def nonce(self) -> str:
        stamp = f"{int(self.now()):08x}{token(4)}"
        return stamp + self.seal(stamp)

    def seal(self, text: str) -> str:
        return hmac.new(self.secret, text.encode("utf-8", "surrogateescape"), "sha256").hexdigest()[:24]

    def is_own(self, nonce: str) -> bool:
        return re.fullmatch("[0-9a-f]{40}", nonce) is not None and hmac.compare_digest(self.seal(nonce[:16]), nonce[16:])

    def is_fresh(self, nonce: str) -> bool:
        return self.is_own(nonce) and self.age(nonce) < NONCE_SECONDS

    def age(self, nonce: str) -> float:
        return self.now() - int(nonce[:8], 16)

    def takes_count(self, nonce: str, count: str) -> bool:
        """Whether a count of a nonce is higher than those before, so that the request is not a repetition by another."""
        if not re.fullmatch("[0-9A-Fa-f]{8}", count) or int(count, 16) <= self.counts.get(nonce, 0):
            return False
        while len(self.counts) >= MAX_NONCES:
            oldest = next(iter(self.counts))
            if self.age(oldest) < NONCE_SECONDS:
                return False
            del self.counts[oldest]
        self.counts[nonce] = int(count, 16)
        return True

    def is_ignored(self, request: Received) -> bool:
        """Whether a request is for a user for whom its address has given too many wrong replies."""
        credentials = read_credentials(request.get("authorization")) if self.failures.counts else None
        return credentials is not None and self.failures.is_muted(request.source.host, credentials.username)


def is_same_user(one: str, other: str) -> bool:
    """Whether two URIs have one user; a proxy may have changed the rest."""
    try:
        return read_uri(one).user == read_uri(other).user
    except Malformed:
        return False
