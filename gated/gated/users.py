"""Who calls: basic authentication as bitcoind has it, by a cookie of our own and by `rpcauth` lines, and what becomes of wrong
passwords. What a user may call is the gate's affair (`rpcwhitelist`)."""

from __future__ import annotations

import asyncio
import base64
import binascii
import hashlib
import hmac
import os
import re
import secrets
from dataclasses import dataclass
from pathlib import Path
from typing import Iterable, Optional

from .door import Seldom
from .opening import OWN_USER

# seconds that a wrong password waits behind the one before, as in bitcoind
WRONG_PASSWORD_SECONDS = 0.25
# whoever has so many seconds of waiting before it is not looked at
MOST_WAITED_SECONDS = 30.0
# addresses whose wrong passwords are remembered at the most
MOST_ADDRESSES = 10_000
COOKIE_USER = "__cookie__"
# one word of a line of the gate
NAME = re.compile(r"[!-~]+")
FORM = re.compile(r"([^:$]+):([^$]+)\$([0-9a-fA-F]{64})")


class BadUser(ValueError):
    """A line of `rpcauth` that can't be used, or a cookie that can't be written."""


@dataclass(frozen=True)
class RpcAuth:
    """`USER:SALT$HASH`, as Bitcoin Core's share/rpcauth/rpcauth.py prints it."""

    user: str
    salt: str
    hash: str

    @staticmethod
    def read(text: str) -> RpcAuth:
        found = FORM.fullmatch(text)
        if not found or not NAME.fullmatch(found[1]):
            raise BadUser("rpcauth is USER:SALT$HASH, with a user without spaces, and not %r" % text)
        if found[1] in (OWN_USER, COOKIE_USER):
            raise BadUser("the user %s is gated's own" % found[1])
        return RpcAuth(found[1], found[2], found[3].lower())

    def is_password(self, password: str) -> bool:
        found = hmac.new(self.salt.encode(), password.encode(), hashlib.sha256).hexdigest()
        return hmac.compare_digest(found, self.hash)


class Users:
    """The users that are let in."""

    def __init__(self, lines: Iterable[str], cookie: Optional[Path]) -> None:
        self._users = [RpcAuth.read(it) for it in lines]
        self._cookie = cookie
        self._password = secrets.token_hex(32)

    def write_cookie(self) -> None:
        """Writes the cookie, which nobody but its owner may read."""
        if self._cookie is None:
            return
        new = self._cookie.with_name(self._cookie.name + ".new")
        try:
            new.unlink(missing_ok=True)
            with open(os.open(new, os.O_WRONLY | os.O_CREAT | os.O_EXCL, 0o600), "w") as file:
                file.write("%s:%s" % (COOKIE_USER, self._password))
            new.rename(self._cookie)
        except OSError as error:
            raise BadUser("the cookie can't be written: %s: %s" % (self._cookie, error.strerror)) from error

    def remove_cookie(self) -> None:
        if self._cookie is not None:
            self._cookie.unlink(missing_ok=True)

    def user_of(self, header: Optional[str]) -> Optional[str]:
        """The user that an `Authorization` header shows to be there, or None."""
        kind, _, digits = (header or "").partition(" ")
        if kind.lower() != "basic":
            return None
        try:
            name, colon, password = base64.b64decode(digits.strip(), validate=True).decode().partition(":")
        except (binascii.Error, UnicodeDecodeError, ValueError):
            return None
        if not colon:
            return None
        if self._cookie is not None and name == COOKIE_USER:
            return name if hmac.compare_digest(password.encode(), self._password.encode()) else None
        return next((it.user for it in self._users if it.user == name and it.is_password(password)), None)


class Guesses:
    """Slows down whoever guesses passwords. Of an address one wrong password is answered after the other; one that has many
    waiting is not looked at. Whoever shows a right password is not slowed down, however many guess beside it, unless it comes
    newly from an address that has many waiting."""

    def __init__(self) -> None:
        # when the last wrong password of an address has waited
        self._waits_until: dict[str, float] = {}
        self._seldom = Seldom()

    def are_many(self, address: str) -> bool:
        return self._waits_until.get(address, 0.0) - asyncio.get_running_loop().time() > MOST_WAITED_SECONDS

    async def wrong(self, address: str) -> None:
        """Waits for the answer to a wrong password."""
        self._seldom.warning("a wrong password, or none, from %s" % address)
        now = asyncio.get_running_loop().time()
        if len(self._waits_until) >= MOST_ADDRESSES:
            self._waits_until = {it: until for it, until in self._waits_until.items() if until > now}
        until = max(now, self._waits_until.get(address, 0.0)) + WRONG_PASSWORD_SECONDS
        self._waits_until[address] = until
        await asyncio.sleep(until - now)
