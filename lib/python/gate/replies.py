"""Reply lines in their parts. The page docs/FORMATS.md of gate has the lines ("Events and replies")."""

from __future__ import annotations

import enum
import re
from dataclasses import dataclass
from typing import Any, Callable, Union

GREATEST_NUMBER = 9_007_199_254_740_991


class Kind(enum.Enum):
    """What a reply says, by the first word of its line."""

    ENTERED = "entered"
    LEFT = "left"
    ADMITTED = "admitted"
    PACKAGED = "packaged"
    LISTING = "listing"
    BLOCK = "block"
    HEADERS = "headers"
    FILTER = "filter"
    RPC = "rpc"
    CHAIN = "chain"
    SET = "set"
    FORGOTTEN = "forgotten"
    DENIED = "denied"
    REFUSED = "refused"
    FAULT = "fault"


class Fate(enum.Enum):
    """What became of a member of a package."""

    ADMITTED = "admitted"
    """It came into the pool."""
    KNOWN = "known"
    """It was in the pool before, or was there with another witness."""
    DENIED = "denied"
    """A rule denies it."""


class Then(enum.Enum):
    """What follows a denial for the session of the peer."""

    KEEP = "keep"
    """The session stays."""
    CLOSE = "close"
    """The session is closed."""
    RELAY = "relay"
    """The session stays, and the transaction is to be relayed once more."""


class NotAReply(ValueError):
    """The text is no reply line, or tells of no change."""


@dataclass(frozen=True)
class Member:
    """What became of a member of a package. A part that it doesn't have is empty, or 0."""

    fate: Fate
    txid: str = ""
    """Of ADMITTED and KNOWN."""
    fee: int = 0
    vsize: int = 0
    replaced: int = 0
    """Of ADMITTED, with the two before: how many entries it replaced."""
    rule: str = ""
    """Of DENIED."""
    token: str = ""
    """Of DENIED."""


@dataclass(frozen=True)
class Reply:
    """A reply line in its parts. A part that a line of this kind doesn't have is empty, or 0.

    Txids are hexadecimal as Bitcoin prints them, amounts in satoshi, sizes in virtual bytes, feerates in satoshi per 1,000
    virtual bytes.
    """

    line: str
    """The line, without its newline."""
    kind: Kind
    rule: str = ""
    """Of DENIED, REFUSED and an RPC that is denied: the rule, as `A35`. Of PACKAGED that of the package, if one denies it."""
    token: str = ""
    """Of these and FAULT: the reason, as `min relay fee not met`. Of PACKAGED also `success` or `transaction failed`."""
    then: Then = Then.KEEP
    """Of DENIED and PACKAGED: what follows for the session of the peer."""
    txid: str = ""
    fee: int = 0
    vsize: int = 0
    replaced: int = 0
    """Of ADMITTED, with the three before: how many entries the transaction replaced."""
    members: tuple[Member, ...] = ()
    """Of PACKAGED: the parent, and the child."""
    flags: tuple[str, ...] = ()
    """Of ENTERED: what the peer is permitted."""
    txids: tuple[str, ...] = ()
    """Of LISTING."""
    height: int = 0
    """Of BLOCK; of HEADERS that of the first header."""
    time: int = 0
    """Of BLOCK."""
    count: int = 0
    """Of HEADERS: how many there are; of LISTING: how many txids."""
    rate: int = 0
    """Of FILTER: the fee filter that is then in force."""
    status: int = 0
    """Of RPC: the HTTP status."""
    body: str = ""
    """Of RPC: the answer's JSON; empty if the user may not call the method, which `rule` then says."""
    tip: int = 0
    """Of CHAIN: the height after the event."""
    removed: int = 0
    """Of CHAIN: how many txids left the pool."""
    entered: int = 0
    """Of CHAIN: how many txids came into the pool."""
    blocks: int = 0
    """Of FORGOTTEN: how many blocks became part of the opening."""
    coins: int = 0
    """Of FORGOTTEN: how many coins are no longer known."""
    rows: int = 0
    """Of FORGOTTEN: how many verdicts are no longer known."""

    def __str__(self) -> str:
        return self.line

    @classmethod
    def parse(cls, line: Union[str, bytes]) -> Reply:
        """Reads a reply line, with its newline or without it. Raises NotAReply if it is none."""
        text = _text(line)
        word, space, rest = text.partition(" ")
        found = next(filter(None, (form.fullmatch(space + rest) for form in _FORMS.get(word, ()))), None)
        if not found:
            raise NotAReply("no reply line: " + _cut(text))
        reply = cls(text, Kind(word), **{_FIELDS.get(name, name): _READ.get(name, _number)(part) for name, part in found.groupdict().items()})
        if reply.count != len(reply.txids) and reply.kind is Kind.LISTING:
            raise NotAReply("a listing of %d with %d txids" % (reply.count, len(reply.txids)))
        return reply


def _text(line: Union[str, bytes]) -> str:
    try:
        text = line if isinstance(line, str) else line.decode()
    except UnicodeDecodeError as error:
        raise NotAReply("no reply line: it is not UTF-8") from error
    return text[:-1] if text.endswith("\n") else text


def _cut(text: str) -> str:
    return text if len(text) <= 80 else text[:80] + ".."


def _number(text: str) -> int:
    number = int(text)
    if number > GREATEST_NUMBER:
        raise NotAReply("a number above %d: %s" % (GREATEST_NUMBER, text))
    return number


_MEMBER = "|".join(
    (
        "admitted [0-9a-f]{64} fee (?:0|[1-9][0-9]{0,15}) vsize (?:0|[1-9][0-9]{0,15}) replaced (?:0|[1-9][0-9]{0,15})",
        "known [0-9a-f]{64}",
        "denied [A-Z][1-9][0-9]? [^ |\n]+(?: [^ |\n]+)*",
    )
)


def _member(text: str) -> Member:
    word, _, rest = text.partition(" ")
    fate = Fate(word)
    if fate is Fate.DENIED:
        rule, _, token = rest.partition(" ")
        return Member(fate, rule=rule, token=token)
    parts = rest.split(" ")
    fee, vsize, replaced = [_number(it) for it in parts[2::2]] or [0, 0, 0]
    return Member(fate, parts[0], fee, vsize, replaced)


# how the parts are written; the others are numbers
_WRITTEN = {
    "success": "success|transaction failed",
    "message": "[^ |\n]+(?: [^ |\n]+)*",
    "members": r"(?: \| (?:%s)){2}" % _MEMBER,
    "rule": "[A-Z][1-9][0-9]?",
    "token": "[^ \n]+(?: [^ \n]+)*",
    "then": "|".join(it.value for it in Then),
    "txid": "[0-9a-f]{64}",
    "txids": "(?: [0-9a-f]{64})*",
    "flags": "[a-z]+(?:,[a-z]+)*",
    "body": r"\{[^\n]*",
}
_READ: dict[str, Callable[[str], Any]] = {
    "rule": str,
    "token": str,
    "then": Then,
    "txid": str,
    "txids": lambda text: tuple(text.split()),
    "success": str,
    "message": str,
    "members": lambda text: tuple(_member(it) for it in text.split(" | ")[1:]),
    "flags": lambda text: () if text == "none" else tuple(text.split(",")),
    "body": str,
}


# parts that are written in ways of their own, and the names that they have in a reply
_FIELDS = {"success": "token", "message": "token"}


def _part(found: re.Match[str]) -> str:
    name = str(found[1])
    return "(?P<%s>%s)" % (name, _WRITTEN.get(name, "0|[1-9][0-9]{0,15}"))


def _form(text: str) -> re.Pattern[str]:
    """What stands behind the first word, where `{name}` is a part."""
    return re.compile(re.sub(r"\{(\w+)\}", _part, text))


_FORMS = {
    kind.value: [_form(text) for text in texts]
    for kind, texts in {
        Kind.ENTERED: [" {flags}"],
        Kind.LEFT: [""],
        Kind.ADMITTED: [" {txid} fee {fee} vsize {vsize} replaced {replaced}"],
        Kind.PACKAGED: [" {then} {success}{members}", " {then} {rule} {message}{members}"],
        Kind.LISTING: [" {count}{txids}"],
        Kind.BLOCK: [" {height} {time}"],
        Kind.HEADERS: [" {height} {count}"],
        Kind.FILTER: [" {rate}"],
        Kind.RPC: [" {status} {body}", " {status} denied {rule} {token}"],
        Kind.CHAIN: [" {tip} removed {removed} entered {entered}"],
        Kind.SET: [""],
        Kind.FORGOTTEN: [" {blocks} {coins} {rows}"],
        Kind.DENIED: [" {rule} {then} {token}"],
        Kind.REFUSED: [" {rule} {token}"],
        Kind.FAULT: [" {token}"],
    }.items()
}
