"""The forms of Bitcoin Core's RPC: calls, parameters by place and by name with the errors that Core gives for wrong ones, amounts
in BTC with eight places, entries and replies as its clients expect them."""

from __future__ import annotations

import re
from dataclasses import dataclass
from decimal import Decimal
from enum import Enum
from typing import Any, NotRequired, Optional, TypedDict, Union

import simplejson

SATOSHI = 100_000_000
PLACES = 8
MOST_COINS = 21_000_000
PARSE_ERROR, INVALID_REQUEST, METHOD_NOT_FOUND, INVALID_PARAMS = -32700, -32600, -32601, -32602
MISC_ERROR, FORBIDDEN, TYPE_ERROR, NO_SUCH_ENTRY, INVALID_PARAMETER, DECODE_ERROR = -1, -2, -3, -5, -8, -22
VERIFY_ERROR, VERIFY_REJECTED, IN_WARMUP = -25, -26, -28
# the status of an answer to a single call of version 1, by its code; 500 for any other
STATUSES = {INVALID_REQUEST: 400, METHOD_NOT_FOUND: 404, FORBIDDEN: 403}
# what Core says of a transaction that does not parse
UNREADABLE = "TX decode failed. Make sure the tx has at least one input."
# what Core says of a package that is none, and of one that burns more than its caller allows, by the gate's rule
SAID_OF_PACKAGE = {
    "J1": "Unspendable output exceeds maximum configured by user (maxburnamount)",
    "J2": "package topology disallowed. not child-with-parents or parents depend on each other.",
}
# what a package's members may pay for 1,000 virtual bytes at the most, in satoshi, if the caller doesn't say it
USUAL_RATE = 10_000_000
HASH_DIGITS = 64
MOST_TRIED = 25
MOST_INDEX = 2**31 - 1
AMOUNT = re.compile(r"(-?)(0|[1-9][0-9]*)(?:\.([0-9]+))?(?:[eE]([+-]?[0-9]{1,4}))?")
HEXADECIMAL = re.compile(r"[0-9a-fA-F]*")


class Fault(Exception):
    """A call is answered by an error."""

    def __init__(self, code: int, message: str, rule: Optional[str] = None, status: Optional[int] = None) -> None:
        super().__init__(message)
        self.error: dict[str, Any] = {"code": code, "message": message, **({"rule": rule} if rule else {})}
        self.status: int = STATUSES.get(code, 500) if status is None else status


class TooDeep(ValueError):
    """JSON whose lists and objects are nested too deep to be read or written."""


class WrongCount(Exception):
    """A call has fewer parameters than its method needs, or more than it has: Core answers by the method's help."""


# JSON


class Number(simplejson.RawJSON):  # type: ignore[misc]
    """A number with places or an exponent, as it is written: no digit of an amount is lost."""

    def __str__(self) -> str:
        return str(self.encoded_json)


def amount(satoshi: int) -> Number:
    """Satoshi, printed as BTC."""
    whole, rest = divmod(abs(satoshi), SATOSHI)
    return Number("%s%d.%08d" % ("-" if satoshi < 0 else "", whole, rest))


def read_json(text: str) -> Any:
    """What a text of JSON has; numbers with places stay as they are written. A ValueError if it is none."""
    try:
        return simplejson.loads(text, parse_float=Number, parse_constant=_no_constant)
    except RecursionError as error:
        raise TooDeep() from error


def text_of(value: Any) -> str:
    """The text of JSON; TooDeep for a value that is nested too deep."""
    try:
        return str(simplejson.dumps(value, separators=(",", ":")))
    except RecursionError as error:
        raise TooDeep() from error


def _no_constant(name: str) -> Any:
    raise ValueError("%s is no JSON" % name)


# calls


@dataclass(frozen=True)
class Call:
    """One call of a client."""

    method: str = ""
    # its parameters as they came: a list, or an object with their names
    given: Union[list[Any], dict[str, Any], None] = None
    # the text of its id
    id: str = "null"
    # whether it is of JSON-RPC 2.0, and whether nobody waits for its answer
    is_2: bool = False
    is_notification: bool = False


def answered_as(value: Any) -> Call:
    """As much of a call as its answer needs, whether it is one or not."""
    given = value if isinstance(value, dict) else {}
    try:
        return Call(id=text_of(given.get("id")), is_2=given.get("jsonrpc") == "2.0")
    except TooDeep:
        return Call()


def call_of(value: Any) -> Call:
    """A call from its JSON; a Fault if it has not the form of one."""
    if not isinstance(value, dict):
        raise Fault(INVALID_REQUEST, "Invalid Request object")
    version = value.get("jsonrpc")
    if version is not None and version not in ("1.0", "1.1", "2.0"):
        raise Fault(INVALID_REQUEST, "JSON-RPC version not supported")
    method, given = value.get("method"), value.get("params")
    if not isinstance(method, str):
        raise Fault(INVALID_REQUEST, "Missing method" if method is None else "Method must be a string")
    if given is not None and not isinstance(given, (list, dict)):
        raise Fault(INVALID_REQUEST, "Params must be an array or object")
    is_2 = version == "2.0"
    return Call(method, given, text_of(value.get("id")), is_2, is_2 and "id" not in value)


class Kind(Enum):
    """What a parameter is, by Core's names."""

    STRING = "string"
    BOOL = "bool"
    ARRAY = "array"
    # an amount, or a number that may be a truth, is looked at by whoever takes it
    ANY = ""


@dataclass(frozen=True)
class Parameter:
    """A parameter of a method. It may have several names."""

    name: str
    kind: Kind
    is_needed: bool = False

    @property
    def names(self) -> list[str]:
        return self.name.split("|")


TXID = Parameter("txid", Kind.STRING, is_needed=True)
VERBOSE = Parameter("verbose", Kind.BOOL)
RATE, BURN = Parameter("maxfeerate", Kind.ANY), Parameter("maxburnamount", Kind.ANY)
# the methods that the gate answers
METHODS: dict[str, tuple[Parameter, ...]] = {
    "sendrawtransaction": (Parameter("hexstring", Kind.STRING, is_needed=True), RATE, BURN),
    "testmempoolaccept": (Parameter("rawtxs", Kind.ARRAY, is_needed=True), RATE),
    "submitpackage": (Parameter("package", Kind.ARRAY, is_needed=True), RATE, BURN),
    "getrawmempool": (VERBOSE, Parameter("mempool_sequence", Kind.BOOL)),
    "getmempoolentry": (TXID,),
    "getmempoolancestors": (TXID, VERBOSE),
    "getmempooldescendants": (TXID, VERBOSE),
    "getmempoolinfo": (),
    "getrawtransaction": (TXID, Parameter("verbosity|verbose", Kind.ANY), Parameter("blockhash", Kind.STRING)),
    "gettxspendingprevout": (Parameter("outputs", Kind.ARRAY, is_needed=True),),
}


def arguments(call: Call) -> list[Any]:
    """The parameters of a call of the gate's in their places, as many as the method has, None for what is not given. What is
    wrong with them is a Fault in Core's words, or WrongCount."""
    wanted = METHODS[call.method]
    placed = _in_places(wanted, call.given)
    if len(placed) > len(wanted) or any(it.is_needed and index >= len(placed) for index, it in enumerate(wanted)):
        raise WrongCount(call.method)
    placed += [None] * (len(wanted) - len(placed))
    wrong = {
        "Position %d (%s)" % (index, it.name): "JSON value of type %s is not of expected type %s" % (_kind_of(value), it.kind.value)
        for index, (it, value) in enumerate(zip(wanted, placed), 1)
        if it.kind is not Kind.ANY and (value is not None or it.is_needed) and _kind_of(value) != it.kind.value
    }
    if wrong:
        raise Fault(TYPE_ERROR, "Wrong type passed:\n%s" % simplejson.dumps(wrong, indent=4))
    for it, value in zip(wanted, placed):
        if it is TXID:
            check_hash("parameter 1", value)
    return placed


def _in_places(wanted: tuple[Parameter, ...], given: Union[list[Any], dict[str, Any], None]) -> list[Any]:
    """Parameters in their places, those that have names too."""
    if given is None:
        return []
    if isinstance(given, list):
        return list(given)
    placed = given.get("args", [])
    if not isinstance(placed, list):
        raise Fault(TYPE_ERROR, "JSON value of type %s is not of expected type array" % _kind_of(placed))
    count, placed = len(placed), list(placed)
    for name, value in given.items():
        if name == "args":
            continue
        place = next((index for index, it in enumerate(wanted) if name in it.names), None)
        if place is None:
            raise Fault(INVALID_PARAMETER, "Unknown named parameter %s" % name)
        if place < count:
            raise Fault(INVALID_PARAMETER, "Parameter %s specified twice both as positional and named argument" % name)
        placed += [None] * (place + 1 - len(placed))
        placed[place] = value
    while len(placed) > count and placed[-1] is None:
        placed.pop()
    return placed


def _kind_of(value: Any) -> str:
    """Core's name for the kind of a value."""
    if isinstance(value, bool):
        return "bool"
    names: dict[type, str] = {str: "string", list: "array", dict: "object", int: "number", Number: "number"}
    return "null" if value is None else names[type(value)]


def check_hash(name: str, value: str) -> None:
    """A Fault if this text is no hash."""
    if len(value) != HASH_DIGITS:
        raise Fault(INVALID_PARAMETER, "%s must be of length %d (not %d, for '%s')" % (name, HASH_DIGITS, len(value), value))
    if not HEXADECIMAL.fullmatch(value):
        raise Fault(INVALID_PARAMETER, "%s must be hexadecimal string (not '%s')" % (name, value))


def check_listed(listed: list[Any]) -> None:
    """A Fault if this is no list of transactions to be tried, and no package."""
    if not 1 <= len(listed) <= MOST_TRIED:
        raise Fault(INVALID_PARAMETER, "Array must contain between 1 and %d transactions." % MOST_TRIED)
    for it in listed:
        if not isinstance(it, str):
            raise Fault(TYPE_ERROR, "JSON value of type %s is not of expected type string" % _kind_of(it))


def check_outputs(listed: list[Any]) -> None:
    """A Fault if this is no list of outpoints."""
    if not listed:
        raise Fault(INVALID_PARAMETER, "Invalid parameter, outputs are missing")
    for it in listed:
        if not isinstance(it, dict):
            raise Fault(TYPE_ERROR, "JSON value of type %s is not of expected type object" % _kind_of(it))
        for name, kind in (("txid", "string"), ("vout", "number")):
            if name not in it:
                raise Fault(TYPE_ERROR, "Missing %s" % name)
            if _kind_of(it[name]) != kind:
                raise Fault(TYPE_ERROR, "JSON value of type %s for field %s is not of expected type %s" % (_kind_of(it[name]), name, kind))
        unknown = next((name for name in it if name not in ("txid", "vout")), None)
        if unknown is not None:
            raise Fault(TYPE_ERROR, "Unexpected key %s" % unknown)
        check_hash("txid", it["txid"])
        if not isinstance(it["vout"], int) or it["vout"] > MOST_INDEX:
            raise Fault(MISC_ERROR, "JSON integer out of range")
        if it["vout"] < 0:
            raise Fault(INVALID_PARAMETER, "Invalid parameter, vout cannot be negative")


def satoshi_of(value: Any) -> int:
    """An amount in BTC, a number or a text, as satoshi; the same forms are amounts as in Core."""
    if isinstance(value, bool) or not isinstance(value, (int, str, Number)):
        raise Fault(TYPE_ERROR, "Amount is not a number or string")
    found = AMOUNT.fullmatch(str(value))
    if not found:
        raise Fault(TYPE_ERROR, "Invalid amount")
    sign, whole, places, exponent = found[1], found[2], found[3] or "", int(found[4] or 0)
    digits = (whole + places).rstrip("0")
    # how many zeros stand behind the digits once the amount is in satoshi
    zeros = exponent - len(places) + len(whole + places) - len(digits) + PLACES
    if not digits.strip("0"):
        return 0
    if zeros < 0:
        raise Fault(TYPE_ERROR, "Invalid amount")
    most = str(MOST_COINS * SATOSHI)
    if sign or len(digits.lstrip("0")) + zeros > len(most) or int(digits + "0" * zeros) > int(most):
        raise Fault(TYPE_ERROR, "Amount out of range")
    return int(digits + "0" * zeros)


def rate_of(value: Any) -> int:
    """A feerate in BTC for 1,000 virtual bytes as satoshi."""
    found = satoshi_of(value)
    if found >= SATOSHI:
        raise Fault(INVALID_PARAMETER, "Fee rates larger than or equal to 1BTC/kvB are not accepted")
    return found


# what the gate says, and the same as a node says it


class GateFees(TypedDict):
    base: int


# what the gate says of a transaction that was tried; one of a list that it judges as a package has no `allowed` if a rule denies all
# of them, or if another one is denied
GateTrial = TypedDict(
    "GateTrial",
    {
        "txid": str, "wtxid": str, "allowed": bool, "vsize": int, "fees": GateFees, "rule": str, "reject-reason": str,
        "package-error": str,
    },
    total=False,
)
# what it says of a member of a package that it took, or that it had; of one that it has with another witness; of one that it denies
GateMemberFees = TypedDict("GateMemberFees", {"base": int, "effective-feerate": int, "effective-includes": list[str]}, total=False)
GateMember = TypedDict(
    "GateMember", {"txid": str, "vsize": int, "fees": GateMemberFees, "other-wtxid": str, "error": str, "rule": str}, total=False
)
# what it says of a package, its members by their wtxids; the rule is one that denies all of it
GatePackage = TypedDict(
    "GatePackage", {"package_msg": str, "tx-results": dict[str, GateMember], "replaced-transactions": list[str], "rule": NotRequired[str]}
)
# what it says of an entry
GateEntry = TypedDict(
    "GateEntry",
    {
        "fee": int, "ancestorfees": int, "descendantfees": int, "vsize": int, "weight": int, "time": int, "ancestorcount": int,
        "ancestorsize": int, "descendantcount": int, "descendantsize": int, "wtxid": str, "depends": list[str], "spentby": list[str],
        "bip125-replaceable": bool,
    },
)  # fmt: skip


class GateInfo(TypedDict):
    """What the gate says of its pool."""

    size: int
    bytes: int
    maxmempool: int
    mempoolminfee: int
    minrelaytxfee: int


def entry(told: GateEntry, height: int) -> dict[str, Any]:
    """An entry of the gate as a node has it. The height is that of the tip when it came."""
    base = amount(told["fee"])
    fees = {"base": base, "modified": base, "ancestor": amount(told["ancestorfees"]), "descendant": amount(told["descendantfees"])}
    return {
        "vsize": told["vsize"], "weight": told["weight"], "time": told["time"], "height": height,
        "descendantcount": told["descendantcount"], "descendantsize": told["descendantsize"], "ancestorcount": told["ancestorcount"],
        "ancestorsize": told["ancestorsize"], "wtxid": told["wtxid"], "fees": fees, "depends": told["depends"], "spentby": told["spentby"],
        "bip125-replaceable": told["bip125-replaceable"],
    }  # fmt: skip


def pool_info(told: GateInfo, by_node: dict[str, Any]) -> dict[str, Any]:
    """What the gate says of its pool as its node does, and what it can't say by the node's words."""
    rates = {"mempoolminfee": amount(told["mempoolminfee"]), "minrelaytxfee": amount(told["minrelaytxfee"])}
    found: dict[str, Any] = {"loaded": True, "size": told["size"], "bytes": told["bytes"], "maxmempool": told["maxmempool"], **rates}
    return {**{name: _plain(value) for name, value in by_node.items()}, **found}


def _plain(value: Any) -> Any:
    """A value of a node's, its amount with all places and without an exponent."""
    return Number(format(value, "f")) if isinstance(value, Decimal) else value


def trial(told: dict[str, Any]) -> dict[str, Any]:
    """What the gate says of a transaction that was tried, with its fee in BTC."""
    if not told.get("allowed"):
        return told
    return {**told, "fees": {"base": amount(told["fees"]["base"])}}


def package(told: GatePackage) -> dict[str, Any]:
    """What the gate says of a package as a node says it, with its rules beside."""
    results = {wtxid: _member(it) for wtxid, it in told["tx-results"].items()}
    rule = {"rule": told["rule"]} if "rule" in told else {}
    return {"package_msg": told["package_msg"], "tx-results": results, "replaced-transactions": told["replaced-transactions"], **rule}


def _member(told: GateMember) -> dict[str, Any]:
    """What became of a member of a package."""
    if "fees" not in told:
        return dict(told)
    of_gate, fees = told["fees"], dict[str, Any](base=amount(told["fees"]["base"]))
    if "effective-feerate" in of_gate:
        fees.update({"effective-feerate": amount(of_gate["effective-feerate"]), "effective-includes": of_gate["effective-includes"]})
    return {"txid": told["txid"], "vsize": told["vsize"], "fees": fees}
