"""What a node answers, as far as it is read, and what is made of it."""

from __future__ import annotations

import decimal
from dataclasses import dataclass, field
from typing import Any, Mapping, Optional, Sequence, TypedDict, Union

from .sources import Refused, Unusable
from .transactions import Transaction, read_transaction

SATOSHI = 100000000
# an amount in BTC, as JSON has it
Amount = Union[decimal.Decimal, int, str]


class ChainInfo(TypedDict):
    """`getblockchaininfo`."""

    chain: str
    blocks: int
    bestblockhash: str


class _NetworkInfo(TypedDict):
    version: int


class NetworkInfo(_NetworkInfo, total=False):
    """`getnetworkinfo`."""

    subversion: str


class _PoolInfo(TypedDict):
    maxmempool: int
    mempoolminfee: Amount
    minrelaytxfee: Amount


class PoolInfo(_PoolInfo, total=False):
    """`getmempoolinfo`. What stands here are the fields that later releases have."""

    incrementalrelayfee: Amount
    fullrbf: bool
    permitbaremultisig: bool
    maxdatacarriersize: int


class PoolListing(TypedDict):
    """`getrawmempool false true`."""

    txids: list[str]
    mempool_sequence: int


class Fees(TypedDict):
    base: Amount


class _EntryInfo(TypedDict):
    time: int
    vsize: int
    ancestorcount: int
    depends: list[str]


class EntryInfo(_EntryInfo, total=False):
    """`getmempoolentry`, and each entry of `getrawmempool true`. An early release has the fee outside `fees`."""

    height: int
    fees: Fees
    fee: Amount
    spentby: list[str]


class Script(TypedDict):
    hex: str


class Output(TypedDict):
    """An output of a transaction."""

    n: int
    value: Amount
    scriptPubKey: Script


class OutputInfo(TypedDict):
    """`gettxout`, where there is one."""

    bestblock: str
    confirmations: int
    value: Amount
    scriptPubKey: Script
    coinbase: bool


class SpentOutput(TypedDict):
    """What an input of a block spends, since Bitcoin Core 23.0."""

    generated: bool
    height: int
    value: Amount
    scriptPubKey: Script


class InputInfo(TypedDict, total=False):
    """An input of a transaction; the first of a block has `coinbase` and no outpoint."""

    coinbase: str
    txid: str
    vout: int
    prevout: SpentOutput


class _TransactionInfo(TypedDict):
    txid: str
    hash: str
    vin: list[InputInfo]
    vout: list[Output]


class TransactionInfo(_TransactionInfo, total=False):
    """A transaction of a block, and `getrawtransaction` with its details, which names its block."""

    blockhash: str


class _HeaderInfo(TypedDict):
    hash: str
    height: int
    time: int


class HeaderInfo(_HeaderInfo, total=False):
    """`getblockheader`. The first block has none before it."""

    previousblockhash: str


class BlockInfo(TypedDict):
    """`getblock` with its transactions."""

    hash: str
    height: int
    tx: list[TransactionInfo]


class TrialFees(TypedDict):
    base: Amount


# what `testmempoolaccept` says of one transaction; one of a list that the node doesn't reach has no `allowed`. The names are none of
# Python's
TrialInfo = TypedDict(
    "TrialInfo",
    {
        "txid": str,
        "wtxid": str,
        "allowed": bool,
        "vsize": int,
        "fees": TrialFees,
        "reject-reason": str,
    },
    total=False,
)


# what became of a member of a package; one that is refused has no `fees`
MemberInfo = TypedDict("MemberInfo", {"txid": str, "vsize": int, "fees": TrialFees, "other-wtxid": str, "error": str}, total=False)
# `submitpackage`: its members by their wtxids, or none of them
PackageInfo = TypedDict("PackageInfo", {"package_msg": str, "tx-results": dict[str, MemberInfo], "replaced-transactions": list[str]})


class Publisher(TypedDict):
    """One of `getzmqnotifications`."""

    type: str
    address: str


@dataclass(frozen=True)
class Coin:
    """An unspent output of the chain."""

    txid: str
    index: int
    value: int
    height: int
    is_coinbase: bool
    script: str

    def line(self) -> str:
        kind = "cb" if self.is_coinbase else "plain"
        return "coin %s %d %d %d %s %s" % (self.txid, self.index, self.value, self.height, kind, self.script or "-")


@dataclass
class Entry:
    """A transaction of the node's pool, with what the node says of it."""

    transaction: Transaction
    time: int
    fee: int
    vsize: int
    # the transactions of the pool that spend from it
    children: list[str] = field(default_factory=list)


@dataclass
class Candidate:
    """A transaction that is tried, with what the node says of it: no reason if it would take it."""

    digits: str
    transaction: Optional[Transaction]
    reason: Optional[str]
    fee: Optional[int] = None
    vsize: Optional[int] = None


def satoshi(amount: Any) -> int:
    """A node's amount in whole satoshi."""
    try:
        scaled = decimal.Decimal(amount) * SATOSHI
        if scaled == scaled.to_integral_value():
            return int(scaled)
    except (decimal.InvalidOperation, TypeError):
        pass
    raise Unusable("%s is no whole number of satoshi" % amount)


def floor_of(pool: PoolInfo) -> int:
    """What the pool asks for above the node's relay minimum; 0 if nothing."""
    floor = satoshi(pool["mempoolminfee"])
    return floor if floor > satoshi(pool["minrelaytxfee"]) else 0


def entry_of(digits: str, told: EntryInfo) -> Entry:
    """An entry from its text, and from what the node says of it."""
    fee = told["fees"]["base"] if "fees" in told else told["fee"]
    return Entry(read_transaction(digits), told["time"], satoshi(fee), told["vsize"], told.get("spentby", []))


def coin_of(txid: str, index: int, told: OutputInfo, tip: int) -> Coin:
    """A coin from the node's answer to gettxout at the tip of this height."""
    script = told["scriptPubKey"]["hex"]
    return Coin(txid, index, satoshi(told["value"]), tip - told["confirmations"] + 1, told["coinbase"], script)


def coin_before(txid: str, index: int, told: SpentOutput) -> Coin:
    """A coin as an input of a block shows it."""
    return Coin(txid, index, satoshi(told["value"]), told["height"], told["generated"], told["scriptPubKey"]["hex"])


def parents_first(order: Sequence[str], depends: Mapping[str, Sequence[str]]) -> list[str]:
    """The same ids, each after those that it depends on."""
    found: dict[str, bool] = {}
    for txid in order:
        waiting = [txid]
        while waiting:
            missing = [it for it in depends[waiting[-1]] if it in depends and it not in found]
            if missing:
                waiting += missing
            else:
                found[waiting.pop()] = True
    return list(found)


def none_refused(answers: Sequence[Any]) -> list[Any]:
    """The same answers, none of which may be a refusal."""
    for it in answers:
        if isinstance(it, Refused):
            raise it
    return list(answers)
