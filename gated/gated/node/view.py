"""A node's chain and pool at one tip, and the coins and times that an opening takes of it."""

from __future__ import annotations

from typing import Any, Collection, Iterable, Optional, Sequence

from .answers import Candidate, ChainInfo, Coin, Entry, EntryInfo, NetworkInfo, OutputInfo, PoolInfo, TrialInfo
from .answers import coin_of, entry_of, floor_of, none_refused, parents_first, satoshi
from .releases import policy_of, settings_of
from .sources import Refused, Source, Unusable
from .transactions import Transaction, read_transaction

MEDIAN_OF = 11
MOST_BUDGET = 1000000000
UNREADABLE = "TX decode failed"
BLOCK_CAME = "a block came while the node was asked: start again"
Outpoint = tuple[str, int]


class View:
    """A node's chain and pool at one tip."""

    def __init__(self, node: Source) -> None:
        self.node = node
        info: ChainInfo = node.ask("getblockchaininfo")
        self.chain, self.tip, self.best = info["chain"], info["blocks"], info["bestblockhash"]
        network: NetworkInfo = node.ask("getnetworkinfo")
        self.release = network["version"]
        pool: PoolInfo = node.ask("getmempoolinfo")
        self.pool_info = pool
        self.budget = min(pool["maxmempool"], MOST_BUDGET)
        self.floor = floor_of(pool)
        # the settings of its release by their name, and those that are told beside
        self.policy, self.settings = policy_of(network), settings_of(pool)
        # what the node says of each transaction of its pool, once its entries are asked for
        self.listed: dict[str, EntryInfo] = {}

    def has_to_stand(self) -> None:
        """The tip is still the one that was asked first."""
        if self.node.ask("getblockchaininfo")["bestblockhash"] != self.best:
            raise Unusable(BLOCK_CAME)

    def entries(self) -> list[Entry]:
        """The pool's transactions, as they came, and none before one that it spends from."""
        told = self.listed = self.node.ask("getrawmempool", True)
        order = sorted(told, key=lambda txid: (told[txid]["time"], told[txid]["ancestorcount"], txid))
        order = parents_first(order, {it: told[it]["depends"] for it in told})
        texts = self.node.ask_all("getrawtransaction", [(txid,) for txid in order])
        # one that is refused has left the pool meanwhile
        return [entry_of(digits, told[txid]) for txid, digits in zip(order, texts) if not isinstance(digits, Refused)]

    def candidate(self, digits: str) -> Candidate:
        """What the node says of a transaction by itself, whatever it pays at the most."""
        try:
            transaction = read_transaction(digits)
        except (ValueError, KeyError):
            transaction = None
        told: TrialInfo
        try:
            (told,) = self.node.ask("testmempoolaccept", [digits], 0)
        except Refused as error:
            return Candidate(digits, transaction, "tx-decode" if UNREADABLE in str(error) else str(error))
        if not told["allowed"]:
            return Candidate(digits, transaction, told["reject-reason"])
        return Candidate(digits, transaction, None, satoshi(told["fees"]["base"]), told["vsize"])

    def coins(self, outpoints: Sequence[Outpoint]) -> dict[Outpoint, Coin]:
        """By outpoint, the unspent coins of the chain."""
        found = {}
        answers: list[Optional[OutputInfo]] = none_refused(self.node.ask_all("gettxout", [(*it, False) for it in outpoints]))
        for outpoint, told in zip(outpoints, answers):
            if told is None:
                continue
            if told["bestblock"] != self.best:
                raise Unusable(BLOCK_CAME)
            found[outpoint] = coin_of(*outpoint, told, self.tip)
        return found

    def times(self, heights: Iterable[int]) -> list[int]:
        """The time of each of these blocks."""
        hashes = self.answers("getblockhash", heights)
        return [it["time"] for it in self.answers("getblockheader", hashes)]

    def answers(self, method: str, each: Iterable[Any]) -> list[Any]:
        """What the node answers to each of these, none of which it may refuse."""
        return none_refused(self.node.ask_all(method, [(it,) for it in each]))


def coins_of(view: View, transactions: Collection[Transaction]) -> tuple[list[str], set[int]]:
    """The lines of the coins that transactions spend from the chain, and the heights of those under a lock of time."""
    made = {it.txid for it in transactions}
    lines: dict[str, None] = {}
    heights: set[int] = set()
    spent = {(it.txid, it.index): None for one in transactions for it in one.spent if it.txid not in made}
    found = view.coins(list(spent))
    for one in transactions:
        for it in one.spent:
            coin = found.get((it.txid, it.index))
            if coin:
                lines[coin.line()] = None
                if one.version >= 2 and is_lock_of_time(it.sequence):
                    heights.add(coin.height)
    return list(lines), heights


def is_lock_of_time(sequence: int) -> bool:
    """BIP 68: neither switched off nor a number of blocks."""
    return sequence & 0x80000000 == 0 and sequence & 0x00400000 != 0
