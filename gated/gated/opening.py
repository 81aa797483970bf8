"""An opening from a node: its chain and pool at one moment, as the lines that the gate begins with."""

from __future__ import annotations

import asyncio
from dataclasses import dataclass, field
from typing import Collection, Sequence

from .patient import Blocking, PatientClient
from .node import BLOCK_CAME, MEDIAN_OF, Entry, Unusable, View, coins_of, policy_lines
from .node.answers import PoolInfo, PoolListing
from .node.releases import PACKAGES_SINCE, overridden

# the peer under whose number the node's transactions are handed in: it is never shut out, and may list the pool
PEER = "peer 1"
PEER_ENTERS = PEER + " enter 127.0.0.1"
OWN_USER = "gated"
OWN_METHODS = "getmempoolinfo,getmempoolentry,getrawmempool,getrawtransaction,submitpackage,testmempoolaccept"
TRIES = 5


@dataclass(frozen=True)
class Opening:
    """A node's chain and pool at one moment."""

    chain: str
    release: int
    tip: int
    best: str
    # the lines of the opening
    lines: list[str]
    # the pool's transactions, parents first, and the node's height when each came
    entries: list[Entry]
    heights: dict[str, int]
    # what the pool asked for beside, in satoshi per 1,000 virtual bytes; 0 if nothing
    floor: int
    # the coins that the opening has, and the txids of the pool
    outpoints: set[tuple[str, int]]
    pool: set[str]
    # what the node says of its pool
    pool_info: PoolInfo
    # what it counted up to this moment
    sequence: int
    # by rule, the operator's lines that say another number than the node has
    overridden: dict[str, str] = field(default_factory=dict)

    def text(self) -> str:
        return "".join(line + "\n" for line in self.lines)

    @property
    def has_packages(self) -> bool:
        """Whether the node's release takes packages."""
        return self.release >= PACKAGES_SINCE


def verdict_lines(wtxid: str, inputs: int) -> list[str]:
    """What stands for the scripts of a transaction that the node took."""
    return ["verdict %s %d ok" % (wtxid, index) for index in range(inputs)]


def first_height(tip: int, heights: Collection[int], times: int) -> int:
    """The first block whose time the opening has: so many from the tip, and the eleven below each lock of time."""
    return max(0, min([tip - times + 1] + [it - MEDIAN_OF for it in heights]))


def _lines(view: View, entries: Sequence[Entry], settings: Sequence[str], times: int) -> tuple[list[str], list[str]]:
    """The opening's lines, and those of its coins among them."""
    transactions = [it.transaction for it in entries]
    coins, heights = coins_of(view, transactions)
    first = first_height(view.tip, heights, times)
    own = ["budget %d" % view.budget]
    own += policy_lines(view)
    # what the operator sets goes before what the node says
    given = {line.partition(" ")[0] for line in settings}
    found = [line for line in own if line.partition(" ")[0] not in given]
    if first:
        found.append("from %d" % first)
    found += ["times 1 %d 0" % it for it in view.times(range(first, view.tip + 1))]
    found += settings
    found.append("whitelist noban,mempool@127.0.0.1")
    if any(line.startswith("rpcwhitelist") for line in settings):
        found.append("rpcwhitelist %s:%s" % (OWN_USER, OWN_METHODS))
    for it in transactions:
        found += verdict_lines(it.wtxid, len(it.spent))
    return found + coins, coins


def _taken(source: Blocking, settings: Sequence[str], times: int) -> Opening:
    """A snapshot. A transaction that came or went meanwhile is announced by its number; a block that came makes it unusable."""
    pool: PoolListing = source.ask("getrawmempool", False, True)
    view = View(source)
    entries = view.entries()
    lines, coins = _lines(view, entries, settings, times)
    view.has_to_stand()
    words = [line.split(" ") for line in coins]
    return Opening(
        chain=view.chain,
        release=view.release,
        tip=view.tip,
        best=view.best,
        lines=lines,
        entries=entries,
        heights={txid: it["height"] for txid, it in view.listed.items() if "height" in it},
        floor=view.floor,
        outpoints={(it[1], int(it[2])) for it in words},
        pool={it.transaction.txid for it in entries},
        pool_info=view.pool_info,
        sequence=pool["mempool_sequence"],
        overridden=overridden(settings, view.settings),
    )


async def snapshot(client: PatientClient, settings: Sequence[str], times: int) -> Opening:
    """The node's chain and pool, asked anew if a block came meanwhile."""
    source = Blocking(client, asyncio.get_running_loop())
    for tries_left in reversed(range(TRIES)):
        try:
            return await asyncio.to_thread(_taken, source, settings, times)
        except Unusable as error:
            if str(error) != BLOCK_CAME or not tries_left:
                raise
    raise AssertionError("the last try returns or raises")
