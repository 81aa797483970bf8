"""The node's chain as the gate has it: blocks as events, led to the node's tip by asking; coins and verdicts that the gate learns
before they are used; blocks that it forgets."""

from __future__ import annotations

import logging
import time
from dataclasses import dataclass, field
from typing import Callable, Iterable, Optional, Sequence

from .announcements import Lost
from .patient import PatientClient
from .keeper import Keeper, Turn
from .node import Coin, Refused, Transaction, coin_before, coin_of, satoshi
from .node.answers import BlockInfo, HeaderInfo, OutputInfo, TransactionInfo, none_refused
from .opening import PEER, Opening, verdict_lines
from .watcher import Outpoint, Tip, Watcher

log = logging.getLogger("gated")

# the longest line that the gate takes
LONGEST_LINE = 16_777_216
# a gate that is further behind is opened anew
MOST_BEHIND = 500
# blocks are forgotten so many at a time, and coins and verdicts once so many were learnt
FORGOTTEN_TOGETHER = 10
MOST_LEARNT = 100_000
COINBASE_KIND = "coinbase"


class ChainMoved(Exception):
    """The gate's chain is another one than when coins were asked for, or it has forgotten what it knew then."""


@dataclass(frozen=True)
class CoinsShown:
    """Coins that transactions spend, as the node showed them, and the state of the gate's chain that they were asked for."""

    found: dict[Outpoint, Coin]
    epoch: int

    def of(self, transaction: Transaction) -> list[Coin]:
        """Those that a transaction spends, as far as they were there."""
        found = (self.found.get((it.txid, it.index)) for it in transaction.spent)
        return [it for it in found if it is not None]


@dataclass
class Blocks:
    """The blocks that the gate could take back, above the one that its opening ends with."""

    base: Tip
    kept: list[Tip] = field(default_factory=list)

    @property
    def tip(self) -> Tip:
        return self.kept[-1] if self.kept else self.base

    def above(self, hash: str) -> Optional[int]:
        """How many blocks lie above this one, or None if it is none of these."""
        hashes = [self.base.hash] + [it.hash for it in self.kept]
        return len(hashes) - 1 - hashes.index(hash) if hash in hashes else None

    def move(self, gone: int, came: Sequence[Tip]) -> None:
        del self.kept[len(self.kept) - gone :]
        self.kept += came

    def forget(self, count: int) -> None:
        if count:
            self.base = self.kept[count - 1]
            del self.kept[:count]


class Chain:
    """Leads the gate's chain after its node's."""

    def __init__(self, client: PatientClient, keeper: Keeper, watcher: Watcher, keep: int, clock: Callable[[], float] = time.time) -> None:
        self._client, self._keeper, self._watcher = client, keeper, watcher
        self._keep, self._clock = keep, clock
        self._blocks = Blocks(Tip("", 0))
        # the coins that the gate was told, and how many lines told it of coins and verdicts, since it forgot last
        self._learnt: set[Outpoint] = set()
        self._told = 0
        # counts whatever makes coins that were asked for before worthless: an opening, a move, and forgetting
        self._epoch = 0
        # how many blocks the node is ahead, while the gate is led after it
        self.blocks_behind = 0

    @property
    def tip(self) -> Tip:
        return self._blocks.tip

    def opened(self, opening: Opening) -> None:
        """The gate was opened anew."""
        self._blocks = Blocks(Tip(opening.best, opening.tip))
        self._learnt, self._told = set(opening.outpoints), 0
        self._epoch += 1
        self._is_behind(0)

    # coins and verdicts

    async def coins_of(self, transactions: Iterable[Transaction]) -> Optional[CoinsShown]:
        """The chain's coins that these spend and that the gate may not know, at the tip that it has; None if the node shows them
        at another one."""
        tip, epoch = self.tip, self._epoch
        wanted = list(dict.fromkeys((it.txid, it.index) for one in transactions for it in one.spent))
        wanted = [it for it in wanted if it not in self._learnt]
        answers: list[Optional[OutputInfo]] = none_refused(await self._client.ask_all("gettxout", [(*it, False) for it in wanted]))
        if {it["bestblock"] for it in answers if it} <= {tip.hash}:
            return CoinsShown({it: coin_of(*it, told, tip.height) for it, told in zip(wanted, answers) if told}, epoch)
        return None

    def nothing_shown(self) -> CoinsShown:
        """No coins, at the gate's chain as it is."""
        return CoinsShown({}, self._epoch)

    def has_to_stand(self, turn: Turn, shown: CoinsShown) -> None:
        """Coins have to be of the chain that the gate has in this turn, with room for them: ChainMoved if they have to be asked
        for again."""
        if self._told >= MOST_LEARNT:
            self._forget(turn, 0)
        if shown.epoch != self._epoch:
            raise ChainMoved("the gate's chain has moved")

    def learn(self, turn: Turn, coins: Iterable[Coin], verdicts: Iterable[str] = ()) -> None:
        """Tells the gate the coins that it may not know, and verdicts on scripts."""
        for coin in coins:
            if (coin.txid, coin.index) not in self._learnt:
                tell(turn, "chain " + coin.line())
                self._learnt.add((coin.txid, coin.index))
                self._told += 1
        for line in verdicts:
            tell(turn, "chain " + line)
            self._told += 1

    # blocks

    async def catch_up(self) -> bool:
        """Leads the gate to the node's tip. Whether blocks went on the way."""
        has_gone = False
        while True:
            best: str = await self._client.ask("getbestblockhash")
            if best == self.tip.hash:
                return has_gone
            gone, came = await self._path(best)
            has_gone |= gone > 0
            await self._move(gone, came)

    async def _path(self, best: str) -> tuple[int, list[Tip]]:
        """How many blocks go, and which come, lowest first."""
        came: list[Tip] = []
        at = best
        while True:
            gone = self._blocks.above(at)
            if gone is not None:
                return gone, came[::-1]
            header: HeaderInfo = await self._client.ask("getblockheader", at)
            if header["height"] <= self._blocks.base.height:
                raise Lost("a reorganisation past the %d blocks that are kept" % len(self._blocks.kept))
            if len(came) == MOST_BEHIND:
                raise Lost("the node is more than %d blocks ahead" % MOST_BEHIND)
            came.append(Tip(at, header["height"]))
            at = header["previousblockhash"]

    async def _move(self, gone: int, came: list[Tip]) -> None:
        """One event for all that goes and comes, so that what is to come back is judged at the new tip; without blocks that go,
        an event for each."""
        verdicts = await self._verdicts_of(self._blocks.kept[len(self._blocks.kept) - gone :])
        self._is_behind(len(came))
        for blocks in [came] if gone else [[it] for it in came]:
            await self._switch(gone, blocks, verdicts)
            self._is_behind(self.blocks_behind - len(blocks))

    def _is_behind(self, blocks: int) -> None:
        self.blocks_behind = blocks
        self._watcher.behind(blocks)

    async def _switch(self, gone: int, came: list[Tip], verdicts: list[str]) -> None:
        """One event of the chain, with the coins that its blocks spend, and the verdicts on what may come back."""
        texts = [str(await self._client.ask("getblock", it.hash, 0)) for it in came]
        line = " ".join(["chain", str(gone), str(int(self._clock())), *texts])
        if len(line) > LONGEST_LINE:
            raise Lost("%d blocks are too long for one line" % len(came))
        while True:
            coins = await self._coins_of(came)
            try:
                reply = await self._keeper.made(lambda turn: self._switched(turn, gone, came, coins, verdicts, line))
                break
            except ChainMoved:
                continue
        if not reply.startswith("chain "):
            raise Lost("the gate refuses %d blocks up to %s: %s" % (len(came), came[-1].hash if came else "none", reply))
        log.info("tip %d: %d blocks went, %d came: %s", self.tip.height, gone, len(came), reply)
        self._watcher.moved(self.tip)

    def _switched(self, turn: Turn, gone: int, came: list[Tip], coins: CoinsShown, verdicts: list[str], line: str) -> str:
        self.has_to_stand(turn, coins)
        self.learn(turn, coins.found.values(), verdicts)
        reply = tell(turn, line)
        if reply.startswith("chain "):
            self._blocks.move(gone, came)
            self._epoch += 1
            self._forget_old(turn)
        return reply

    async def _verdicts_of(self, blocks: Sequence[Tip]) -> list[str]:
        """The scripts of a block were run by the node: what comes back from it has good ones."""
        lines = []
        for block in blocks:
            told: BlockInfo = await self._client.ask("getblock", block.hash, 2)
            for it in told["tx"][1:]:
                lines += verdict_lines(it["hash"], len(it["vin"]))
        return lines

    async def _coins_of(self, blocks: Sequence[Tip]) -> CoinsShown:
        """The coins that the gate may not know of those that these blocks spend."""
        epoch = self._epoch
        made: set[str] = set()
        found: list[Coin] = []
        for block in blocks:
            told: BlockInfo = await self._client.ask("getblock", block.hash, 3)
            missing = []
            for one in told["tx"]:
                made.add(one["txid"])
                for it in one["vin"]:
                    outpoint = (it.get("txid", ""), it.get("vout", 0))
                    if COINBASE_KIND in it or outpoint in self._learnt or outpoint[0] in made:
                        continue
                    if "prevout" in it:
                        found.append(coin_before(*outpoint, it["prevout"]))
                    else:
                        missing.append((one["txid"], outpoint))
            found += await self._coins_without_prevouts(block, missing)
        return CoinsShown({(it.txid, it.index): it for it in found}, epoch)

    async def _coins_without_prevouts(self, block: Tip, missing: list[tuple[str, Outpoint]]) -> list[Coin]:
        """The same from a node whose `getblock` has no prevouts (before Bitcoin Core 23.0): what the gate's pool doesn't have is
        looked up among the node's transactions, which takes a node with -txindex."""
        if not missing:
            return []
        pool = await self._keeper.made(listing)
        wanted = [outpoint for txid, outpoint in missing if txid not in pool]
        answers: list[TransactionInfo | Refused] = await self._client.ask_all("getrawtransaction", [(txid, True) for txid, _ in wanted])
        found = []
        for (txid, index), told in zip(wanted, answers):
            if isinstance(told, Refused):
                raise Lost("block %s spends %s:%d, which the node can't show without -txindex" % (block.hash, txid, index))
            header: HeaderInfo = await self._client.ask("getblockheader", told["blockhash"])
            output = next(it for it in told["vout"] if it["n"] == index)
            is_coinbase = COINBASE_KIND in told["vin"][0]
            found.append(Coin(txid, index, satoshi(output["value"]), header["height"], is_coinbase, output["scriptPubKey"]["hex"]))
        # what a block made that the gate was given is known to it
        return [it for it in found if it.height <= self._blocks.base.height]

    def _forget_old(self, turn: Turn) -> None:
        """Lets the gate forget the blocks that no reorganisation is expected to reach."""
        count = len(self._blocks.kept) - self._keep
        if count >= FORGOTTEN_TOGETHER:
            self._forget(turn, count)

    def _forget(self, turn: Turn, count: int) -> None:
        """Lets the gate forget so many of its lowest blocks, and all coins and verdicts that nothing needs."""
        reply = tell(turn, "chain forget %d" % count)
        if not reply.startswith("forgotten "):
            raise Lost("the gate can't forget %d blocks: %s" % (count, reply))
        self._blocks.forget(count)
        self._learnt.clear()
        self._told = 0
        self._epoch += 1


def tell(turn: Turn, line: str) -> str:
    """One line of the host's own, which has to be an event of the gate."""
    reply = turn.ask(line)
    if reply.startswith("refused L") or reply.startswith("fault "):
        raise Lost("the gate answers a line of gated by %s: %s" % (reply, line[:200]))
    return reply


def listing(turn: Turn) -> set[str]:
    """The txids of the gate's pool."""
    words = turn.look(PEER + " mempool").split(" ")
    if words[0] != "listing":
        raise Lost("the gate doesn't list its pool: %s" % " ".join(words)[:200])
    return set(words[2:])
