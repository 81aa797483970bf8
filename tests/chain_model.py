"""A plain model of docs/POLICY.md with blocks: the chain is the opening and a list of blocks, and its coins are found by
going through all of them."""

from dataclasses import dataclass
from typing import List

from bitcoin import Transaction, counted
from model import KILO, NULL, SMALL, TOKENS, Coin, Entry, Model, carries_data, outpoints, size_of

GREATEST_DEPTH = 100
GREATEST_HEIGHT = 10000000


@dataclass
class Block:
    time: int
    txs: List[Transaction]

    def hex(self):
        return (bytes(68) + self.time.to_bytes(4, "little") + bytes(8) + counted([tx.text() for tx in self.txs])).hex()


def is_coinbase(tx):
    return [(one.hash, one.index) for one in tx.inputs] == [NULL]


def made_by(tx, height, is_first):
    """The coins that a transaction of a block makes."""
    hash = tx.hash()
    return {(hash, index): Coin(output.value, height, is_first) for index, output in enumerate(tx.outputs) if not carries_data(output)}


def made_by_block(block, height):
    """The coins that a block makes, in the order of its transactions and of their outputs."""
    return {point: coin for place, tx in enumerate(block.txs) for point, coin in made_by(tx, height, place == 0).items()}


def spent_by(blocks):
    """What transactions of blocks spend, but for the coinbases."""
    return {point for block in blocks for tx in block.txs[1:] for point in outpoints(tx)}


def refused(fault):
    return "refused %s %s" % (fault, TOKENS[fault])


class ChainModel(Model):
    def __init__(self, opening):
        self.blocks = []
        super().__init__(opening)
        self.move([])

    # --- the chain

    def move(self, blocks):
        """The chain with these blocks."""
        self.blocks = blocks
        self.tip = self.opening.tip() + len(blocks)
        self.coins = dict(self.opening.coins)
        for height, block in enumerate(blocks, self.opening.tip() + 1):
            self.coins.update(made_by_block(block, height))
        for point in spent_by(blocks):
            self.coins.pop(point, None)

    def chain_coins(self):
        return self.coins

    def times(self):
        return self.opening.times + [block.time for block in self.blocks]

    def known(self):
        """The hashes of the opening's coins and of the blocks' transactions."""
        return {hash for hash, _ in self.opening.coins} | {tx.hash() for block in self.blocks for tx in block.txs}

    def fault(self, block):
        """The first rule that fails of a block on top of the chain."""
        if self.tip >= GREATEST_HEIGHT:
            return "C7"
        if block.time <= self.median_time(self.tip):
            return "C5"
        if [is_coinbase(tx) for tx in block.txs] != [True] + [False] * (len(block.txs) - 1):
            return "C2"
        known, coins = self.known(), set(self.coins)
        for place, tx in enumerate(block.txs):
            if tx.hash() in known:
                return "C4"
            for one in tx.inputs if place else []:
                if (one.hash, one.index) not in coins:
                    return "C3"
                coins.remove((one.hash, one.index))
            known.add(tx.hash())
            coins.update(made_by(tx, self.tip + 1, place == 0))
        return None

    def switch(self, depth, blocks):
        """Other blocks in the place of the last ones; the first fault, or none."""
        if None in blocks:
            return "C1"
        if depth > min(len(self.blocks), GREATEST_DEPTH):
            return "C6"
        before = self.blocks
        self.move(before[:len(before) - depth])
        for block in blocks:
            fault = self.fault(block)
            if fault:
                self.move(before)
                return fault
            self.move(self.blocks + [block])
        return None

    # --- the event

    def chain(self, depth, now, blocks):
        """A block is None where its bytes are none."""
        gone = self.blocks[max(0, len(self.blocks) - depth):] if depth else []
        fault = self.switch(depth, blocks)
        if fault:
            return refused(fault)
        before = {entry.hash for entry in self.pool}
        for block in blocks:
            for tx in block.txs:
                self.confirm(tx)
        if depth:
            self.return_all(gone, blocks, now)
        after = {entry.hash for entry in self.pool}
        return "chain %d removed %d entered %d" % (self.tip, len(before - after), len(after - before))

    def confirm(self, tx):
        hash = tx.hash()
        stay = [entry for entry in self.pool if entry.hash != hash]
        self.gone["confirmed"] += len(self.pool) - len(stay)
        self.pool = stay
        self.remove(self.conflicts(tx), "contradicted")

    def return_all(self, gone, blocks, now):
        confirmed = {tx.hash() for block in blocks for tx in block.txs}
        for block in gone:
            for tx in block.txs:
                if tx.hash() not in confirmed:
                    self.try_again(tx, now)
        self.remove([entry for entry in self.pool if self.is_premature(entry.tx)], "premature")
        self.expire(now)
        self.trim()

    def try_again(self, tx, now):
        if self.fails_again(tx):
            hash = tx.hash()
            self.gone["refused again"] += not is_coinbase(tx)
            self.remove([entry for entry in self.pool if hash in entry.parents], "below a refused one")
            return
        entry = Entry(tx, self.fee(tx), self.size(tx), now)
        self.gone["above its children"] += any(entry.hash in other.parents for other in self.pool)
        self.remove(self.conflicts(tx), "replaced")
        self.pool.append(entry)
        self.gone["came back"] += 1

    def fails_again(self, tx):
        """Whether a rule fails, but A34 to A36, or the limits in A36's place."""
        wtxid = tx.wtxid()
        return (
            any(True for _ in self.alone(tx))
            or any(entry.wtxid == wtxid for entry in self.pool)
            or any(True for _ in self.in_pool_and_chain(tx))
            or any(rule not in ("A34", "A35") for rule in self.amounts(tx))
            or self.passes_limits(tx)
            or any(entry in self.conflicts(tx) for entry in self.above(tx))
            or any(True for _ in self.replacing(tx, self.conflicts(tx)))
            or any(True for _ in self.judged(tx))
        )

    def passes_limits(self, tx):
        """Whether an entry of its family passes the limits with it."""
        pool = self.pool
        newcomer = Entry(tx, self.fee(tx), self.size(tx), 0)
        self.pool = pool + [newcomer]
        family = self.below([newcomer]) | self.above(tx)
        found = {limit for entry in family for limit in self.limits_met(entry)}
        passed = {limit for limit in found if limit.startswith("over")}
        self.gone["over the limits of what comes back"] += bool(passed)
        self.gone.update(passed or found)
        self.pool = pool
        return bool(passed)

    def limits_met(self, entry):
        """Which limits of what comes back an entry is over, and which counts it just has."""
        above, below = self.above(entry.tx) | {entry}, self.below([entry])
        most_above, most_below = max(self.opening["limitancestorcount"], 2), self.opening["limitdescendantcount"] + 1
        found = {
            "over the most ancestors": len(above) > most_above, "over the size of ancestors": size_of(above) > KILO * self.opening["limitancestorsize"],
            "over the most descendants": len(below) > most_below, "over the size of descendants": size_of(below) > KILO * self.opening["limitdescendantsize"] + SMALL,
            "back with the most ancestors": len(above) == most_above, "back with the most descendants": len(below) == most_below,
        }
        return [limit for limit, holds in found.items() if holds]

    def is_premature(self, tx):
        """Whether the next block cannot have it, or it spends a coinbase too early."""
        coins = [self.coin(one) for one in tx.inputs]
        return (
            not self.is_final(tx)
            or not all(self.lock_met(tx, one) for one in tx.inputs)
            or any(coin.is_coinbase and self.tip + 1 - coin.height < 100 for coin in coins)
        )
