"""A plain model of docs/POLICY.md with coins and verdicts that are learnt, and blocks that are forgotten: each of these
events is another opening."""

from dataclasses import replace

from chain_model import ChainModel, made_by_block, refused, spent_by
from model import GREATEST_AMOUNT, RETURN

GREATEST_SCRIPT = 10000


def is_unspendable(script):
    return script[:1] == bytes([RETURN]) or len(script) > GREATEST_SCRIPT


class LivingModel(ChainModel):
    """Its opening is its own: what it was opened with stays what it is."""

    def __init__(self, opening):
        super().__init__(replace(opening, times=list(opening.times), coins=dict(opening.coins), verdicts=dict(opening.verdicts)))

    # --- learning

    def learn_coin(self, point, coin):
        fault = self.fault_of_coin(point, coin)
        if fault:
            return refused(fault)
        self.opening.coins[point] = coin
        self.move(self.blocks)
        return "set"

    def fault_of_coin(self, point, coin):
        """The first rule that fails of a coin that is learnt."""
        if coin.value > GREATEST_AMOUNT:
            return "C8"
        if is_unspendable(coin.script):
            return "C9"
        if coin.height > self.opening.tip():
            return "C10"
        made = {tx.hash() for block in self.blocks for tx in block.txs} | {entry.hash for entry in self.pool}
        return "C11" if point in self.opening.coins or point[0] in made else None

    def learn_verdict(self, wtxid, index, verdict):
        if (wtxid, index) in self.opening.verdicts:
            return refused("C12")
        self.opening.verdicts[wtxid, index] = verdict
        return "set"

    # --- forgetting

    def forget(self, count):
        """The lowest blocks become part of the opening, of which what nobody needs is dropped."""
        if count > len(self.blocks):
            return refused("C6")
        before, rows = set(self.coins), len(self.opening.verdicts)
        gone, left = self.blocks[:count], self.blocks[count:]
        coins = dict(self.opening.coins)
        for height, block in enumerate(gone, self.opening.tip() + 1):
            coins.update(made_by_block(block, height))
        wanted = (spent_by(left) | {point for entry in self.pool for point in entry.spent}) - spent_by(gone)
        asked = {"*"} | {tx.wtxid() for block in left for tx in block.txs} | {entry.wtxid for entry in self.pool}
        self.opening = replace(
            self.opening,
            times=self.opening.times + [block.time for block in gone],
            coins={point: coin for point, coin in coins.items() if point in wanted},
            verdicts={row: verdict for row, verdict in self.opening.verdicts.items() if (row if row == "*" else row[0]) in asked},
        )
        self.move(left)
        return "forgotten %d %d %d" % (count, len(before - set(self.coins)), rows - len(self.opening.verdicts))
