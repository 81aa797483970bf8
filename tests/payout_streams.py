"""Random spenders of payouts, transactions of many outputs that the chain has: each reply next to that of the plain model.

Many entries spend one payout, some of them many of its outputs. They leave in any order: replaced, confirmed,
contradicted, expired and trimmed, and they come back. Now and then a block leaves next to nothing of a pool.
"""

from collections import Counter

from bitcoin import Output, Transaction, number_hash
from chain_model import ChainModel
from chain_streams import Reorganisations, answered
from family_streams import VALUE
from gate import same
from model import TWO_WEEKS, Coin

STREAMS = 24
EVENTS = 200
SEED = 3000
PAYOUTS, OUTPUTS = range(500, 502), 60
KINDS = {"share": 45, "many": 14, "fresh": 4, "longer": 6, "joined": 4, "instead": 8, "instead_of_a_wide_one": 16, "beside_another": 3, "odd": 1}
# how many outputs of one payout a wide entry spends, and how many other spenders count as many
WIDE, OTHERS = 4, 4

# how many of each kind all streams together have to meet
FLOORS = {
    "replaced": 400, "the first replaced": 35, "one in the middle replaced": 120, "the last replaced": 35, "a wide one replaced": 55,
    "left by a block": 600, "the first left by a block": 70, "one in the middle left by a block": 400, "the last left by a block": 80, "a wide one left by a block": 40,
    "came back": 1000, "a wide one came back": 30, "a block's payout spent": 400, "shrank": 8,
}


class Payouts(Reorganisations):
    """A stream over payouts of the opening, and of blocks."""

    of_chain = 0.07

    def __init__(self, seed):
        super().__init__(seed)
        self.kinds = KINDS
        self.opening.budget = self.random.choice((3000, 8000, 10**9, 10**9, 10**9))
        for number in PAYOUTS:
            for index in range(OUTPUTS):
                self.opening.coins[number_hash(number), index] = Coin(VALUE, 1, False)
        self.model = ChainModel(self.opening)
        self.payouts = {number_hash(number) for number in PAYOUTS}
        self.is_shrinking = False

    # --- events

    def event(self):
        before = list(self.model.pool)
        line, reply = super().event()
        self.note(line.split()[0] == "chain", before, self.model.pool)
        return line, reply

    def note(self, is_chain, before, after):
        """Counts what left and what came, where others spend the same payout. What a submission took out was replaced, or
        it expired or was trimmed."""
        for payout in sorted(self.payouts):
            spenders = [entry for entry in before if payout in entry.parents]
            if len(spenders) > OTHERS:
                self.note_gone(" left by a block" if is_chain else " replaced", payout, spenders, [entry for entry in spenders if entry not in after])
            came = [entry for entry in after if payout in entry.parents and entry not in before]
            self.met["came back"] += is_chain * len(came)
            self.met["a wide one came back"] += is_chain * len([entry for entry in came if self.is_wide(payout, entry)])
            self.met["a block's payout spent"] += len(came) * (payout not in {number_hash(number) for number in PAYOUTS})
        self.met["shrank"] += len(before) >= 20 and 5 * len(after) <= len(before)

    def note_gone(self, how, payout, spenders, gone):
        self.met[how.strip()] += len(gone)
        for entry in gone:
            place = "the first" if entry is spenders[0] else "the last" if entry is spenders[-1] else "one in the middle"
            self.met[place + how] += 1
            self.met["a wide one" + how] += self.is_wide(payout, entry)

    @staticmethod
    def is_wide(payout, entry):
        return len([point for point in entry.spent if point[0] == payout]) >= WIDE

    def time(self):
        """Most often a second that is soon after the last, and seldom one after two weeks."""
        self.now += self.random.choice((0, 1, 60, 600, 600, 3600))
        if self.model.pool and self.random.random() < 0.03:
            return self.random.choice(self.model.pool[:5]).time + TWO_WEEKS + self.random.choice((0, 1))
        return self.now

    # --- blocks

    def block(self, model):
        """Now and then a block has nearly all of the pool, in its order, in the other, or in any."""
        self.is_shrinking = self.random.random() < 0.2
        block = super().block(model)
        self.payouts |= {tx.hash() for tx in block.txs[1:] if len(tx.outputs) == OUTPUTS}
        return block

    def confirmable(self):
        entries = [entry.tx for entry in self.model.pool if self.is_shrinking or self.random.random() < 0.3]
        order = self.random.random()
        return entries if order < 0.4 else entries[::-1] if order < 0.7 else self.some(entries, len(entries))

    def strangers(self, model):
        """A payout of the miner's, and what the pool has no part in."""
        found = super().strangers(model)
        coins = sorted(point for point in model.chain_coins() if point[0] not in self.payouts)
        if coins and self.random.random() < 0.3:
            tx = Transaction([], [Output(10**10)] * OUTPUTS)
            tx.inputs = self.spending(self.some(coins)).inputs
            found.append(tx)
        return found

    # --- kinds

    def shares(self):
        """The outputs of a payout, and those that no entry spends."""
        payout = self.random.choice(sorted(self.payouts))
        points = sorted(point for point in self.model.chain_coins() if point[0] == payout)
        spent = {point for entry in self.model.pool for point in entry.spent}
        return points, [point for point in points if point not in spent]

    def share(self):
        return self.some(self.shares()[1], self.random.choice((1, 1, 1, 2)))

    def many(self):
        """Many outputs of a payout, some of which others may spend."""
        points, free = self.shares()
        return self.some(free if self.random.random() < 0.7 else points, self.random.randint(WIDE, 10))

    def instead_of_a_wide_one(self):
        """An outpoint that an entry of many inputs spends."""
        wide = [entry for entry in self.model.pool if len(entry.spent) >= WIDE]
        return self.some([point for entry in self.some(wide) for point in sorted(entry.spent)])


def stream(gate, seed):
    return answered(gate, Payouts(seed), seed, EVENTS)


def test_payouts(gate):
    """Each reply is that of the model, and each way to leave and to come back is met often enough."""
    met = sum((stream(gate, seed) for seed in range(SEED, SEED + STREAMS)), Counter())
    same("met too seldom", {kind: met[kind] for kind, floor in FLOORS.items() if met[kind] < floor}, {})
