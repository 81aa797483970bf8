"""Random families, replacements and full pools, each reply next to that of the plain model.

Each transaction is made for what the pool holds at that moment, so that streams come close to every limit.
"""

import random
from collections import Counter

from bitcoin import Input, Output, Transaction, WITNESS_KEY_HASH, number_hash
from gate import Differs, same, true
from model import MULTISIG, RETURN, SMALL, TWO_WEEKS, Coin, Limits, Model, Opening, among, carries_data, draw_policy, fee_at, fees_of, policy_lines, rate_of, size_of
from random_streams import filter_rate

STREAMS = 20
EVENTS = 110
COINS = 120
VALUE = 10**13
EXACT = 11000
FIRM = (0xFFFFFFFF, 0xFFFFFFFE)
SIGNALLING = (0xFFFFFFFD,) * 80 + (0x80000000,) * 4 + (0, 1, 1 << 22, 1 << 22 | 1)
DATA = Output(0, bytes([RETURN]))

# how often a stream of each shape makes a transaction of each kind
SHAPES = {
    "chains": {"fresh": 2, "longer": 45, "wider": 2, "joined": 2, "instead": 4, "instead_of_the_last": 4, "odd": 2},
    "fans": {"fresh": 2, "longer": 2, "wider": 50, "joined": 3, "instead": 4, "instead_of_the_last": 6, "odd": 2},
    "meshes": {"fresh": 8, "longer": 8, "wider": 10, "joined": 30, "instead": 15, "below_a_conflict": 8, "beside_another": 8, "odd": 5},
    "ladders": {"fresh": 2, "ladder": 45, "instead_of_many": 12, "instead": 2, "odd": 2},
    "sizes": {"fresh": 5, "longer": 12, "wider": 36, "joined": 8, "instead": 8, "instead_of_the_last": 8, "odd": 2},
    "replacements": {"fresh": 12, "longer": 8, "wider": 8, "joined": 6, "instead": 30, "instead_of_many": 15, "below_a_conflict": 8, "beside_another": 8, "odd": 5},
}
# the same for a pool that is full, and its budgets
FULL = {"fresh": 30, "longer": 25, "wider": 20, "joined": 15, "instead": 10, "instead_of_the_last": 3, "beside_another": 3}
BUDGETS = (0, 110, 500, 900, 1500, 1500, 2500, 4000)
FULL_FLOORS = {
    "A34": 200, "A35": 50, "A46": 700, "set": 300, "replaced 0": 1200, "replaced 1": 100, "expired": 500, "trimmed": 1200, "trimmed as a family": 150, "at the floor": 500, "at two weeks": 80,
}
POLICY_STREAMS = 10
POLICY_FLOORS = {
    "A23": 80, "A36": 1200, "A37": 70,
    "A36 by ancestors of 1": 400, "A36 by ancestors of 2 or 3": 70, "A36 by ancestors of 4 to 40": 40,
    "A36 by descendants of 1": 400, "A36 by descendants of 2 or 3": 150, "A36 by descendants of 4 to 40": 100,
    "at 2 or 3 ancestors": 15, "at 4 to 40 ancestors": 6, "at 2 or 3 descendants": 20, "at 4 to 40 descendants": 15,
    "with a parent where 1 is allowed": 80, "by the carve-out": 150, "by the growth": 70, "replaced what doesn't signal": 18,
}
MANY = 5000
HOLES = {"fresh": 6, "longer": 10, "wider": 10, "instead": 60, "beside_another": 2}

# how many of each kind all streams together have to meet
FLOORS = {
    "A23": 240, "A36": 800, "A37": 150, "A38": 120, "A39": 10, "A40": 40, "A41": 50, "A42": 80,
    "A18": 50, "A22": 15, "A25": 150, "A26": 120, "A33": 10, "A35": 300, "A44": 80, "A45": 70, "P5": 30,
    "A36 by ancestors": 60, "A36 by ancestors size": 120, "A36 by descendants": 400, "A36 by descendants size": 400,
    "by the carve-out": 20, "by the growth": 60,
    "at the ancestors' size": 6, "at the descendants' size": 25, "at the carve-out's size": 8,
    "replaced 0": 2500, "replaced 1": 400, "replaced 2": 90, "replaced more": 130,
}


class Families:
    """An opening, and transactions for a pool that grows, of one seed."""

    def __init__(self, seed, shape, of_policy=False):
        self.random = random.Random(seed)
        self.shape, self.kinds = shape, {"holes": HOLES, "full": FULL, **SHAPES}[shape]
        self.opening = opened(self.random.choice(BUDGETS) if shape == "full" else 1000000000)
        if of_policy:
            draw_policy(self.random, self.opening)
        self.model = Model(self.opening)
        self.peer = 0
        self.now = 0
        self.told = {}
        self.met = Counter()

    # --- events

    def event(self):
        """The next event line, and its reply."""
        closed = self.model.refusal(self.peer)
        if closed and self.random.random() < 0.8:
            self.peer += 1
            return "peer %d enter 192.0.2.1" % self.peer, self.model.enter(self.peer)
        if self.random.random() < 0.04:
            return self.listing_event()
        if self.shape == "full" and self.random.random() < 0.1:
            return self.operator_event()
        tx = self.transaction()
        self.judge_scripts(tx)
        self.told[tx.wtxid()] = tx
        about = [] if closed else self.about(tx)
        about += ["replaced what doesn't signal"] * any(not entry.signals() for entry in self.model.conflicts(tx))
        now = self.time()
        reply = self.model.submit(self.peer, now, tx)
        self.count(reply, about)
        return "peer %d tx %d %s" % (self.peer, now, tx.hex()), reply

    def listing_event(self):
        """A listing, or the rate that the next ones have to pay."""
        if self.random.random() < 0.5:
            rate = filter_rate(self.random, self.model.pool)
            return "peer %d feefilter %d" % (self.peer, rate), self.model.fee_filter(self.peer, rate)
        return "peer %d mempool" % self.peer, self.model.mempool(self.peer)

    def operator_event(self):
        """A floor, which is 0 again more often than not."""
        rate = self.random.choice((0, 0, 0, 1, 1000, 1001, 3000, self.model.floor, self.model.floor // 2))
        self.met["set"] += 1
        return "operator floor %d" % rate, self.model.set_floor(rate)

    def time(self):
        """A second, in a full pool one that goes on, and sometimes two weeks after an entry or a second more."""
        if self.shape != "full":
            return self.random.randint(0, 10000)
        self.now += self.random.choice((0, 1, 600, 600, 40000, 100000))
        if self.model.pool and self.random.random() < 0.1:
            more = self.random.choice((-1, 0, 0, 1, 1))
            self.met["at two weeks"] += more == 0
            return self.random.choice(self.model.pool).time + TWO_WEEKS + more
        return self.now

    def judge_scripts(self, tx):
        """A verdict of its own for a transaction that was never told."""
        if self.random.random() < 0.04 and tx.wtxid() not in self.told:
            self.opening.verdicts[tx.wtxid(), 0] = self.random.choice(("soft", "hard"))

    def about(self, tx):
        """Which limits of families decide over a transaction whose inputs all have coins."""
        if any(self.model.coin(one) is None for one in tx.inputs):
            return []
        above, size, tries = self.model.above(tx), self.model.size(tx), self.model.tries(tx)
        passed = [self.model.passed(limits, above, size) for limits in tries]
        counts = {"ancestors": self.opening["limitancestorcount"], "descendants": self.opening["limitdescendantcount"]}
        if all(passed):
            return ["by " + limit for limit in passed[0]] + ["by %s of %s" % (limit, among(count)) for limit, count in counts.items() if limit in passed[0]]
        goes = size_of(self.model.below(self.model.conflicts(tx)))
        less = [Limits(one.ancestors, one.ancestors_size, one.descendants - 1, one.descendants_size - goes) for one in tries]
        below = [self.model.below([entry]) for entry in above]
        families = [size_of(entries) + size for entries in below]
        found = {
            "by the carve-out": passed[0],
            "with a parent where 1 is allowed": "ancestors" in passed[0] and counts["ancestors"] == 1,
            "at %s ancestors" % among(counts["ancestors"]): above and len(above) + 1 == counts["ancestors"] and not passed[0],
            "at %s descendants" % among(counts["descendants"]): tries[0].descendants in [len(entries) + 1 for entries in below] and not passed[0],
            "by the growth": len(self.model.conflicts(tx)) == 1 and all(self.model.passed(limits, above, size) for limits in less),
            "at the ancestors' size": above and size_of(above) + size == 101000,
            "at the descendants' size": tries[0].descendants_size in families,
            "at the carve-out's size": tries[-1].descendants_size in families and passed[0],
        }
        return [name for name, holds in found.items() if holds]

    def count(self, reply, about):
        words = reply.split()
        if words[0] == "admitted":
            self.met.update(["replaced " + (words[-1] if int(words[-1]) < 3 else "more")] + about)
        else:
            self.met[words[1]] += 1
            if words[1] == "A36":
                self.met.update("A36 " + limit for limit in about)

    # --- transactions

    def transaction(self):
        """A transaction of some kind, or a fresh one where the pool has nothing for that kind."""
        kind = self.random.choices(list(self.kinds), list(self.kinds.values()))[0]
        if kind == "odd" and self.told and self.random.random() < 0.4:
            return self.told_again()
        points = getattr(self, kind)() or self.fresh() or self.unknown()
        return self.spending(list(dict.fromkeys(points)))

    def spending(self, points):
        """A transaction that spends these outpoints."""
        firm = self.random.random() < (0.002 if self.shape == "holes" else 0.06)
        sequences = FIRM if firm else SIGNALLING
        inputs = [Input(hash, index, b"", self.random.choice(sequences)) for hash, index in points]
        tx = Transaction(inputs, [Output(VALUE)] * self.outputs())
        if self.random.random() < 0.05:
            tx.outputs += [DATA] * self.random.choice((1, 1, 1, 1, 2))
        if self.shape == "sizes":
            self.fill(tx, self.wanted_size(tx))
        self.pay(tx)
        return tx

    def outputs(self):
        wide = {"fans": 0.3, "sizes": 0.3, "meshes": 0.3}.get(self.shape, 0.1)
        return self.random.choice((26, 30, 40)) if self.random.random() < wide else self.random.choice((1, 1, 2, 3))

    def wanted_size(self, tx):
        """A size round one of the limits, or any."""
        above, limits = self.model.above(tx), self.model.tries(tx)[-1]
        left = [101000 - size_of(above), SMALL, self.random.randint(1000, 50000)]
        family = max((size_of(self.model.below([entry])) for entry in above), default=0)
        left += [limits.descendants_size - family, limits.descendants_size - SMALL - family] * 2
        exact = [size for size in left if 150 < size <= EXACT]
        return self.random.choice(exact if exact and self.random.random() < 0.6 else left) + self.random.choice((-1, 0, 0, 1))

    def fill(self, tx, size):
        """Brings a transaction to a size: to exactly this one by a witness, or below it by costly outputs where it is great."""
        if size > EXACT:
            tx.outputs += [Output(VALUE, MULTISIG)] * ((min(size, 81000) - self.random.randint(200, 4000)) // 400)
        elif size > self.model.size(tx) + 40:
            one = tx.inputs[0]
            one.witness = [b"\x00"]
            one.witness = [bytes(max(1, 4 * size - tx.weight()))]
            while self.model.size(tx) > size:
                one.witness = [one.witness[0][:-1]]

    def pay(self, tx):
        """Gives the outputs what the fee leaves of the coins."""
        coins = [self.model.coin(one) for one in tx.inputs]
        places = [number for number, output in enumerate(tx.outputs) if not carries_data(output)]
        left = sum(coin.value if coin else VALUE for coin in coins) - self.fee(tx)
        share = left // max(1, len(places))
        for number in places:
            tx.outputs[number] = Output(share, tx.outputs[number].script)
        if places:
            tx.outputs[places[0]].value += left - share * len(places)

    def fee(self, tx):
        """A fee round one of the limits, or enough."""
        direct, size = self.model.conflicts(tx), self.model.size(tx)
        if not direct and self.shape == "full":
            return self.fee_in_a_full_pool(size)
        if not direct:
            return self.random.choice((size,) * 8 + (size + 1, 2 * size, 3 * size, 10 * size, size - 1))
        paid = fees_of(self.model.below(direct))
        rate = max(rate_of(entry.fee, entry.size) for entry in direct)
        higher = -(-(rate + 1) * size // 1000)
        enough = max(higher, paid + size)
        return self.random.choice((enough,) * (60 if self.shape == "holes" else 12) + (enough + size, 2 * enough, paid + size, paid + size - 1, paid, paid - 1, higher, higher - 1, higher - 1))

    def fee_in_a_full_pool(self, size):
        """A fee of any rate, or round what the floor asks for, or what another entry pays."""
        asked = max(size, fee_at(self.model.floor, size))
        draw = self.random.random()
        if draw < 0.3:
            self.met["at the floor"] += self.model.floor > 1000
            return asked + self.random.choice((-1, 0, 0, 1))
        if draw < 0.5 and self.model.pool:
            entry = self.random.choice(self.model.pool)
            return entry.fee * size // entry.size
        return asked * self.random.randint(100, 400) // 100

    def told_again(self):
        """A transaction as it was told, or with another witness."""
        tx = self.random.choice(list(self.told.values()))
        if self.random.random() < 0.5:
            return tx
        inputs = [Input(one.hash, one.index, one.script, one.sequence, [bytes(self.random.randint(1, 9))]) for one in tx.inputs]
        return Transaction(inputs, tx.outputs, tx.version, tx.locktime)

    # --- kinds: what a transaction spends

    def free(self, entries):
        """Outpoints of entries that no entry spends."""
        spent = {point for entry in self.model.pool for point in entry.spent}
        made = [(entry.hash, index) for entry in entries for index, output in enumerate(entry.tx.outputs) if output.script == WITNESS_KEY_HASH]
        return [point for point in made if point not in spent]

    def free_coins(self):
        spent = {point for entry in self.model.pool for point in entry.spent}
        return [point for point in self.model.chain_coins() if point not in spent]

    def some(self, found, count=1):
        return self.random.sample(found, min(count, len(found)))

    def fresh(self):
        """Coins of the chain."""
        return self.some(self.free_coins(), self.random.choice((1, 1, 2)))

    def longer(self):
        """An output of the last entry, and sometimes a coin of the chain."""
        return self.some(self.free(self.model.pool[-1:])) + self.some(self.free_coins(), self.random.choice((0,) * 9 + (1,)))

    def wider(self):
        """An output of an entry with the most of them."""
        if not self.model.pool:
            return []
        widest = max(self.model.pool, key=lambda entry: len(self.free([entry])))
        return self.some(self.free([widest]))

    def joined(self):
        """Outputs of several entries."""
        return self.some(self.free(self.model.pool), self.random.choice((2, 2, 2, 3, 4)))

    def ladder(self):
        """An output of the last entry, and a coin of the chain."""
        return self.some(self.free(self.model.pool[-1:])) + self.some(self.free_coins())

    def instead(self):
        """What an entry spends, and sometimes a coin of the chain."""
        points = [point for entry in self.some(self.model.pool) for point in sorted(entry.spent)]
        return self.some(points, self.random.choice((1, 1, 2))) + self.some(self.free_coins(), self.random.choice((0, 0, 0, 1)))

    def instead_of_the_last(self):
        return self.some([point for entry in self.model.pool[-1:] for point in sorted(entry.spent)])

    def instead_of_many(self):
        """Coins of the chain that entries spend whose families come to some number together."""
        roots = [entry for entry in self.model.pool if entry.spent & set(self.model.chain_coins())]
        counts = {entry: len(self.model.below([entry])) for entry in roots}
        if self.shape == "ladders" and sum(counts.values()) < 110:
            return self.ladder()
        goal, points = self.random.choice((2, 8, 100, 100, 101, 101, 105)), []
        for entry in self.some(roots, len(roots)):
            if counts[entry] <= goal:
                goal -= counts[entry]
                points += self.some(sorted(entry.spent & set(self.model.chain_coins())))
        return points

    def below_a_conflict(self):
        """What an entry spends, and an output of its family."""
        entry = self.some(self.model.pool)
        family = sorted(self.model.below(entry), key=self.model.pool.index)
        return self.some([point for one in entry for point in sorted(one.spent)]) + self.some(self.free(family))

    def beside_another(self):
        """What an entry spends, and an output of any, or of a parent of its own."""
        entry = self.some(self.model.pool)
        parents = [one for one in self.model.pool if entry and one.hash in entry[0].parents]
        others = self.free(parents) if self.random.random() < 0.3 else self.free(self.model.pool)
        return self.some([point for one in entry for point in sorted(one.spent)]) + self.some(others)

    def odd(self):
        """An output that carries data, one that there is not, and a coin."""
        data = [(entry.hash, index) for entry in self.model.pool for index, output in enumerate(entry.tx.outputs) if carries_data(output)]
        beyond = [(entry.hash, len(entry.tx.outputs)) for entry in self.some(self.model.pool)]
        return self.some(data or beyond) + self.some(self.free_coins(), self.random.choice((0, 1)))

    def unknown(self):
        return [(number_hash(COINS + 1), 0)]


def opened(budget):
    coins = {(number_hash(number), 0): Coin(VALUE, 1, False) for number in range(1, COINS + 1)}
    return Opening([1000 + 600 * number for number in range(101)], coins, {"*": "ok"}, True, budget)


def opening_lines(opening):
    """The opening as it stands when all transactions are made, since some have a verdict of their own."""
    told = ["times 101 1000 600", "bloom 1", "budget %d" % opening.budget] + policy_lines(opening, bool)
    told += ["from %d" % opening.first] * (opening.first > 0)
    told += [coin.line(point) for point, coin in opening.coins.items()]
    return told + ["verdict %s %s" % ("*" if pair == "*" else "%s %d" % pair, verdict) for pair, verdict in opening.verdicts.items()]


def stream(gate, seed, shape, count, of_policy=False):
    """Runs one stream, and counts what it met."""
    made = Families(seed, shape, of_policy)
    events = [made.event() for _ in range(count)]
    try:
        gate.answers(opening_lines(made.opening), events)
    except Differs as error:
        raise Differs("seed %d, %s\n%s" % (seed, shape, error))
    return made.met + made.model.gone


def test_families(gate):
    """Each reply is that of the model, and each limit is met from both sides."""
    met = sum((stream(gate, seed, shape, EVENTS) for shape in SHAPES for seed in range(STREAMS)), Counter())
    same("met too seldom", {kind: met[kind] for kind, floor in FLOORS.items() if met[kind] < floor}, {})


def test_policies(gate):
    """The same under limits from 1 to 40 and under full replacement: A36 is met by counts, and what doesn't signal is replaced."""
    # a seed of its own for each, since it draws the policy too
    seeds = enumerate(shape for shape in SHAPES for _ in range(POLICY_STREAMS))
    met = sum((stream(gate, seed, shape, EVENTS, True) for seed, shape in seeds), Counter())
    same("met too seldom", {kind: met[kind] for kind, floor in POLICY_FLOORS.items() if met[kind] < floor}, {})


def test_full_pools(gate):
    """Expiry, trim and the floor: each reply is that of the model, and each of them is met often enough."""
    met = sum((stream(gate, seed, "full", EVENTS) for seed in range(2 * STREAMS)), Counter())
    same("met too seldom", {kind: met[kind] for kind, floor in FULL_FLOORS.items() if met[kind] < floor}, {})


def test_a_pool_with_holes(gate):
    """Thousands of replacements, each of which leaves holes among the entries."""
    met = stream(gate, 0, "holes", MANY)
    true("%d replacements" % met["replaced 1"], met["replaced 1"] > MANY // 3 and met["replaced 2"] + met["replaced more"] > MANY // 20)
