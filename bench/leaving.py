"""Entries that leave beside others of the same parent.

A payout is a transaction of many outputs: an opening's coins, or a block's transaction. It has as many spenders in the
pool as it has outputs, or one that spends many of them. What leaves has to cost what it has, and nothing for those that
stay.
"""

from texts import FEE, SCRIPT, VALUE, block, coin, coin_hash, hash_of, payment, reversed_bytes, submission, transaction
from workloads import PLENTY, TWO_WEEKS, Stream, opened, submission_at

# transactions of one input and one output, without witnesses
SMALL = 82
# what a transaction pays for each virtual byte for which others are trimmed
RICH = 50
ENTERED = 5000
LIMITS = "limitancestorcount 1000\nlimitdescendantcount 1000\n"


def small(spent, value):
    return transaction([spent], [value], witness=False)


def confirming(number, digits):
    return "chain 0 5000 %s\n" % block(number, digits)


class Payout:
    """A payout of the opening: its coins, and the outpoints."""

    def __init__(self, number, outputs):
        hash = coin_hash(number)
        self.points = [(hash, index) for index in range(outputs)]
        self.coins = ["coin %s %d %d 1 plain %s\n" % (reversed_bytes(hash), index, VALUE, SCRIPT) for index in range(outputs)]
        self.blocks = []


class MinedPayout:
    """A payout that a block makes."""

    def __init__(self, number, outputs):
        value = outputs * VALUE + PLENTY
        paid = [VALUE] * outputs
        hash = hash_of([number], paid)
        self.points = [(hash, index) for index in range(outputs)]
        self.coins = [coin(number, value)]
        self.blocks = [confirming(number, [transaction([number], paid, witness=False)])]


def replaced_spender(kind, outputs, inputs):
    """One entry spends many outputs of a payout, others one each. That one is replaced by what spends one of its inputs."""

    def make(events):
        payouts = [kind(number, outputs) for number in range(1, events + 1)]
        before, news = [], []
        for payout in payouts:
            wide, others = payout.points[:inputs], payout.points[inputs:]
            fee = 41 * inputs + 1000
            before += payout.blocks
            before.append(submission(transaction(wide, [inputs * VALUE - fee], witness=False)))
            before += [submission(small(point, VALUE - FEE)) for point in others]
            news.append(submission(transaction([wide[0]], [VALUE - fee - FEE])))
        return opened([line for payout in payouts for line in payout.coins], before), news

    return make


class Children:
    """The children of one payout, one an output, which pay more and more; with the length of their lines."""

    def __init__(self, count):
        self.count = count
        digits = small((coin_hash(1), 0), VALUE)
        self.bytes = count * len(submission(digits))

    def of(self, payout):
        return [small(point, VALUE - 1000 - place) for place, point in enumerate(payout.points)]

    def expired(self, events):
        """All of a payout's children expire by one submission."""
        payouts = [Payout(number, self.count) for number in range(1, events + 1)]
        before = [submission_at(ENTERED * number, digits) for number, payout in enumerate(payouts) for digits in self.of(payout)]
        news = (submission_at(ENTERED * number + TWO_WEEKS + 1, payment(events + 1 + number)) for number in range(events))
        more = (coin(events + 1 + number) for number in range(events))
        return opened([*(line for payout in payouts for line in payout.coins), *more], before), news

    def confirmed(self, backwards):
        """A block confirms them, in their order or in the other."""

        def make(events):
            payouts = [Payout(number, self.count) for number in range(1, events + 1)]
            before = [submission(digits) for payout in payouts for digits in self.of(payout)]
            news = (confirming(number, self.of(payout)[:: -1 if backwards else 1]) for number, payout in enumerate(payouts))
            return opened([line for payout in payouts for line in payout.coins], before), news

        return make

    def trimmed(self, events):
        """All of a payout's children are trimmed for newcomers of many outputs, the first of them first."""
        payout = Payout(1, self.count * events)
        before = map(submission, self.of(payout))
        outputs = (self.count * SMALL - 53) // 31
        value = outputs * 1000 + RICH * self.count * SMALL
        numbers = range(2, 2 + events)
        news = (submission(transaction([number], [1000] * outputs, witness=False)) for number in numbers)
        return opened([*payout.coins, *(coin(number, value) for number in numbers)], before, self.count * events * SMALL), news


class Braid:
    """Entries of which each spends the one before it, beside others that each spend one of these and the one before."""

    def __init__(self, first, length):
        spent, value, side = first, PLENTY, None
        self.inner, self.outer = [], []
        for _ in range(length):
            paid = [value - 15000, 14800]
            self.inner.append(transaction([spent], paid, witness=False))
            hash = hash_of([spent], paid)
            spent, value = (hash, 0), paid[0]
            points = [(hash, 1)] + ([side[0]] if side else [])
            left = 14800 + (side[1] if side else 0) - 130
            self.outer.append(transaction(points, [left], witness=False))
            side = ((hash_of(points, [left]), 0), left)


def braid_taken_back(length):
    """A block confirms half of a braid and goes again, so that each comes back between entries on both sides."""

    def make(events):
        braid = Braid(1, length)
        before = [submission(digits) for pair in zip(braid.inner, braid.outer) for digits in pair]
        return opened([LIMITS, coin(1, PLENTY)], before), (confirming(number, braid.inner) + "chain 1 5000\n" for number in range(events))

    return make


def streams():
    """What `bench/run --hostile` measures of these. Where what leaves was paid for by lines of its own, these count too."""
    children, fewer = Children(3200), Children(1200)
    return [
        Stream("replaced: one of 1,400 inputs, beside 1,800 others of one payout", replaced_spender(Payout, 3200, 1400), 1, 0, "admitted"),
        Stream("replaced: one of 700 inputs, beside 900 others of one payout", replaced_spender(Payout, 1600, 700), 1, 0, "admitted"),
        Stream("replaced: one of 1,400 inputs, beside 28,600 others of a block's payout", replaced_spender(MinedPayout, 30000, 1400), 1, 0, "admitted"),
        Stream("expired: 3,200 children of one payout, with their lines", children.expired, 1, 0, "admitted", bytes=children.bytes),
        Stream("confirmed: 3,200 children of one payout", children.confirmed(False), 1, 0, "chain"),
        Stream("confirmed: 3,200 children of one payout, the last first", children.confirmed(True), 1, 0, "chain"),
        Stream("trimmed: 1,200 children of one payout, with their lines", fewer.trimmed, 1, 0, "admitted", bytes=fewer.bytes),
        Stream("taken back between others: half of a braid of 850", braid_taken_back(425), 1, 0, "chain", replies=2),
    ]
