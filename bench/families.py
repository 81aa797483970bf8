"""Families of up to a thousand entries: `bench/run --families` measures them beside smaller ones.

The opening lets families have a thousand entries. Their virtual bytes stay at 101,000, so transactions have no
witnesses, and 82 virtual bytes with one output. A thousand fit into a chain. A parent's outputs count too, so it has at
most 981 children, of which the last come in by the second try of A36.
"""

from itertools import chain as joined

from texts import BUDGET, FEE, block, call, coin, coins, hash_of, reversed_bytes, submission, transaction
from workloads import PLENTY, Stream, opened, repeated

SIZES = (25, 100, 400, 1000)
MOST_CHILDREN = 981
SMALL = 82
# how many entries a pool or a block has, in whole families
ENTRIES = 1000
MOST_REPLACED = 100
# what a transaction pays for each virtual byte for which others are trimmed
RICH = 50


def usual_fee(place):
    return FEE


def falling_fee(place):
    """By these fees the last of a family has the least score."""
    return 4000 - place


def size_of(outputs):
    """The virtual size of a transaction of one input and so many outputs."""
    return 51 + 31 * outputs + (2 if outputs > 252 else 0)


def small(spent, values):
    return transaction([spent], values, witness=False)


def spending(spent, *values):
    return submission(small(spent, values))


class Chain:
    """Entries of which each spends the one before it. `fee` tells what each pays by its place."""

    def __init__(self, number, size, fee=usual_fee):
        spent, value = number, PLENTY
        self.spent, self.digits, self.hashes = [], [], []
        for place in range(size):
            self.spent.append((spent, value))
            value -= fee(place)
            self.digits.append(small(spent, [value]))
            self.hashes.append(hash_of([spent], [value]))
            spent = (self.hashes[-1], 0)
        self.bytes = size * SMALL

    @staticmethod
    def most(size):
        return size

    @staticmethod
    def rising(base):
        """By these fees the first has the least score, so that all go at once."""
        return lambda place: base + place


class Parent:
    """A parent, and children of which each spends an output of its own. The parent's fee is told for 82 virtual bytes."""

    def __init__(self, number, size, fee=usual_fee):
        children = size - 1
        share = (PLENTY - fee(0) * size_of(children) // SMALL - 1) // children
        shares = [share] * children
        parent = hash_of([number], shares)
        self.spent = [(number, PLENTY)] + [((parent, index), share) for index in range(children)]
        paid = [shares] + [[share - fee(place)] for place in range(1, size)]
        self.digits = [small(spent, values) for (spent, _), values in zip(self.spent, paid)]
        self.hashes = [hash_of([spent], values) for (spent, _), values in zip(self.spent, paid)]
        self.bytes = size_of(children) + children * SMALL

    @staticmethod
    def most(size):
        return min(size, 1 + MOST_CHILDREN)

    @staticmethod
    def rising(base):
        return lambda place: 2000 if place else base


def begun(families, more=(), budget=BUDGET, limit=1000):
    """An opening with a coin for each family, and the entries of these."""
    limits = ["limitancestorcount %d\nlimitdescendantcount %d\n" % (limit, limit)]
    entered = joined.from_iterable(map(submission, family.digits) for family in families)
    return opened(joined(limits, coins(len(families), PLENTY), more), entered, budget)


def confirming(number, digits):
    return "chain 0 5000 %s\n" % block(number, digits)


class Sized:
    """The streams over families of one kind and one size. Where there are two, the second has the same events without
    what is measured, and is taken off."""

    def __init__(self, kind, size):
        self.kind, self.size, self.many = kind, kind.most(size), max(1, ENTRIES // size)
        self.few = max(1, self.many // 4)

    def families(self, count, fee=usual_fee):
        return [self.kind(number, self.size, fee) for number in range(1, count + 1)]

    def stream(self, make, counted, wanted, parts=1, replies=1):
        return Stream("families of %d" % self.size, make, counted, 0, wanted, parts=parts, replies=replies)

    def entered(self):
        def make(count):
            families = self.families(count)
            return begun([], coins(count, PLENTY)), ("".join(map(submission, family.digits)) for family in families)

        return [self.stream(make, self.many, "admitted", self.size, self.size)]

    def asked(self, event, wanted, parts=1, counted=100, limit=1000):
        """An event again and again, over some thousand entries. It is told the first of the families."""

        def make(count):
            pool = self.families(self.many)
            return begun(pool, limit=limit), repeated(event(pool[0]), count)

        return [self.stream(make, counted, wanted, parts)]

    def listed(self, event, wanted):
        return self.asked(lambda family: event, wanted, self.many * self.size, 2)

    def told(self, place, method="getmempoolentry", parts=1):
        return self.asked(lambda family: call(method, reversed_bytes(family.hashes[place])), "rpc 200", parts)

    def behind(self):
        """A36: one more behind the last, where a family may have no more."""
        return self.asked(lambda family: spending((family.hashes[-1], 0), 1000), "denied A36", limit=self.size)

    def replaced(self, place):
        """Families of which an entry, and what is below it, is replaced."""
        parts = self.size - place if self.kind is Chain or not place else 1

        def make(count):
            families = self.families(count)
            fee = (parts + 2) * FEE + (0 if self.kind is Chain else 2 * size_of(self.size))
            return begun(families), (spending(spent, value - fee) for spent, value in (family.spent[place] for family in families))

        return [self.stream(make, self.few, "admitted", parts)]

    def last_replaced(self):
        """The last of a family, again and again."""

        def make(count):
            (family,) = self.families(1)
            spent, value = family.spent[-1]
            return begun([family]), (spending(spent, value - FEE * (2 + number)) for number in range(count))

        return [self.stream(make, 20, "admitted")]

    def not_replaced(self):
        """A39: what spends the coin of a family that is too large."""
        return self.asked(lambda family: spending(family.spent[0][0], PLENTY - 1000000), "denied A39") if self.size > MOST_REPLACED else []

    def trimmed(self):
        """Newcomers, each as large as a family, in two pieces if one would be too large, for which a whole one goes."""
        whole = self.kind(1, self.size).bytes
        pieces = 1 if whole < 90000 else 2
        outputs = (whole // pieces - 55) // 31
        share = (2 * PLENTY - RICH * size_of(outputs)) // outputs

        def make(count, budget):
            families = [self.kind(number, self.size, self.kind.rising(100 + number)) for number in range(1, count + 1)]
            numbers = range(count + 1, count + 1 + pieces * count)
            lines = [spending(number, *[share] * outputs) for number in numbers]
            events = ("".join(lines[at : at + pieces]) for at in range(0, len(lines), pieces))
            return begun(families, [coin(number, 2 * PLENTY) for number in numbers], budget), events

        return [
            self.stream(lambda count: make(count, whole * count), self.few, "admitted", self.size, pieces),
            self.stream(lambda count: make(count, BUDGET), self.few, "admitted", self.size, pieces),
        ]

    def last_trimmed(self):
        """Small newcomers, for each of which the last of a family goes."""

        def make(count, budget):
            families = self.families(self.many, falling_fee)
            numbers = range(self.many + 1, self.many + 1 + count)
            events = (spending(number, PLENTY - 10000) for number in numbers)
            return begun(families, [coin(number, PLENTY) for number in numbers], budget), events

        whole = self.many * self.kind(1, self.size).bytes
        return [self.stream(lambda count: make(count, whole), 10, "admitted"), self.stream(lambda count: make(count, BUDGET), 10, "admitted")]

    def whole_block(self, number, families):
        return confirming(number, [digits for family in families for digits in family.digits])

    def confirmed(self):
        """Blocks of some thousand entries."""

        def make(count):
            families = self.families(self.many * count)
            groups = (families[at : at + self.many] for at in range(0, len(families), self.many))
            return begun(families), (self.whole_block(number, group) for number, group in enumerate(groups))

        return [self.stream(make, 1, "chain", self.many * self.size)]

    def taken_back(self):
        """Such a block goes again, and all of it comes back."""

        def make(count):
            families = self.families(self.many)
            return begun(families), (self.whole_block(number, families) + "chain 1 5000\n" for number in range(count))

        return [self.stream(make, 1, "chain", self.many * self.size, 2), *self.confirmed()]

    def first_confirmed(self):
        """Blocks that confirm the first of a family each, and no other."""

        def make(count):
            families = self.families(count)
            return begun(families), (confirming(number, family.digits[:1]) for number, family in enumerate(families))

        return [self.stream(make, self.few, "chain")]

    def first_taken_back(self):
        """Such a block goes, and the first comes back above all the others."""

        def make(count):
            (family,) = self.families(1)
            return begun([family]), (confirming(number, family.digits[:1]) + "chain 1 5000\n" for number in range(count))

        return [self.stream(make, 1, "chain", replies=2), *self.first_confirmed()]


def figures(kind, size):
    """The figures of families of one kind and size: a name, and streams."""
    sized = Sized(kind, size)
    below, last = sized.size - 1, "the end" if kind is Chain else "the last child"
    few = min(sized.size, MOST_REPLACED)
    if kind is Chain:
        replaced = [
            ("the last 100 (or all) replaced by one, an entry", sized.replaced(sized.size - few)),
            ("getmempoolancestors of the end, an id", sized.told(-1, "getmempoolancestors", below)),
            ("one more behind the end, denied by A36", sized.behind()),
        ]
    else:
        replaced = [("the whole replaced by one, an entry", sized.replaced(0) if sized.size <= MOST_REPLACED else [])]
    return [
        ("entered, an entry", sized.entered()),
        ("getrawmempool, an entry", sized.listed(call("getrawmempool"), "rpc 200")),
        ("a peer's listing, an entry", sized.listed("peer 1 mempool\n", "listing")),
        ("getmempoolentry of " + last, sized.told(-1)),
        ("getmempoolentry of the first", sized.told(0)),
        ("getmempooldescendants of the first, an id", sized.told(0, "getmempooldescendants", below)),
        (last + " replaced", sized.last_replaced()),
        *replaced,
        ("the first not replaced, by A39", sized.not_replaced()),
        ("trimmed as a whole, an entry", sized.trimmed()),
        (last + " trimmed", sized.last_trimmed()),
        ("confirmed by a block, an entry", sized.confirmed()),
        ("taken back with that block, an entry", sized.taken_back()),
        ("the first alone confirmed", sized.first_confirmed()),
        ("the first alone taken back", sized.first_taken_back()),
    ]


def tables():
    """For each kind a name, and for each size its figures."""
    for name, kind in (("a chain", Chain), ("a parent with its children", Parent)):
        yield name, [kind.most(size) for size in SIZES], [figures(kind, size) for size in SIZES]
