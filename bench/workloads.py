"""The streams that bench/run measures: `streams` has them all."""

from dataclasses import dataclass
from itertools import chain as joined
from itertools import islice
from typing import Callable, Optional, Union

from texts import (
    BREAK,
    BUDGET,
    ENTER,
    FEE,
    SIZE,
    VALUE,
    block,
    call,
    chain,
    coin,
    coins,
    hash_of,
    output,
    payment,
    paying,
    reversed_bytes,
    settings,
    submission,
    transaction,
    virtual_size,
)

CHAIN = 25
CHILDREN = 24
CONFLICTS = 100
BLOCK = 100
PAYOUT = 2000
# the entries of a pool below the events that are measured, and of larger ones
POOL, LARGER_POOLS = 1000, (20000, 400000)
FIRST_FILLER = 10000000
PLENTY = 10000000
TWO_WEEKS = 336 * 3600
INDEPENDENT = "an independent submission"
BY_BYTES = "50 times an independent submission, for each byte of the line"
TAPROOT = "5120" + "22" * 32
SHORT_SCRIPT = "52020102"


@dataclass
class Stream:
    """Events that are measured, behind what comes before them.

    `make` gives, for a number of events, the lines before them and the text of each. The longer of two copies has
    `counted` events more than the shorter one where instructions are counted, and `timed` more where time is taken.
    Each event has so many `replies`, which begin with `wanted`, or with one of these. A figure is that of an event, or of each of its `parts`.
    `above` gives the stream over a pool of another size, where it has one, and `limit` says what the figure is held to.
    `bytes` are those of earlier lines that count beside the event's own, where a figure is told for each byte.
    """

    name: str
    make: Callable
    counted: int
    timed: int
    wanted: Union[str, tuple] = ""
    word: str = "run"
    parts: int = 1
    replies: int = 1
    above: Optional[Callable] = None
    limit: str = ""
    bytes: int = 0


def opened(lines, before=(), budget=BUDGET):
    """The lines up to the events of a peer that has entered."""
    return joined([settings(budget)], lines, [BREAK, ENTER], before)


def above(pool, lines, before=()):
    """The same over so many small entries."""
    numbers = range(FIRST_FILLER, FIRST_FILLER + pool)
    small = (submission(transaction([number], [VALUE - FEE], witness=False)) for number in numbers)
    return opened(joined(lines, map(coin, numbers)), joined(small, before))


def submission_at(time, digits):
    return "peer 1 tx %d %s\n" % (time, digits)


def payments(numbers):
    return map(submission, map(payment, numbers))


def linked(number, length):
    """The submissions of a chain."""
    return (paying([spent], [value]) for spent, value in chain(number, length))


def chains(numbers, length):
    return joined.from_iterable(linked(number, length) for number in numbers)


def last_link(number, length):
    """What the last of a chain spends, and the value of its output."""
    *_, link = chain(number, length)
    return link


def repeated(event, count):
    return (event for _ in range(count))


# What is denied


def leaves(count):
    return opened([]), repeated("peer 7 leave\n", count)


def underpaid(inputs, outputs, pool=0):
    """A35: one transaction again and again, whose fee is a satoshi too low."""
    spent = range(1, inputs + 1)
    values = [1000] * (outputs - 1) + [inputs * VALUE - 1000 * (outputs - 1)]
    values[-1] -= virtual_size(spent, values) - 1
    return lambda count: (above(pool, coins(inputs)), repeated(paying(spent, values), count))


def underpaid_by_many(inputs):
    """A35: the same with many inputs, without witnesses."""
    digits = transaction(range(1, inputs + 1), [inputs * VALUE - 1], witness=False)
    return lambda count: (opened(coins(inputs)), repeated(submission(digits), count))


def behind_a_chain(count):
    """A36: the 26th of a chain."""
    spent, value = last_link(1, CHAIN + 1)
    return opened(coins(1), linked(1, CHAIN)), repeated(paying([spent], [value]), count)


def under_a_full_parent(outputs):
    """A36: a child more than a parent may have, 25, whose children spend its last outputs."""
    shares = [1000] * outputs
    parent = hash_of([1], shares)

    def child(index):
        return paying([(parent, index)], [1000 - FEE])

    before = [submission(transaction([1], shares, witness=False))] + [child(outputs - 1 - index) for index in range(CHILDREN + 1)]
    return lambda count: (opened(coins(1, PLENTY), before), repeated(child(0), count))


class WideParent:
    """A parent of many outputs, whose last one an entry spends. Its own parents have too many descendants together, so
    that the limits of each are looked at alone."""

    def __init__(self, outputs, grandparents):
        shares = [9000000, 100000, 100000]
        numbers = range(1, grandparents + 1)
        older = [hash_of([number], shares) for number in numbers]
        spent, paid = [(hash, 0) for hash in older], [output(300, SHORT_SCRIPT)] * outputs + [50000]
        self.hash = hash_of(spent, paid)
        self.last = [(self.hash, outputs)]
        self.coins = list(coins(grandparents, PLENTY))
        self.entries = [paying([number], shares) for number in numbers]
        self.entries += [paying([(hash, index)], [100000 - FEE]) for hash in older for index in (1, 2)]
        self.entries += [paying(spent, paid), paying(self.last, [49000])]

    def another_child(self, count):
        """A38: a second child of the last output, for a satoshi less."""
        return opened(self.coins, self.entries), repeated(paying(self.last, [49001]), count)

    def told(self, count):
        return opened(self.coins, self.entries), repeated(call("getmempoolentry", reversed_bytes(self.hash)), count)


def beside_wide_conflicts(conflicts, outputs):
    """A41: a replacement of entries of many outputs, of which the last has a child."""
    numbers = range(1, conflicts + 1)
    paid = [output(300, SHORT_SCRIPT)] * outputs + [50000]
    value = outputs * 300 + 50000 + 95000
    before = [submission(transaction([number], paid, witness=False)) for number in numbers]
    before += [paying([(hash_of([number], paid), outputs)], [40000]) for number in numbers]
    event = paying(numbers, [conflicts * value - 10000])
    return lambda count: (opened(coins(conflicts, value), before), repeated(event, count))


def beside_conflicts(count):
    """A42: a replacement of a hundred entries that pays for them, but not for itself."""
    spent = range(1, CONFLICTS + 1)
    value = CONFLICTS * (VALUE - FEE) - virtual_size(spent, [0]) + 1
    return opened(coins(CONFLICTS), payments(spent)), repeated(paying(spent, [value]), count)


# What is admitted


def submissions(pool=0):
    return lambda count: (above(pool, coins(count)), payments(range(1, count + 1)))


def submissions_of_mined(count):
    """Each spends an output of a payout that a block made: its coin is looked up among those of the opening first."""
    numbers = range(1, count // PAYOUT + 2)
    paid = [VALUE] * PAYOUT
    made = ("chain 0 5000 %s\n" % block(number, [transaction([number], paid, witness=False)]) for number in numbers)
    points = islice(((hash_of([number], paid), index) for number in numbers for index in range(PAYOUT)), count)
    return opened(coins(len(numbers), PAYOUT * VALUE), made), (paying([point], [VALUE - FEE]) for point in points)


def whole_chains(count):
    numbers = range(1, count // CHAIN + 1)
    return opened(coins(len(numbers))), chains(numbers, CHAIN)


def whole_families(count):
    """Parents, each with its children behind it."""
    shares = [4000] * CHILDREN
    numbers = range(1, count // (1 + CHILDREN) + 1)

    def family(number):
        parent = hash_of([number], shares)
        return [paying([number], shares)] + [paying([(parent, index)], [4000 - FEE]) for index in range(CHILDREN)]

    return opened(coins(len(numbers))), joined.from_iterable(map(family, numbers))


def last_children(pool):
    """The 25th of so many chains."""

    def make(count):
        numbers = range(1, count + 1)
        links = (last_link(number, CHAIN) for number in numbers)
        return above(pool, coins(count), chains(numbers, CHAIN - 1)), (paying([spent], [value]) for spent, value in links)

    return make


def replacements(pool):
    def make(count):
        numbers = range(1, count + 1)
        return above(pool, coins(count), payments(numbers)), (submission(payment(number, 2 * FEE)) for number in numbers)

    return make


def replacements_of_chains(pool):
    def make(count):
        numbers = range(1, count + 1)
        fee = (CHAIN + 2) * FEE
        return above(pool, coins(count), chains(numbers, CHAIN)), (submission(payment(number, fee)) for number in numbers)

    return make


def replacements_of_many(count):
    """Each takes the place of a hundred entries."""
    groups = [range(first, first + CONFLICTS) for first in range(1, count * CONFLICTS, CONFLICTS)]
    value = CONFLICTS * VALUE - 100000
    return opened(coins(count * CONFLICTS), payments(range(1, count * CONFLICTS + 1))), (paying(spent, [value]) for spent in groups)


def trimming(pool):
    """A pool at its budget: each submission pays a little more than the least entry, which then goes."""

    def make(count):
        before = (submission(payment(number, 2000 + min(number, 90000))) for number in range(1, pool + 1))
        events = (submission(payment(pool + number, 2120 + number)) for number in range(1, count + 1))
        return opened(coins(pool + count), before, pool * SIZE), events

    return make


def replacements_after(pool):
    """Replacements in a pool of ten, which once had so many more: these were confirmed."""

    def make(count):
        few, numbers = 10, range(FIRST_FILLER, FIRST_FILLER + pool)
        larger = [transaction([number], [VALUE - FEE], witness=False) for number in numbers]
        whole = ("chain 0 5000 %s\n" % block(at, larger[at : at + 1000]) for at in range(0, pool, 1000))
        before = joined(map(submission, larger), whole, payments(range(1, few + 1)))
        events = (submission(payment(1 + number % few, FEE * (2 + number // few))) for number in range(count))
        return opened(joined(map(coin, numbers), coins(few)), before), events

    return make


def expiring(pool):
    """Entries of one second each; then submissions, for each of which the oldest expires."""

    def make(count):
        before = (submission_at(number, payment(number)) for number in range(1, pool + 1))
        events = (submission_at(number + TWO_WEEKS + 1, payment(pool + number)) for number in range(1, count + 1))
        return opened(coins(pool + count), before), events

    return make


# Packages

# the operator's floor, in satoshi per 1,000 virtual bytes: twice what a payment pays
FLOOR = "operator floor %d\n" % (2 * 1000 * FEE // SIZE)


def package_of(numbers, paid=FEE, times=1):
    """Parents that each spend one of these coins and pay so much, and their child, which pays so many times its size."""
    left = VALUE - paid
    spent = [(hash_of([number], [left]), 0) for number in numbers]
    value = len(numbers) * left - times * virtual_size(spent, [0])
    return [transaction([number], [left]) for number in numbers] + [transaction(spent, [value])]


def packages(pool, size, submit, before=(), times=1):
    """Packages of this size, each handed to `submit`, which gives the lines that submit it."""

    def make(count):
        parents = size - 1
        groups = (range(first, first + parents) for first in range(1, count * parents + 1, parents))
        events = ("".join(submit(package_of(group, times=times))) for group in groups)
        return above(pool, joined(["packages 1\n"], coins(count * parents)), before), events

    return make


def answered(message):
    """How the answer to a package begins."""
    return 'rpc 200 {"error":null,"id":1,"result":{"package_msg":"%s"' % message


def at_once(members):
    return [call("submitpackage", members)]


def offered(members):
    """The same by a peer, who offers two."""
    return ["peer 1 package 5000 %s\n" % " ".join(members)]


def one_by_one(members):
    return (call("sendrawtransaction", member) for member in members)


# Calls of users and peers


def listings(event, pool):
    return lambda count: (above(pool, []), repeated(event, count))


def last_entries(pool):
    """The entry at the end of a chain."""
    spent, value = last_link(1, CHAIN)
    event = call("getmempoolentry", reversed_bytes(hash_of([spent], [value])))
    return lambda count: (above(pool, coins(1), linked(1, CHAIN)), repeated(event, count))


def large_and_denied(count, outputs=12900):
    """A13: a transaction of some 400,000 bytes, which weighs too much."""
    digits = transaction([1], [1000] * outputs, witness=False)
    return opened(coins(1)), repeated(call("sendrawtransaction", digits), count)


def large_and_admitted(count, length=399500):
    """Nearly all of each transaction is one witness item of a Taproot coin, which is spent by a script of a leaf version
    that has no rules yet (BIP 341)."""
    item = "fe" + length.to_bytes(4, "little").hex() + "02" * length
    witness = "03" + item + "01" + "51" + "21" + "c2" + "02" * 32

    def large(number):
        digits = transaction([number], [PLENTY - length], witness=False)
        return digits[:8] + "0001" + digits[8:-8] + witness + digits[-8:]

    numbers = range(1, count + 1)
    return opened(coin(number, PLENTY, TAPROOT) for number in numbers), (call("sendrawtransaction", large(number)) for number in numbers)


# The chain


def confirming(number, first):
    """The event of a block that confirms a hundred entries."""
    return "chain 0 5000 %s\n" % block(number, [payment(each) for each in range(first, first + BLOCK)])


def blocks(pool):
    """Blocks one upon the other."""

    def make(count):
        entries = range(1, count * BLOCK + 1)
        events = (confirming(number, number * BLOCK + 1) for number in range(count))
        return above(pool, coins(len(entries)), payments(entries)), events

    return make


def blocks_that_go(pool):
    """Blocks of which each goes again before the next comes, so that its transactions come back."""

    def make(count):
        before = payments(range(1, BLOCK + 1))
        return above(pool, coins(BLOCK), before), (confirming(number, 1) + "chain 1 5000\n" for number in range(count))

    return make


def learnt_coins(pool):
    """Coins that nobody spends yet."""
    return lambda count: (above(pool, []), ("chain " + line for line in coins(count)))


def learnt_verdicts(pool):
    return lambda count: (above(pool, []), ("chain verdict %064x 0 ok\n" % number for number in range(1, count + 1)))


def forgotten_blocks(pool):
    """Blocks of a hundred payments, whose coins are learnt before, and of which each is forgotten when ten more are connected."""

    def learnt(number):
        numbers = range(number * BLOCK + 1, (number + 1) * BLOCK + 1)
        return "".join("chain " + coin(each) for each in numbers) + confirming(number, numbers[0])

    def make(count):
        return above(pool, [], map(learnt, range(10))), (learnt(number) + "chain forget 1\n" for number in range(10, 10 + count))

    return make


def forgotten_above(coins_kept):
    """Forgetting, where nothing is to be forgotten and so many coins stay, each of which an entry spends."""
    return lambda count: (above(coins_kept, []), repeated("chain forget 0\n", count))


# Lanes, journals, openings


def journals(count):
    def pair(number):
        txid = reversed_bytes(hash_of([number], [VALUE - FEE]))
        reply = "admitted %s fee %d vsize %d replaced 0" % (txid, FEE, SIZE)
        return "> %s< %s\n" % (submission(payment(number)), reply)

    lines = joined([settings(BUDGET)], coins(count), [BREAK, "> " + ENTER, "< entered none\n"])
    return lines, map(pair, range(1, count + 1))


def openings(count):
    return [settings(BUDGET)], coins(count)


# All of them


def grown(name, make, counted, timed, wanted, limit="", is_listing=False, **more):
    """A stream whose events may cost more in a larger pool. Those of a listing are told for each entry."""

    def above(pool):
        parts = {"parts": pool} if is_listing else {}
        return Stream(name, make(pool), counted, timed, wanted, above=above, limit=limit, **parts, **more)

    return above(POOL)


def denials():
    wide = WideParent(6700, 22)
    return [
        Stream("leave of an unknown peer", leaves, 5000, 200000, "denied P1", limit="0.2 microseconds"),
        grown("denied by A35", lambda pool: underpaid(1, 1, pool), 500, 10000, "denied A35", "4 microseconds"),
        Stream("denied by A35, 10 inputs and 10 outputs", underpaid(10, 10), 100, 2000, "denied A35"),
        Stream("denied by A35, 2,000 inputs", underpaid_by_many(2000), 2, 50, "denied A35"),
        Stream("denied by A36 behind a chain of 25", behind_a_chain, 100, 5000, "denied A36"),
        Stream("denied by A36 under a parent of 3,000 outputs", under_a_full_parent(3000), 5, 200, "denied A36", limit="1.2 times that behind a chain"),
        Stream("denied by A38 under a parent of 6,700 outputs and 22 grandparents", wide.another_child, 1, 10, "denied A38", limit=BY_BYTES),
        Stream("denied by A41 beside 50 conflicts of 7,000 outputs and a child", beside_wide_conflicts(50, 7000), 1, 5, "denied A41", limit=BY_BYTES),
        Stream("denied by A42 beside 100 conflicts", beside_conflicts, 10, 200, "denied A42"),
    ]


def admissions():
    return [
        grown(INDEPENDENT, submissions, 500, 10000, "admitted", "the same in any pool"),
        Stream("a submission that spends what a block made", submissions_of_mined, 500, 10000, "admitted", limit="1.05 times an independent one"),
        Stream("a submission in chains of 25", whole_chains, 500, 10000, "admitted", limit="1.3 times an independent one"),
        Stream("a submission in parents with 24 children", whole_families, 500, 10000, "admitted", limit="1.3 times an independent one"),
        grown("a child under a chain of 24", last_children, 20, 500, "admitted", "the same in any pool"),
        grown("a replacement", replacements, 200, 5000, "admitted", "the same in any pool"),
        grown("a replacement of a chain of 25", replacements_of_chains, 10, 200, "admitted", "within 1.5 in any pool"),
        grown("a replacement in a pool of ten, which was once larger", replacements_after, 200, 2000, "admitted", "within 1.2 in any pool"),
        grown("a submission for which the oldest entry expires", expiring, 50, 500, "admitted", "the same in any pool"),
        Stream("a replacement of 100 entries", replacements_of_many, 5, 50, "admitted"),
        *(trimmed(pool, count) for pool, count in ((1000, 200), (10000, 200), (100000, 1000))),
    ]


def packaged():
    """What a member of a package takes, beside the same transactions sent one by one."""

    def rows(size, counted, timed):
        paid = "a package of %d that pay for themselves, a member" % size
        mended = "a package of %d whose child pays for its parents, a member" % size
        alone = "a package of %d that pay for themselves, sent one by one, each" % size
        success = answered("success")
        return [
            grown(alone, lambda pool: packages(pool, size, one_by_one), counted, timed, "rpc 200", parts=size, replies=size),
            grown(paid, lambda pool: packages(pool, size, at_once), counted, timed, success, "1.15 times one by one", parts=size),
            grown(mended, lambda pool: packages(pool, size, at_once, [FLOOR], 10), counted, timed, success, "twice one by one", parts=size),
        ]

    return [*rows(2, 250, 5000), *rows(CHAIN, 20, 400)]


def trimmed(pool, count):
    name = "a submission to a full pool of %s entries, of which one goes" % format(pool, ",")
    return Stream(name, trimming(pool), count, 20 * count, "admitted", limit="1.5 times an independent one, in any pool")


def answers():
    wide = WideParent(6700, 22)
    listing = call("getrawmempool")
    return [
        grown("getmempoolentry at the end of a chain of 25", last_entries, 50, 2000, "rpc 200", "the same in any pool"),
        Stream("getmempoolentry of a parent of 6,700 outputs", wide.told, 2, 20, "rpc 200", limit=BY_BYTES),
        grown("getrawmempool, an entry", lambda pool: listings(listing, pool), 2, 20, "rpc 200", "the same in any pool", is_listing=True),
        grown("a peer's listing, an entry", lambda pool: listings("peer 1 mempool\n", pool), 2, 20, "listing", "the same in any pool", is_listing=True),
        Stream("sendrawtransaction of 399,953 bytes, denied by A13", large_and_denied, 2, 50, "rpc 500"),
        Stream("sendrawtransaction of 399,626 bytes, admitted", large_and_admitted, 2, 50, "rpc 200"),
    ]


def streams():
    """Every stream."""
    return [
        *denials(),
        *admissions(),
        *packaged(),
        *answers(),
        grown("a block of 100, a transaction", blocks, 3, 30, "chain", "the same in any pool", parts=BLOCK),
        grown("a block of 100 that comes and goes again", blocks_that_go, 2, 10, "chain", replies=2),
        grown("a coin that is learnt", learnt_coins, 1000, 50000, "set", "the same in any pool"),
        grown("a verdict that is learnt", learnt_verdicts, 1000, 50000, "set", "the same in any pool"),
        Stream(
            "a block of 100 whose coins are learnt, and one forgotten, a transaction",
            forgotten_blocks(0), 3, 30, ("set", "chain", "forgotten"), parts=BLOCK, replies=BLOCK + 2,
        ),
        grown("forgetting nothing, a coin that stays", forgotten_above, 2, 20, "forgotten", "the same in any pool", is_listing=True),
        Stream("a lane's call: an independent submission", submissions(), 1000, 20000, "admitted", word="lanes"),
        Stream("an entry of an audit: an independent submission", journals, 1000, 20000, word="audit", replies=0),
        Stream("a coin of an opening", openings, 2000, 100000, replies=0),
    ]
