"""The costliest lines that are known for each rule: `bench/run --hostile` measures them for each byte of the line."""

import leaving
from leaving import LIMITS
from workloads import CHAIN, FLOOR, TAPROOT, Stream, WideParent, answered, at_once, beside_wide_conflicts, chains, last_link, offered, opened, package_of, repeated
from texts import FEE, VALUE, block, call, coin, coins, count_of, hash_of, output, payment, paying, submission, transaction

# the peer keeps its session whatever it sends
NOBAN = "whitelist noban@192.0.2.1\n"
SCRIPT_HASH = "a914" + "22" * 20 + "87"
WITNESS_SCRIPT_HASH = "0020" + "22" * 32
MOST_INPUTS = 2400


def count(number):
    return count_of(number) if number < 0x10000 else "fe" + number.to_bytes(4, "little").hex()


def with_length(script):
    return count(len(script) // 2) + script


def spending(inputs, outputs, witnesses=None):
    """A transaction of inputs, each an outpoint's coin number, its script and its sequence, and of outputs' texts."""
    spent = "".join(number.to_bytes(8, "big").hex() * 4 + "00000000" + with_length(script) + sequence for number, script, sequence in inputs)
    body = count(len(inputs)) + spent + count(len(outputs)) + "".join(outputs)
    if witnesses is None:
        return "02000000" + body + "00000000"
    return "02000000" + "0001" + body + "".join(witnesses) + "00000000"


def unlocked(number, script, unlocking, witness=None, sequence="fdffffff"):
    """A35, or what comes before it: so many inputs that spend coins of one script, for no fee."""
    inputs = [(it, unlocking, sequence) for it in range(1, number + 1)]
    digits = spending(inputs, [output(number * VALUE)], witness and [witness] * number)
    return lambda events: (opened([NOBAN, *(coin(it, script=script) for it in range(1, number + 1))]), repeated(submission(digits), events))


def denied_alone(digits, more=()):
    return lambda events: (opened([NOBAN, *more]), repeated(submission(digits), events))


def duplicate_at_the_end():
    spent = [*range(1, MOST_INPUTS), 1]
    return denied_alone(transaction(spent, [1000], witness=False))


def missing_at_the_end():
    return denied_alone(transaction(range(1, MOST_INPUTS + 1), [1000], witness=False), coins(MOST_INPUTS - 1))


def many_conflicts(number):
    """A39: entries that each spend one coin, and one that spends all of these."""
    spent = range(1, number + 1)
    event = submission(transaction(spent, [1000], witness=False))
    return lambda events: (opened(coins(number), (submission(payment(it)) for it in spent)), repeated(event, events))


def many_parents(number):
    """A36: so many entries, and one that spends an output of each."""
    numbers = range(1, number + 1)
    spent = [(hash_of([it], [VALUE - FEE]), 0) for it in numbers]
    event = submission(transaction(spent, [1000], witness=False))
    return lambda events: (opened(coins(number), (submission(payment(it)) for it in numbers)), repeated(event, events))


def many_inputs_of_conflicts(conflicts, inputs, parents, last_inputs=None, limits=()):
    """A41: conflicts of many inputs, and a replacement that spends outputs of so many parents, too. The last of the
    conflicts spends these as well, and may have other inputs of another number."""
    first = parents + 1
    shares = [VALUE // 2, VALUE // 2 - 1000]
    older = [transaction([it], shares) for it in range(1, parents + 1)]
    outs = [(hash_of([it], shares), 0) for it in range(1, parents + 1)]
    groups = [range(first + at * inputs, first + (at + 1) * inputs) for at in range(conflicts)]
    value = inputs * VALUE - 100000
    wide = [transaction(group, [value], witness=False) for group in groups[:-1]]
    most = groups[-1][:last_inputs]
    last = transaction([*outs, *most], [len(most) * VALUE - 100000], witness=False)
    digits = transaction([*(group[0] for group in groups), *outs], [1000], witness=False)
    every = [*older, *wide, last]
    lines = [*limits, *coins(parents + conflicts * inputs)]
    return lambda events: (opened(lines, map(submission, every)), repeated(submission(digits), events))


def dust_left(outputs, inputs):
    """A49: a child that spends so many outputs of a wide parent, and leaves the one that is dust."""
    shares = [*[1000] * (outputs - 1), 1]
    parent = hash_of([1], shares)
    lines = ["minrelaytxfee 0\n", "ephemeraldust 1\n", *coins(1, sum(shares))]
    child = submission(transaction([(parent, index) for index in range(inputs)], [inputs * 1000], witness=False))
    return lambda events: (opened(lines, [submission(transaction([1], shares, witness=False))]), repeated(child, events))


PACKAGES = "packages 1\n"


def below_the_floor(parents):
    """A34: parents and their child, who are judged one by one, and then together, and pay a half of what the floor asks for."""
    (event,) = at_once(package_of(range(1, parents + 1)))
    return lambda events: (opened([PACKAGES, *coins(parents)], [FLOOR]), repeated(event, events))


def below_chains(parents):
    """J9: parents below the floor, each of them the 25th of a chain, and their child."""
    numbers = range(1, parents + 1)
    links = [last_link(number, CHAIN) for number in numbers]
    spent = [(hash_of([link], [value]), 0) for link, value in links]
    members = [transaction([link], [value]) for link, value in links] + [transaction(spent, [VALUE])]
    (event,) = at_once(members)
    return lambda events: (opened([PACKAGES, *coins(parents)], [*chains(numbers, CHAIN - 1), FLOOR]), repeated(event, events))


def replacing_by_a_package(pool, submit):
    """A parent that replaces an entry, so that the package stands in a copy of the pool; `submit` gives its line."""

    def make(events):
        before = (submission(payment(it)) for it in range(1, pool + 1))
        return opened([PACKAGES, *coins(pool)], before), (submit(package_of([it], 5 * FEE))[0] for it in range(1, events + 1))

    return make


def trimming_many(pool, padding):
    """A newcomer of many outputs to a pool at its budget, for which many small entries go."""
    small = 110

    def make(events):
        before = (submission(payment(it, 2000 + it)) for it in range(1, pool + 1))
        outs = [output(1000)] * padding
        value = 100000000
        lines = [*coins(pool), *(coin(pool + it, value) for it in range(1, events + 1))]
        news = (submission(spending([(pool + it, "", "fdffffff")], outs)) for it in range(1, events + 1))
        return opened(lines, before, pool * small), news

    return make


def under_whitelist(entries):
    def make(events):
        lines = ("whitelist 10.%d.%d.%d\n" % (it >> 16, it >> 8 & 255, it & 255) for it in range(entries))
        return opened(lines), ("peer %d enter 192.0.2.1\n" % (10 + it) for it in range(events))

    return make


def under_rpcwhitelist(entries):
    def make(events):
        return opened("rpcwhitelist u%d:getmempoolinfo\n" % it for it in range(entries)), repeated(call("getmempoolinfo"), events)

    return make


def called(text):
    return lambda events: (opened([]), repeated("user a rpc 5 %s\n" % text, events))


def json_beside(part, number):
    return called('{"method":"none","x":[%s],"id":1}' % ",".join([part] * number))


def empty_block_that_goes(pool):
    """A reorganisation that moves nothing."""

    def make(events):
        before = [*(submission(payment(it)) for it in range(1, pool + 1)), *("chain 0 5000 %s\n" % block(it, []) for it in range(events))]
        return opened(coins(pool), before), repeated("chain 1 5000\n", events)

    return make


def payout_that_goes(outputs):
    """A block that pays to many, each of whom has spent in the pool, goes."""

    def make(events):
        value = outputs * 1000 + 100000
        shares = [1000] * outputs
        before = []
        for it in range(1, events + 1):
            parent = hash_of([it], shares)
            before.append("chain 0 5000 %s\n" % block(it, [transaction([it], shares, witness=False)]))
            before += [paying([(parent, index)], [1000 - FEE]) for index in range(outputs)]
        return opened(coins(events, value), before), repeated("chain 1 5000\n", events)

    return make


def listed(pool, event):
    return lambda events: (opened(coins(pool), (submission(payment(it)) for it in range(1, pool + 1))), repeated(event, events))


def streams():
    """A stream for each rule or shape, with how its reply begins."""
    wide = WideParent(6700, 22)
    key, items = "51" * 1650, "64" + "00" * 99 + "fd100e" + "ac" * 3600
    empty = lambda number: "fe" + number.to_bytes(4, "little").hex() + "00" * number
    return [
        Stream("A8: the last of 2,400 inputs is the first again", duplicate_at_the_end(), 2, 0, "denied A8"),
        Stream("A13: 16,000 outputs", denied_alone(transaction([1], [1000] * 16000, witness=False)), 2, 0, "denied A13"),
        Stream("A16: an output of 99,000 opcodes", denied_alone(spending([(1, "", "fdffffff")], ["e803000000000000" + with_length("51" * 99000)])), 2, 0, "denied A16"),
        Stream("A17: 3,000 outputs, the last of them dust", denied_alone(transaction([1], [1000] * 2999 + [1], witness=False)), 2, 0, "denied A17"),
        Stream("A25: the last of 2,400 coins is missing", missing_at_the_end(), 2, 0, "denied A25"),
        Stream("A26: 2,400 relative locks of time, then A35", unlocked(MOST_INPUTS, "76a914" + "22" * 20 + "88ac", "", sequence="01004000"), 2, 0, "denied A35"),
        Stream("A31: 58 inputs of 1,650 pushes, by ScriptHash", unlocked(58, SCRIPT_HASH, key), 2, 0, "denied A31"),
        Stream("A33: 1,500 redeem scripts of 15 CHECKSIG", unlocked(1500, SCRIPT_HASH, "0f" + "ac" * 15), 2, 0, "denied A33"),
        Stream("A33: 100 witness scripts of 3,600 CHECKSIG below 99 items", unlocked(100, WITNESS_SCRIPT_HASH, "", items), 2, 0, "denied A33"),
        Stream("A32: 190,000 empty witness items of a Taproot coin", unlocked(1, TAPROOT, "", empty(190000)), 2, 0, "denied A32"),
        Stream("A36: 1,000 parents", many_parents(1000), 2, 0, "denied A36"),
        Stream("A38: a parent of 6,700 outputs, 22 grandparents", wide.another_child, 1, 0, "denied A38"),
        Stream("A39: 2,400 conflicts", many_conflicts(MOST_INPUTS), 2, 0, "denied A39"),
        Stream("A40, then A41: 20 conflicts of 2,300 inputs, 23 parents", many_inputs_of_conflicts(20, 2300, 23), 1, 0, "denied A41"),
        Stream("A40, then A41: 100 conflicts of 2,300 inputs, 23 parents", many_inputs_of_conflicts(100, 2300, 23), 1, 0, "denied A41"),
        Stream("A40, then A41: 100 conflicts of 2,300 inputs, 450 parents", many_inputs_of_conflicts(100, 2300, 450, 200, [LIMITS]), 1, 0, "denied A41"),
        Stream("A41: 50 conflicts of 7,000 outputs with a child each", beside_wide_conflicts(50, 7000), 1, 0, "denied A41"),
        Stream("A49: one output of a parent of 3,000 is spent, its dust is not", dust_left(3000, 1), 2, 0, "denied A49"),
        Stream("A49: 1,300 outputs of a parent of 1,500 are spent, its dust is not", dust_left(1500, 1300), 2, 0, "denied A49"),
        Stream("A34: a package of 25, each by itself and together", below_the_floor(CHAIN - 1), 2, 0, answered("transaction failed")),
        Stream("J9: a package of 24 parents at the end of chains of 24", below_chains(CHAIN - 1), 2, 0, answered("package-mempool-limits")),
        Stream("a package of two that replaces an entry of 10,000", replacing_by_a_package(10000, at_once), 1, 0, answered("success")),
        Stream("a peer's package that replaces an entry of 10,000", replacing_by_a_package(10000, offered), 1, 0, "packaged keep success"),
        Stream("trim: a newcomer for which 600 of 2,000 entries go", trimming_many(2000, 2100), 1, 0, "admitted"),
        Stream("an empty block goes, over 10,000 entries", empty_block_that_goes(10000), 1, 0, "chain"),
        Stream("a block that pays to 1,600 entries goes", payout_that_goes(1600), 1, 0, "chain"),
        Stream("enter under 100,000 whitelist entries", under_whitelist(100000), 2, 0, "entered"),
        Stream("a call under 100,000 rpcwhitelist entries", under_rpcwhitelist(100000), 5, 0, "rpc"),
        Stream("getmempoolentry of that parent", wide.told, 2, 0, "rpc 200"),
        Stream("a peer's listing of 10,000 entries", listed(10000, "peer 1 mempool\n"), 2, 0, "listing"),
        Stream("getrawmempool of 10,000 entries", listed(10000, call("getrawmempool")), 2, 0, "rpc 200"),
        *leaving.streams(),
        Stream('JSON: 100,000 times {"":0}', json_beside('{"":0}', 100000), 1, 0, "rpc 404"),
        Stream("JSON: 500,000 times 0", json_beside("0", 500000), 1, 0, "rpc 404"),
        Stream("JSON: a million digits", called('{"method":"none","x":1%s,"id":1}' % ("0" * 300 + "." + "0" * 1000000)), 1, 0, "rpc"),
        Stream("hexadecimal that is none, a megabyte", lambda events: (opened([]), repeated("peer 1 tx 5 %s\n" % ("z" * 1000000), events)), 1, 0, "denied A1"),
    ]
