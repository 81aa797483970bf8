"""Random openings that say what an operator may set, each reply next to that of the plain model.

Each kind of event is made to fall on one side of a setting or on the other, by one satoshi, one byte, one second or one output.
"""

import random
from collections import Counter
from itertools import product

from bitcoin import Input, Output, Transaction, number_hash
from gate import same
from model import ANCHOR, HOUR, KILO, MULTISIG, RETURN, USUAL, TRUC, TRUC_CHILD_SIZE, Coin, Model, Opening, dust, fees_of, policy_lines, rate_of, releases
from random_streams import compared

STREAMS = 150
EVENTS = 40
COINS = 60
OTHERS = 20
VALUE = 10000000
LAST = 0xFFFFFFFF
SIGNAL = 0xFFFFFFFD
# what stands for the usual number of a limit that is usually none
BETWEEN = {"maxtxlegacysigops": 2, "datacarriertotal": 166}
BUDGETS = (300000000, 300000000, 2000, 1000, 300)


def data(length):
    """A script of this many bytes that carries data."""
    return bytes([RETURN]) + b"\x51" * (length - 1)


def near(word, setting):
    """The bounds of a setting, its usual number, and what lies next to these."""
    least, most, _ = setting
    usual = BETWEEN.get(word, setting.usual)
    return [number for number in sorted({least, least + 1, usual - 1, usual, usual + 1, most}) if least <= number <= most]


class Stream:
    """An opening and events that fit it, of one seed. It says about every second setting, and may name a release."""

    def __init__(self, seed, settings, release=None):
        self.random = random.Random(seed)
        self.opening = Opening([1000 + 600 * number for number in range(101)], bloom=True)
        for word in USUAL:
            if self.random.random() < 0.5:
                self.opening.settings[word] = self.random.choice(near(word, settings[word]))
        # dust that a child sweeps stands in a transaction that pays nothing
        if self.opening["ephemeraldust"] and self.random.random() < 0.8:
            self.opening.settings["minrelaytxfee"] = 0
        self.release, self.said = release, self.opening.settings
        self.opening.settings = {**releases().get(release, {}), **self.said}
        self.opening.budget = self.random.choice(BUDGETS)
        self.opening.verdicts["*"] = "ok"
        self.free = [(number_hash(number), 0) for number in range(1, COINS + 1)]
        for outpoint in self.free:
            self.opening.coins[outpoint] = Coin(VALUE, 1, False)
        self.anchors = self.others(1000, ANCHOR)
        self.keys = self.others(2000, MULTISIG)
        self.model = Model(self.opening)
        self.now = 5000
        self.asked = Counter()

    def others(self, first, script):
        """The outpoints of coins of a script."""
        found = [(number_hash(number), 0) for number in range(first, first + OTHERS)]
        for outpoint in found:
            self.opening.coins[outpoint] = Coin(VALUE, 1, False, script)
        return found

    def opening_lines(self):
        told = [coin.line(outpoint) for outpoint, coin in self.opening.coins.items()]
        told += ["verdict * ok", "bloom 1", "budget %d" % self.opening.budget] + self.setting_lines()
        self.random.shuffle(told)
        return ["times 101 1000 600"] + told

    def setting_lines(self):
        if self.release is None:
            return policy_lines(self.opening, lambda: self.random.random() < 0.3)
        return ["policy " + self.release] + ["%s %d" % setting for setting in self.said.items()]

    # --- transactions

    def coin(self):
        """The outpoint of a coin that nothing spends yet, and what it holds."""
        outpoint = self.free.pop(self.random.randrange(len(self.free)))
        return outpoint, self.opening.coins[outpoint].value

    def paying(self, tx, value, fee):
        """The transaction with what it doesn't pay as its first output, where it pays no less than nothing."""
        tx.outputs[0].value = max(0, value - max(0, fee) - sum(output.value for output in tx.outputs[1:]))
        return tx

    def asked_of(self, tx):
        """What every transaction of this size has to pay."""
        return self.model.fee_at(max(self.opening["minrelaytxfee"], self.model.floor), self.model.size(tx))

    def payment(self, extra=()):
        """A payment of about what is asked, with these outputs more."""
        (hash, index), value = self.coin()
        tx = Transaction([Input(hash, index, sequence=self.random.choice((LAST, SIGNAL, SIGNAL)))], [Output(1000)] + list(extra), 2, 0)
        return self.paying(tx, value, self.asked_of(tx) + self.random.choice((-1, 0, 0, 1, 1000)))

    def replacement(self):
        """A payment in place of an entry: what that and its descendants pay, and what is asked above it, or one satoshi less."""
        found = [entry for entry in self.model.pool if entry.signals()]
        if not found:
            return self.payment()
        entry = self.random.choice(found)
        value = sum(self.model.coin(one).value for one in entry.tx.inputs)
        inputs = [Input(one.hash, one.index, sequence=SIGNAL) for one in entry.tx.inputs]
        tx = Transaction(inputs, [Output(1000)] * self.random.choice((1, 2)), 2, 0)
        tx.outputs = [Output(output.value) for output in tx.outputs]
        paid = fees_of(self.model.below([entry]))
        return self.paying(tx, value, paid + self.model.fee_at(self.opening["incrementalrelayfee"], self.model.size(tx)) + self.random.choice((-1, 0, 0, 1)))

    def dusty(self):
        """An output at its threshold, or one satoshi below."""
        script = self.random.choice((MULTISIG, Output(0).script))
        output = Output(0, script)
        output.value = max(0, dust(output, self.opening) + self.random.choice((-1, 0)))
        return self.payment([output])

    def without_fee(self):
        """A transaction that pays nothing, or a satoshi, with an output of dust, or two."""
        (hash, index), value = self.coin()
        dusty = Output(max(0, dust(Output(0), self.opening) - 1))
        tx = Transaction([Input(hash, index, sequence=SIGNAL)], [Output(1000)] + [dusty] * self.random.choice((1, 1, 1, 2)), 2, 0)
        return self.paying(tx, value, self.random.choice((0, 0, 0, 1)))

    def sweep(self):
        """A child of an entry with dust that spends this too, or doesn't."""
        found = [entry for entry in self.model.pool if self.model.dusty(entry.tx)]
        if not found:
            return self.without_fee()
        entry = self.random.choice(found)
        points = [index for index, output in enumerate(entry.tx.outputs) if output.script == Output(0).script]
        points = points[: self.random.choice((1, len(points)))]
        tx = Transaction([Input(entry.hash, index, sequence=SIGNAL) for index in points], [Output(1000)], 2, 0)
        return self.paying(tx, sum(entry.tx.outputs[index].value for index in points), self.asked_of(tx))

    def carrying(self):
        """As much data as is allowed or a byte more, in as many outputs as are allowed or one more."""
        length = max(1, min(300, self.opening["datacarriersize"]) + self.random.choice((0, 0, 1)))
        count = min(4, self.opening["datacarrieroutputs"]) + self.random.choice((0, 0, 1))
        return self.payment([Output(0, data(length))] * count)

    def limit(self, word):
        """What a limit is, or what stands for one that there isn't."""
        return BETWEEN[word] if self.opening[word] is None else self.opening[word]

    def filling(self):
        """Two outputs with data that are as many bytes together as are allowed, or one more."""
        total = min(400, self.limit("datacarriertotal")) + self.random.choice((0, 0, 1))
        first = self.random.randint(1, max(1, min(total - 1, self.opening["datacarriersize"])))
        return self.payment([Output(0, data(length)) for length in (first, total - first) if length > 0])

    def beside(self, outpoints, count, witness=()):
        """A payment that also spends so many of these."""
        tx = self.payment()
        taken = [outpoints.pop() for _ in range(min(count, len(outpoints)))]
        tx.inputs = [Input(*outpoint, witness=list(witness)) for outpoint in taken] + tx.inputs
        value = sum(self.model.coin(one).value for one in tx.inputs)
        return self.paying(tx, value, self.asked_of(tx) + self.random.choice((-1, 0, 0)))

    def anchored(self):
        """A spend of an anchor without a witness, or with an empty item."""
        return self.beside(self.anchors, 1, self.random.choice(((), (), (b"",))))

    def legacy(self):
        """As many legacy signature operations as are allowed, or one more."""
        return self.beside(self.keys, min(3, self.limit("maxtxlegacysigops")) + self.random.choice((0, 1)))

    def counting(self):
        """Outputs of several keys, whose operations count for more than the bytes."""
        return self.payment([Output(100000, MULTISIG) for _ in range(self.random.randint(1, 3))])

    def of_version_three(self):
        """A payment of version 3, with a second output for a child, now and then of two coins."""
        tx = self.payment([Output(VALUE // 2)])
        tx.version = TRUC
        return tx

    def child(self):
        """A child of an entry, most often of its version, which pays what is asked, and for its sibling, or a satoshi less."""
        spent = {point for entry in self.model.pool for point in entry.spent}
        free = [(entry, index) for entry in self.model.pool for index, output in enumerate(entry.tx.outputs)
                if output.script == Output(0).script and output.value >= dust(output, self.opening) and (entry.hash, index) not in spent]
        if not free:
            return self.of_version_three()
        entry, index = self.random.choice([it for it in free if it[0].is_truc() and not self.model.parents(it[0].tx)] or free)
        inputs, value = [Input(entry.hash, index, sequence=self.random.choice((LAST, SIGNAL)))], entry.tx.outputs[index].value
        if self.random.random() < 0.1:
            (hash, number), more = self.coin()
            inputs, value = inputs + [Input(hash, number)], value + more
        tx = Transaction(inputs, [Output(1000)], self.random.choice((entry.tx.version, entry.tx.version, entry.tx.version, 2, TRUC)), 0)
        if self.random.random() < 0.2:
            self.fill(tx, TRUC_CHILD_SIZE + self.random.choice((0, 0, 1)))
        paid = fees_of(self.model.below(self.model.counted(tx)))
        asked = paid + self.model.fee_at(self.opening["incrementalrelayfee"], self.model.size(tx)) if paid else self.asked_of(tx)
        return self.paying(tx, value, asked + self.random.choice((-1, 0, 0, 0, 1, 1000)))

    def fill(self, tx, size):
        """Gives a transaction this virtual size, if that is one byte more or less: by outputs, and data in the last one."""
        plain = Output(dust(Output(0), self.opening))
        while self.model.size(tx) + 31 < size - 40:
            tx.outputs.append(plain)
        tx.outputs.append(Output(0, data(1)))
        tx.outputs[-1] = Output(0, data(1 + max(0, size - self.model.size(tx))))

    def small(self):
        """A transaction of the least size, or a byte less: its one output carries data."""
        (hash, index), _ = self.coin()
        length = self.opening["mintxsize"] - 60 + self.random.choice((-1, 0, 0))
        return Transaction([Input(hash, index)], [Output(0, data(max(1, length)))], 2, 0)

    def sized(self, outpoint, value, size):
        """A transaction of this many bytes without witnesses and of many outputs, which pays what is asked."""
        empty = len(Transaction([Input(*outpoint)], [Output(0)] * 253, 2, 0).stripped())
        many = (size - empty) // 31 - 1
        rest = size - empty - 31 * many - 9
        tx = Transaction([Input(*outpoint)], [Output(dust(Output(0), self.opening)) for _ in range(253 + many)] + [Output(0, data(rest))], 2, 0)
        return self.paying(tx, value, self.asked_of(tx))

    def spending(self, outpoints, fee):
        """A transaction that spends these, and may be replaced, with two outputs and this fee."""
        value = sum(self.model.coin(Input(*one)).value for one in outpoints)
        tx = Transaction([Input(*one, sequence=SIGNAL) for one in outpoints], [Output(1000), Output(1000)], 2, 0)
        return self.paying(tx, value, fee)

    def overspending(self):
        """A payment of more than it spends."""
        tx = self.spending([self.free[0]], 0)
        tx.outputs[0].value += 1
        return tx

    # --- events

    def submitted(self, tx, peer=1):
        return "peer %d tx %d %s" % (peer, self.now, tx.hex()), self.model.submit(peer, self.now, tx)

    def later(self):
        """A second at which an entry has stayed as long as it may, or one after."""
        if self.model.pool:
            self.now = max(self.now, self.random.choice(self.model.pool).time + HOUR * self.opening["mempoolexpiry"] + self.random.choice((0, 1)))

    def event(self):
        draw = self.random.random()
        if draw < 0.04:
            rate = self.random.choice((0, 1, self.opening["minrelaytxfee"], self.opening["minrelaytxfee"] + 1))
            return "operator floor %d" % rate, self.model.set_floor(rate)
        if draw > 0.98:
            return self.submitted(self.overspending(), 2)
        if draw < 0.1:
            self.later()
        elif draw < 0.3:
            self.now += self.random.randint(0, 100)
        makes = (self.payment, self.payment, self.replacement, self.replacement, self.dusty, self.carrying, self.filling, self.anchored, self.legacy, self.counting, self.small, self.of_version_three)
        makes += (self.without_fee, self.sweep, self.sweep) * 3 * self.opening["ephemeraldust"]
        make = self.random.choice(makes + (self.of_version_three,) * 2 * self.opening["truc"] + (self.child,) * 10 * self.opening["truc"])
        return self.submitted(make())


def entered(peer, model):
    return "peer %d enter 192.0.2.1" % peer, model.enter(peer)


def test_settings(gate):
    """What is asked of fees, of outputs, of sizes and of the time in the pool, each by its setting."""
    met, settings = Counter(), gate.settings()
    for seed in range(STREAMS):
        made = Stream(seed, settings)
        events = [entered(1, made.model), entered(2, made.model)] + [made.event() for _ in range(EVENTS)]
        for reply in compared(gate, seed, made, events):
            met[reply.split()[1] if reply.startswith("denied") else reply.split()[0]] += 1
            # which also says whether the session is kept
            met[reply[: len("denied A29 keep")]] += reply.startswith("denied A29")
        met.update(made.model.gone)
    same("ways in which no stream met an invalid transaction", [it for it in ("denied A29 clos", "denied A29 keep") if met[it] < 10], [])
    same("rules of settings that no stream met", [rule for rule in ("A12", "A16", "A17", "A18", "A19", "A31", "A32", "A34", "A35", "A42", "A46", "A47", "A48", "A49", "A51", "admitted", "expired", "trimmed", "replaced", "evicted") if met[rule] < 20], [])


def test_releases(gate):
    """The settings of each release by its name, and about every second one by a line in front of that or behind it."""
    settings = gate.settings()
    for release in releases():
        for seed in range(12):
            made = Stream(seed, settings, release)
            compared(gate, seed, made, [entered(1, made.model), entered(2, made.model)] + [made.event() for _ in range(EVENTS)])


def test_parents_of_what_is_replaced(gate):
    """A replacement that spends from a parent of its conflict, of what is below that, or of nothing that it replaces."""
    met, settings = Counter(), gate.settings()
    for seed in range(60):
        for wide in (False, True):
            made = Stream(seed, settings)
            made.opening = Opening(made.opening.times, bloom=True, coins=made.opening.coins, settings={"replacedparents": int(wide)})
            made.opening.verdicts["*"] = "ok"
            made.model = Model(made.opening)
            events = [entered(1, made.model)]

            def sent(outpoints, fee):
                tx = made.spending(outpoints, fee)
                events.append(made.submitted(tx))
                return tx.hash()

            first, second, third = (sent([made.coin()[0]], 1000) for _ in range(3))
            outpoint = (first, 0)
            conflict = sent([outpoint], 1000)
            sent([(conflict, 0), (second, 0)], 1000)
            for parent in made.random.sample((first, second, third), 3):
                sent([outpoint, (parent, 1)], 10000)
            for reply in compared(gate, seed, made, events)[-3:]:
                met[wide, reply.split()[1] if reply.startswith("denied") else reply.split()[0]] += 1
    same("replies that no stream met", [it for it in ((False, "A40"), (False, "admitted"), (True, "A40"), (True, "admitted")) if met[it] < 10], [])


def test_fee_filters(gate):
    """Listings under a fee filter of an entry's feerate rounded down, and of one satoshi more: it hides the entry if fees are
    rounded up, and not if they are rounded down to what the entry pays."""
    met, settings = Counter(), gate.settings()
    for seed in range(30):
        for up in (0, 1):
            made = Stream(seed, settings)
            made.opening = Opening(made.opening.times, bloom=True, coins=made.opening.coins, settings={"feesroundup": up})
            made.opening.verdicts["*"] = "ok"
            made.model = Model(made.opening)
            events = [entered(1, made.model)] + [made.submitted(made.payment()) for _ in range(6)]
            if not made.model.pool:
                continue
            entry = made.random.choice(made.model.pool)
            rate = rate_of(entry.fee, entry.size) + 1
            for asked in (rate - 1, rate):
                events += [("peer 1 feefilter %d" % asked, made.model.fee_filter(1, asked)), ("peer 1 mempool", made.model.mempool(1))]
            below, above = (entry.tx.txid() in reply for reply in compared(gate, seed, made, events)[-3::2])
            met[up, below, above] += 1
    same("listings that no stream met", [it for it in ((0, True, True), (1, True, False)) if met[it] < 10], [])


def test_sizes_of_families(gate):
    """A parent, and a child that fills what a family may have or is one byte too large, under each pair of limits."""
    met, settings = Counter(), gate.settings()
    for seed, (above, below) in enumerate(product((101, 102, 103), repeat=2)):
        for more in (0, 1):
            made = Stream(seed, settings)
            made.opening = Opening(made.opening.times, bloom=True, settings={"limitancestorsize": above, "limitdescendantsize": below})
            made.opening.verdicts["*"] = "ok"
            outpoint = (number_hash(1), 0)
            made.opening.coins[outpoint] = Coin(10 * VALUE, 1, False)
            made.model = Model(made.opening)
            parent = made.sized(outpoint, 10 * VALUE, 60000)
            child = made.sized((parent.hash(), 0), parent.outputs[0].value, KILO * min(above, below) - 60000 + more)
            events = [entered(1, made.model), made.submitted(parent), made.submitted(child)]
            met[compared(gate, seed, made, events)[-1].split()[1 if more else 0]] += 1
    same("what came of the children", dict(met), {"admitted": 9, "A36": 9})
