"""Random packages of users and of peers, and lists that are tested as packages, each reply next to that of the plain model.

Each is made for what the pool holds at that moment, and pays what one of the rules asks of it, or a satoshi less or more.
"""

import json
import random
from collections import Counter
from itertools import product

from bitcoin import Input, Output, Transaction, WITNESS_KEY_HASH, number_hash
from callers import Settings
from gate import Differs, same
from model import HOUR, KILO, MULTISIG, TRUC, Coin, dust, fees_of, outpoints, policy_lines, rate_of
from package_model import MOST_WEIGHT, USUAL_RATE, PackageModel, is_improved
from settings_streams import data

COINS = 60
VALUE, SHARE = 10**8, 10**6
NOBAN, PLAIN = "10.0.0.1", "192.0.2.1"
# sequences: most of them signal, and the last two are relative locks, of which the second is not met above an entry
SEQUENCES = (0xFFFFFFFD,) * 40 + (0xFFFFFFFF,) * 8 + (0, 1)
# scripts that J1 asks about: what carries data, an opcode that there isn't, truncated pushes and a long one
BURNT = (b"\x6a\x51", b"\xba", b"\x4c", b"\x02\x51", b"\x4d\x09\x02" + b"\x51" * 521)
# the numbers that settings have; those that stand twice come more often
FEW = (25, 25, 25, 25, 1, 2, 3)
DRAWN = {
    "truc": (0, 1, 1, 1), "ephemeraldust": (0, 1, 1), "packageallparents": (0, 0, 1), "mempoolfullrbf": (0, 1), "relayfeefirst": (0, 1), "replacedparents": (0, 1),
    "feesroundup": (0, 1), "keepinvalid": (0, 0, 1), "minrelaytxfee": (0, 100, 1000, 1000), "incrementalrelayfee": (0, 100, 1000, 1000),
    "limitancestorcount": FEW, "limitdescendantcount": FEW, "mempoolexpiry": (1, 336, 336),
}
ROOMY = {"limitancestorcount": (25,), "limitdescendantcount": (25,), "mempoolexpiry": (336,)}
# how often a stream makes what, and which numbers its settings have otherwise
MIXED = {"single": 28, "pair": 14, "family": 14, "replacing": 10, "dusty": 8, "above_dust": 8, "again": 6, "odd": 6, "burning": 3}
PAIRS = {"single": 32, "pair": 20, "replacing": 20, "dusty": 8, "again": 6, "burning": 2, "overspending": 4}
LISTED = {"single": 18, "pair": 10, "family": 10, "descent": 22, "replacing": 5, "dusty": 14, "again": 4, "odd": 12, "burning": 5}
REPLACING = {"single": 36, "beside": 8, "replacing": 50, "replacing_family": 10, "above_and_instead": 8}
LADDERS = {"step": 10, "instead_of_all": 40, "replacing": 3}
FULL = {"single": 30, "pair": 20, "family": 10, "replacing": 20, "again": 8}
FREE = {"minrelaytxfee": (0, 0, 0, 1000), "ephemeraldust": (0, 1, 1, 1)}
REPLACED = {"truc": (1,), "mempoolfullrbf": (0, 1, 1), "minrelaytxfee": (100, 1000), "packageallparents": (0, 0, 0, 1), **ROOMY}
BUDGETS = (0, 110, 200, 300, 500, 900)
STEPS = 16

# how often all streams of a test together have to meet each of these
USER_FLOORS = {
    "A1": 15, "J1": 35, "J2": 100, "J4": 8, "J6": 50, "J7": 15, "J8": 25, "J9": 35, "J13": 9, "J17": 18,
    "A25": 250, "A26": 10, "A34": 100, "A35": 200, "A36": 90, "A38": 15, "A41": 6, "A47": 40, "A49": 20, "A50": 30,
    "taken by itself": 300, "by itself and replaced": 7, "entered together": 60, "together and replaced": 8, "known": 60, "another witness": 40, "expired": 200,
}
PEER_FLOORS = {
    "A1": 12, "J2": 40, "J4": 6, "J6": 40, "J7": 25, "J8": 20, "J9": 50, "J13": 30, "J15": 4, "J16": 4, "J17": 10,
    "A25": 300, "A29": 50, "A34": 80, "A35": 130, "A36": 90, "A38": 50, "A41": 12, "A42": 12, "A47": 30, "A49": 12, "success": 120, "closed": 10, "kept although invalid": 45,
    "taken by itself": 250, "by itself and replaced": 12, "entered together": 100, "a pair of a peer and replaced": 20, "known": 20, "another witness": 11,
}
REPLACED_FLOORS = {
    "J8": 30, "J10": 9, "J11": 19, "J13": 50, "J14": 9, "J15": 8, "J16": 17, "A38": 100, "A40": 24, "A41": 35, "A42": 22,
    "by itself and replaced": 32, "entered together": 125, "together and replaced": 60, "a pair of a peer and replaced": 30,
}
LADDER_FLOORS = {"J12": 18, "J13": 23, "J15": 30}
FULL_FLOORS = {
    "A34": 400, "A46": 220, "A50": 50, "J8": 40, "J9": 60, "J13": 10, "J14": 5, "J16": 8,
    "taken by itself": 110, "entered together": 65, "together and replaced": 17, "a pair of a peer and replaced": 12, "a pair of a peer trimmed": 55,
    "known": 33, "another witness": 20, "trimmed": 550, "trimmed as a family": 100, "expired": 60,
}
LIST_FLOORS = {
    "J4": 17, "J5": 12, "J6": 55, "J8": 80, "J9": 160, "A1": 17, "A17": 55, "A21": 27, "A22": 20, "A23": 50, "A25": 16, "A26": 13, "A34": 45, "A35": 40, "A36": 40,
    "A44": 10, "A45": 10, "A47": 11, "A49": 28, "all allowed": 220, "some allowed": 10,
}


class Packages:
    """An opening and events that fit it, of one seed. What is asked for in it is asked by users, peers or lists."""

    def __init__(self, seed, caller, kinds, drawn=None, budgets=(300000000,)):
        self.seed, self.random = seed, random.Random(seed)
        self.caller, self.kinds = caller, kinds
        settings = {word: self.random.choice(numbers) for word, numbers in {**DRAWN, **(drawn or {})}.items()}
        self.opening = Settings([1000 + 600 * number for number in range(101)], settings={**settings, "packages": 1}, bloom=True)
        self.opening.budget = self.random.choice(budgets)
        self.opening.whitelist = ["noban,relay@" + NOBAN]
        self.opening.blocksonly = self.random.random() < 0.05
        if self.random.random() < 0.9:
            self.opening.verdicts["*"] = "ok"
        self.opening.coins.update({(number_hash(number), 0): Coin(VALUE, 1, False) for number in range(1, COINS + 1)})
        self.model = PackageModel(self.opening)
        self.peer, self.now, self.sequences = 0, 5000, SEQUENCES
        # what was made by its hash, the packages, and whose scripts were judged
        self.known, self.packages, self.told = {}, [], set()
        self.met = Counter()

    def opening_lines(self):
        """The opening as it stands when all transactions are made, since some have verdicts of their own."""
        opening = self.opening
        told = ["times 101 1000 600", "bloom 1", "budget %d" % opening.budget, "blocksonly %d" % opening.blocksonly]
        told += ["whitelist " + entry for entry in opening.whitelist] + policy_lines(opening, lambda: False)
        told += [coin.line(point) for point, coin in opening.coins.items()]
        return told + ["verdict %s %s" % ("*" if pair == "*" else "%s %d" % pair, verdict) for pair, verdict in opening.verdicts.items()]

    # --- events

    def event(self):
        """The next event line, and its reply."""
        draw = self.random.random()
        if self.model.refusal(self.peer) and self.random.random() < 0.9 or draw < 0.02:
            return self.entering()
        if draw < 0.05 or draw < 0.2 and self.model.floor == 0 and any(self.model.dusty(entry.tx) for entry in self.model.pool):
            rate = self.random.choice((0, 0, self.opening["minrelaytxfee"], 2000, 5000))
            return "operator floor %d" % rate, self.model.set_floor(rate)
        if draw < 0.09:
            return self.called(self.random.choice(("getrawmempool", "getmempoolinfo")), [], [])
        self.later()
        rises = "step" in self.kinds and len(self.model.pool) < STEPS
        kind = "step" if rises and self.random.random() < 0.9 else self.random.choices(list(self.kinds), list(self.kinds.values()))[0]
        found = getattr(self, kind)()
        if kind in ("single", "step", "beside"):
            self.judge_scripts(found)
            return self.sent(found)
        made = self.mangled(found) if self.random.random() < 0.12 else found
        for tx in made:
            self.judge_scripts(tx)
        self.packages.append(made)
        return self.asked_of(made, self.bounds(made))

    def sent(self, tx):
        return "peer %d tx %d %s" % (self.peer, self.now, tx.hex()), self.model.submit(self.peer, self.now, tx)

    def entering(self):
        self.peer += 1
        address = self.random.choice((NOBAN, PLAIN))
        return "peer %d enter %s" % (self.peer, address), self.model.enter(self.peer, address)

    def later(self):
        """Some seconds later, sometimes as many as an entry may stay, or one more."""
        self.now += self.random.choice((0, 0, 1, 100))
        if self.model.pool and "step" not in self.kinds and self.random.random() < 0.03:
            self.now = max(self.now, self.random.choice(self.model.pool).time + HOUR * self.opening["mempoolexpiry"] + self.random.choice((0, 1)))

    def judge_scripts(self, tx):
        """Verdicts of its own for one that was never told, if no row stands for all, and now and then one that denies it."""
        if tx is None or tx.wtxid() in self.told:
            return
        self.told.add(tx.wtxid())
        for index in range(len(tx.inputs)):
            if "*" not in self.opening.verdicts and self.random.random() < 0.97:
                self.opening.verdicts[tx.wtxid(), index] = "ok"
            if self.random.random() < 0.03:
                self.opening.verdicts[tx.wtxid(), index] = self.random.choice(("soft", "hard"))

    def asked_of(self, made, bounds=()):
        """A package as its caller hands it in; peers have two at a time, and others come from a user, who may set bounds."""
        self.model.members = []
        if self.caller == "list":
            return self.tested(made)
        if self.caller == "peer" and len(made) == 2:
            return self.paired(made)
        return self.submitted(made, list(bounds))

    def digits(self, made):
        """The digits of each, or some that are of none."""
        return [self.random.choice(("00", "zz", "0")) if tx is None else tx.hex() for tx in made]

    def called(self, method, told, values):
        """A call by a user, and the values that its parameters stand for."""
        call = {"method": method, "id": 1}
        return "user a rpc %d %s" % (self.now, json.dumps({**call, "params": told})), self.model.call("a", self.now, {**call, "params": values})

    def submitted(self, made, bounds):
        line, reply = self.called("submitpackage", [self.digits(made)] + bounds, [made] + bounds)
        answer = json.loads(reply.split(" ", 2)[2])
        self.count((answer["error"] or answer["result"]).get("rule"))
        return line, reply

    def bounds(self, made):
        """Most often none; a greatest feerate, that of one of these or one less among them, and what may be burnt."""
        draw, tx = self.random.random(), self.random.choice(made)
        if draw < 0.8 or tx is None:
            return []
        rate = self.random.choice((0, USUAL_RATE, -1, 10**8)) if draw < 0.84 else max(0, rate_of(self.fee(tx), self.size(tx)) - self.random.choice((0, 1)))
        return [rate] + [self.random.choice((0, SHARE - 1, SHARE, 21 * 10**14))] * self.random.choice((0, 1))

    def paired(self, made):
        line = "peer %d package %d %s" % (self.peer, self.now, " ".join(self.digits(made)))
        reply = self.model.package(self.peer, self.now, made)
        words = reply.split()
        self.count(words[1] if words[0] == "denied" else words[2])
        members = self.model.members
        self.met["closed"] += words[:2] == ["packaged", "close"]
        self.met["kept although invalid"] += words[:2] == ["packaged", "keep"] and any(member.rule in ("A29", "A37", "A45") for member in members)
        self.met["a pair of a peer trimmed"] += any(member.rule == "A46" for member in members)
        self.met["a pair of a peer and replaced"] += any(member.replaced and len(member.entered) > 1 for member in members)
        return line, reply

    def count(self, rule):
        """Counts the rule that denied a package, and what became of its members."""
        self.met.update(filter(None, [rule] + [member.rule for member in self.model.members]))
        for member in self.model.members:
            if member.rule is None and member.entered is None:
                self.met["known" if member.entry.wtxid == member.tx.wtxid() else "another witness"] += 1
            elif member.rule is None:
                together = len(member.entered) > 1
                self.met["entered together" if together else "taken by itself"] += 1
                self.met["%s and replaced" % ("together" if together else "by itself")] += bool(member.replaced)

    def tested(self, made):
        line, reply = self.called("testmempoolaccept", [self.digits(made)], [made])
        answer = json.loads(reply.split(" ", 2)[2])
        if answer["error"]:
            self.met[answer["error"]["rule"]] += 1
            return line, reply
        found = answer["result"]
        allowed = [one.get("allowed") for one in found]
        self.met.update({one["rule"] for one in found if "rule" in one})
        self.met["all allowed"] += len(made) > 1 and all(allowed)
        self.met["some allowed"] += len(made) > 1 and allowed[0] is True and not all(allowed)
        return line, reply

    # --- transactions

    def value(self, point):
        tx = self.known.get(point[0])
        if tx is None:
            return self.opening.coins[point].value
        return tx.outputs[point[1]].value if point[1] < len(tx.outputs) else 0

    def fee(self, tx):
        return sum(self.value(point) for point in outpoints(tx)) - sum(output.value for output in tx.outputs)

    def size(self, tx):
        return self.model.size(tx)

    def rate(self):
        """What every transaction has to pay."""
        return max(self.opening["minrelaytxfee"], self.model.floor)

    def spending(self, points, outputs=1, version=2, extra=()):
        """A transaction that spends these, and pays nothing yet."""
        inputs = [Input(*point, sequence=self.random.choice(self.sequences)) for point in dict.fromkeys(points)]
        return self.paying(Transaction(inputs, [Output(SHARE) for _ in range(outputs)] + list(extra), version, 0), 0)

    def paying(self, tx, fee):
        """The transaction with this fee, where its first output can make it so."""
        tx.outputs[0].value = 0
        tx.outputs[0].value = max(0, self.fee(tx) - max(0, fee))
        self.known[tx.hash()] = tx
        return tx

    def other_witness(self, tx):
        inputs = [Input(one.hash, one.index, one.script, one.sequence, list(one.witness)) for one in tx.inputs]
        inputs[0].witness = [bytes([self.random.randint(0, 255)]) * self.random.randint(1, 9)]
        return Transaction(inputs, tx.outputs, tx.version, tx.locktime)

    def version(self):
        return TRUC if self.opening["truc"] and self.random.random() < 0.6 else self.random.choice((1, 2, 2))

    def coins(self, count=1):
        """Coins of the chain that no entry spends."""
        spent = {point for entry in self.model.pool for point in entry.spent}
        return self.some([point for point in self.opening.coins if point not in spent], count)

    def free(self, entries=None):
        """Outpoints of entries that no entry spends, and that hold something."""
        spent = {point for entry in self.model.pool for point in entry.spent}
        made = [((entry.hash, index), output) for entry in (self.model.pool if entries is None else entries) for index, output in enumerate(entry.tx.outputs)]
        return [point for point, output in made if point not in spent and output.script == WITNESS_KEY_HASH and output.value > 1000]

    def some(self, found, count=1):
        return self.random.sample(found, min(count, len(found)))

    def single(self):
        """A payment of coins, or from an entry, of any rate."""
        points, version = self.some(self.free()) if self.random.random() < 0.45 else [], self.version()
        if points and self.random.random() < 0.9:
            version = self.known[points[0][0]].version
        points += self.coins() if points and self.random.random() < 0.4 else []
        tx = self.spending(points or self.coins(self.random.choice((1, 1, 2))), self.random.choice((1, 2, 2, 3, 12)), version)
        enough = max(self.size(tx) // 10, self.model.fee_at(self.rate(), self.size(tx)))
        return self.paying(tx, enough * self.random.choice((1, 1, 2, 5, 30)) + self.random.choice((-1, 0, 0, 0, 1000)))

    def beside(self):
        """A child of an entry that has one already, and of a coin."""
        parents = {hash for entry in self.model.pool for hash in entry.parents}
        tx = self.spending(self.some(self.free([entry for entry in self.model.pool if entry.hash in parents])) + self.coins())
        return self.paying(tx, 2 * self.size(tx))

    def step(self):
        """A transaction of the last entry and of a coin."""
        tx = self.spending(self.some(self.free(self.model.pool[-1:])) + self.coins())
        return self.paying(tx, 2 * self.size(tx))

    def low(self, tx):
        """A fee for one that others may pay for; in a list one that pays for itself."""
        enough, relayed, more = (self.model.fee_at(rate, self.size(tx)) for rate in (self.rate(), self.opening["minrelaytxfee"], self.opening["incrementalrelayfee"]))
        if self.caller == "list":
            return enough + self.random.choice((0,) * 12 + (-1, 1000))
        paid = fees_of(self.model.below(self.model.conflicts(tx)))
        if paid > enough and self.random.random() < 0.4:
            return self.random.choice((enough, paid // 2, paid - 1, paid, paid + more - 1, paid + more))
        if tx.version == TRUC:
            return self.random.choice((0, 0, 0, enough - 1, relayed, enough, 3 * enough))
        return self.random.choice((relayed, relayed, relayed, relayed - 1, enough - 1, enough, 3 * enough))

    def package(self, parents, more=(), version=None):
        """Parents that spend these, and a child of all that spends more."""
        version, made = version or self.version(), []
        for points in parents:
            tx = self.spending(points, self.random.choice((1, 1, 2)), self.version() if self.random.random() < 0.05 else version)
            made.append(self.paying(tx, self.low(tx)))
        return made + [self.child(made, version, more)]

    def child(self, made, version, more=()):
        """A child of all of these, which pays for them, sometimes of another version, or too large for version 3."""
        points = [(tx.hash(), 0) for tx in made] + list(more)
        points += self.coins() if self.random.random() < 0.15 else []
        points += self.some(self.free()) if self.random.random() < 0.12 else []
        outputs = self.random.choice((30, 31)) if self.random.random() < 0.1 else self.random.choice((1, 1, 2))
        return self.paid(made, self.spending(points, outputs, self.version() if self.random.random() < 0.1 else version))

    def paid(self, made, last):
        """The last with what a rule asks of all that don't pay for themselves, or a satoshi more or less."""
        if self.caller == "list":
            return self.paying(last, self.low(last))
        rate, model = self.rate(), self.model
        several = [tx for tx in made if self.fee(tx) < model.fee_at(rate, self.size(tx)) or model.conflicts(tx)] + [last]
        size, direct = sum(map(self.size, several)), [entry for tx in several for entry in model.conflicts(tx)]
        asked = [model.fee_at(rate, size)]
        if direct:
            replaced = model.below(direct)
            first = rate_of(max(0, self.fee(several[0])), self.size(several[0]))
            asked += [fees_of(replaced) + model.fee_at(self.opening["incrementalrelayfee"], size), -(-(first + 1) * size // 1000)]
            asked += [self.improving(replaced, size)] * 3 if len(replaced) < 5 else []
        total = self.random.choice(asked + [max(asked)] * 2) + self.random.choice((-1, -1, 0, 0, 0, 1, 1, 5000))
        return self.paying(last, total - sum(self.fee(tx) for tx in several[:-1]))

    def improving(self, replaced, size):
        """The least fee of two of this size together that improves the diagram."""
        before, left = self.model.chunks(replaced)
        least, most = 0, VALUE
        while least < most:
            middle = (least + most) // 2
            if is_improved(before, left + [(middle, size)]):
                most = middle
            else:
                least = middle + 1
        return least

    # --- packages

    def pair(self):
        """A parent of coins, or of an entry, and its child."""
        free = self.free() if self.random.random() < 0.35 else []
        points = self.some([point for point in free if self.known[point[0]].version == TRUC] or free)
        return self.package([points], version=self.known[points[0][0]].version) if points else self.package([self.coins(self.random.choice((1, 1, 2)))])

    def family(self):
        """Several parents, one of which may be an entry, and its child."""
        made = self.package([self.coins() for _ in range(self.random.choice((2, 2, 3, 4)))])
        points = self.some(self.free()) if self.random.random() < 0.5 else []
        if not points:
            return made
        entry = self.known[points[0][0]]
        parents = [self.other_witness(entry) if self.random.random() < 0.4 else entry] + made[:self.random.choice((0, 1, 1))]
        return parents + [self.paid(parents, self.spending(points + [(tx.hash(), 0) for tx in parents[1:]], 1, made[-1].version))]

    def spent(self, count=1):
        """What entries spend, most often coins of the chain; other coins where there is none."""
        found = [point for entry in self.model.pool for point in sorted(entry.spent)]
        if self.random.random() < 0.7:
            found = [point for point in found if point in self.opening.coins]
        return self.some(found, count) or self.coins()

    def replacing(self):
        """A pair of which one or both spend what entries spend."""
        by_child = self.random.random() < 0.3
        points = self.coins() if by_child else self.spent(self.random.choice((1, 1, 1, 2)))
        return self.package([points], self.spent() if by_child or self.random.random() < 0.1 else ())

    def replacing_family(self):
        """Two parents of which one or both spend what an entry spends."""
        return self.package([self.spent(), self.spent() if self.random.random() < 0.7 else self.coins()], version=2)

    def above_and_instead(self):
        """A pair that spends what an entry spends, and an output of another."""
        free = self.some(self.free())
        if self.random.random() < 0.5:
            return self.package([self.spent() + free], version=2)
        return self.package([self.spent()], free, version=2)

    def instead_of_all(self):
        """A pair that conflicts with entries whose families have about a hundred together."""
        goal, points = self.random.choice((99, 100, 100, 101, 101, 102)), []
        for entry in self.some(self.model.pool, len(self.model.pool)):
            count, coins = len(self.model.below([entry])), [point for point in sorted(entry.spent) if point in self.opening.coins]
            if coins and count <= goal:
                goal, points = goal - count, points + coins
        parent = self.spending(points or self.coins(), 1, TRUC)
        return [parent, self.child([parent], TRUC)]

    def dusty(self, version=None):
        """A parent that pays nothing and has dust, and a child that spends this too, or doesn't."""
        version = version or (TRUC if self.opening["truc"] else 2)
        parent = self.spending(self.coins(), self.random.choice((1, 2)), version, [Output(max(0, dust(Output(0), self.opening) - 1))])
        points = [(parent.hash(), index) for index in self.random.choice(((0,), (0, 1), range(len(parent.outputs))))]
        return [parent, self.paid([parent], self.spending(points, 1, version))]

    def above_dust(self):
        """A pair above an entry that has dust, which stands there where nothing has to pay; it spends that, or doesn't."""
        dusty = [entry for entry in self.model.pool if self.model.dusty(entry.tx)]
        free = self.free(dusty)
        if not free:
            return self.dusty(2)[:1] if self.rate() == 0 else self.dusty()
        parent = self.known[free[0][0]]
        left = [(parent.hash(), len(parent.outputs) - 1)] * self.random.choice((0, 1))
        return self.package([free[:1] + left], version=parent.version)

    def again(self):
        """An earlier package, or a part of it, where one may have another witness."""
        made = [tx for tx in self.random.choice(self.packages or [self.pair()]) if tx is not None]
        made = made[self.random.choice((0, 0, 0, 1)):] or made
        if made and made[0].inputs and self.random.random() < 0.5:
            made[0] = self.other_witness(made[0])
        return made or self.pair()

    def descent(self):
        """A chain."""
        version, made = self.version(), []
        for _ in range(self.random.choice((2, 2, 3, 4))):
            tx = self.spending([(made[-1].hash(), 0)] if made else self.coins(), self.random.choice((1, 1, 2)), version)
            made.append(self.paying(tx, self.low(tx)))
        return made

    def odd(self):
        """Payments that have nothing to do with each other, or one."""
        return [self.single() for _ in range(self.random.choice((1, 1, 2, 3, 5)))]

    def overspending(self):
        """A pair of which the parent pays out more than it spends."""
        parent, child = self.pair()
        parent.outputs[0].value += 10 * VALUE
        self.known[parent.hash()] = parent
        return [parent, self.paid([parent], self.spending([(parent.hash(), 0)], 1, child.version))]

    def burning(self):
        """A pair, one of which pays to a script that nobody can spend from."""
        made = self.pair()
        place = self.random.choice((0, 1))
        parent = self.spending([(one.hash, one.index) for one in made[0].inputs], 1, made[0].version, [Output(SHARE, self.random.choice(BURNT))] * (place == 0))
        self.paying(parent, self.low(parent))
        return [parent, self.paid([parent], self.spending([(parent.hash(), 0)], 1, parent.version, [Output(SHARE, self.random.choice(BURNT))] * (place == 1)))]

    # --- faults of the whole

    def mangled(self, made):
        kinds = (self.doubled, self.crossing, self.unsorted, self.strayed, self.chained, self.without_inputs, self.undecodable)
        return self.random.choice(kinds)(made)

    def closed(self, made, points):
        """These, and a child of all that spends more."""
        return made + [self.paid(made, self.spending([(tx.hash(), 0) for tx in made] + points))]

    def doubled(self, made):
        """One twice, with two witnesses."""
        tx = self.random.choice(made)
        return [self.other_witness(tx) if tx.inputs else tx] + made

    def crossing(self, made):
        """The child spends what a parent spends, or two parents do."""
        points = sorted(outpoints(made[0]))
        if self.random.random() < 0.5:
            return self.closed(made[:-1] or made, points)
        return self.closed(made[:1] + [self.paying(self.spending(points, 2), 3000)], [])

    def unsorted(self, made):
        return self.some(made, len(made))

    def strayed(self, made):
        return [self.single()] + made

    def chained(self, made):
        """A parent that spends from another."""
        middle = self.spending([(made[0].hash(), 0)], 2)
        return made[:1] + [self.paying(middle, self.low(middle))] + [self.paid([middle], self.spending([(middle.hash(), 0), (made[0].hash(), 1)]))]

    def without_inputs(self, made):
        """One has no input."""
        empty = Transaction([], [], 2, self.random.randint(0, 9))
        self.known[empty.hash()] = empty
        return self.closed(made[:-1] + [empty], [])

    def undecodable(self, made):
        place = self.random.randrange(len(made))
        return made[:place] + [None] + made[place + 1:]


def filled(made, points, size, keys=0, fee=0):
    """A transaction with so many bare multisig outputs, each of which counts for more than its bytes; without these of this
    virtual size, by outputs and data in the last one."""
    plain = Output(dust(Output(0), made.opening))
    tx = made.spending(points, extra=[Output(1000, MULTISIG)] * keys)
    tx.outputs += [plain] * ((0 if keys else size - made.size(tx) - 60) // len(plain.text()))
    if not keys:
        tx.outputs.append(Output(0, data(1)))
        tx.outputs[-1] = Output(0, data(1 + size - made.size(tx)))
    return made.paying(tx, fee)


def compared(gate, made, told):
    """Runs the events of a stream, and counts what it met."""
    try:
        gate.answers(made.opening_lines(), told)
    except Differs as error:
        raise Differs("seed %d\n%s" % (made.seed, error))
    return made.met + made.model.gone


def stream(gate, seed, events, *kinds):
    made = Packages(seed, *kinds)
    return compared(gate, made, [made.event() for _ in range(events)])


def meets(met, floors):
    same("met too seldom", {kind: met[kind] for kind, floor in floors.items() if met[kind] < floor}, {})


def test_packages_of_users(gate):
    """What becomes of a child with its parents, by each rule."""
    meets(sum((stream(gate, seed, 40, "user", MIXED) for seed in range(60)), Counter()), USER_FLOORS)


def test_packages_of_peers(gate):
    """What becomes of a pair, and of its peer's session."""
    meets(sum((stream(gate, seed, 40, "peer", PAIRS) for seed in range(60)), Counter()), PEER_FLOORS)


def test_replacements(gate):
    """Pairs that enter in place of entries if they pay enough, as two diagrams show."""
    meets(sum((stream(gate, seed, 40, ("user", "peer")[seed % 2], REPLACING, REPLACED) for seed in range(48)), Counter()), REPLACED_FLOORS)


def test_ladders(gate):
    """Pairs in place of entries whose families have a hundred together, or one more."""
    meets(sum((stream(gate, seed, 45, "user", LADDERS, REPLACED) for seed in range(20)), Counter()), LADDER_FLOORS)


def test_full_pools(gate):
    """Packages where little has room, of users and of peers."""
    meets(sum((stream(gate, seed, 40, ("user", "peer")[seed % 2], FULL, {}, BUDGETS) for seed in range(60)), Counter()), FULL_FLOORS)


def test_lists(gate):
    """Lists that are tested as packages."""
    meets(sum((stream(gate, seed, 40, "list", LISTED, FREE) for seed in range(60)), Counter()), LIST_FLOORS)


def settled(seed, caller, **numbers):
    """A stream without events of its own, in which nothing but these settings is in the way."""
    made = Packages(seed, caller, {}, {**ROOMY, "packageallparents": (0,), "feesroundup": (0,), **numbers})
    made.opening.blocksonly, made.opening.verdicts["*"], made.sequences = False, "ok", SEQUENCES[:1]
    return made


def test_dust_of_entries(gate):
    """A pair above an entry that stands with its dust, which the parent spends or leaves."""
    met = Counter()
    for seed, (caller, is_swept) in enumerate(product(("user", "peer"), (False, True))):
        made = settled(seed, caller, truc=(0,), ephemeraldust=(1,), minrelaytxfee=(0,))
        entry = made.dusty(2)[0]
        told = [made.entering(), made.sent(entry), ("operator floor 2000", made.model.set_floor(2000))]
        parent = made.spending([(entry.hash(), 0)] + [(entry.hash(), len(entry.outputs) - 1)] * is_swept)
        told.append(made.asked_of([parent, made.paying(made.spending([(parent.hash(), 0)]), 5000)]))
        met += compared(gate, made, told)
    meets(met, {"J17": 2, "entered together": 4})


def test_sizes_of_packages(gate):
    """Three that fill what a family may have or are one byte too large, by themselves or below an entry, under each pair of
    limits."""
    met = Counter()
    for seed, (above, below, more, is_below) in enumerate(product((101, 102), (101, 102), (0, 1), (False, True))):
        made = settled(seed, ("user", "list")[above == below == 102], minrelaytxfee=(0,), limitancestorsize=(above,), limitdescendantsize=(below,))
        told, limit = [made.entering()], KILO * min(above, below)
        points, others = [[point] for point in made.coins(3)], 0
        if is_below:
            entry = filled(made, points[0], 20000, 50)
            told.append(made.sent(entry))
            points[0], others = [(entry.hash(), 0)], made.size(entry)
        # at a floor that the last pays for all of them, or at none
        rate = 2000 if made.caller == "user" else 0
        told.append(("operator floor %d" % rate, made.model.set_floor(rate)))
        count = (limit - others - 2000) // 800
        first = filled(made, points[0], 0, count)
        child = made.size(filled(made, [(first.hash(), 0), points[2][0]], 0, count))
        second = filled(made, points[1], limit - others - made.size(first) - child + more)
        told.append(made.asked_of([first, second, filled(made, [(first.hash(), 0), (second.hash(), 0)], 0, count, SHARE)]))
        met += compared(gate, made, told)
    meets(met, {"entered together": 18, "J9": 8, "J9 by their size": 3, "J9 by ancestors size": 2, "J9 by descendants size": 2, "all allowed": 2})


def test_weights_of_packages(gate):
    """Two that have the greatest weight together, or more."""
    met = Counter()
    for seed, more in enumerate((0, 0, 1, 1)):
        made = settled(seed, ("user", "list")[seed % 2])
        parent = filled(made, made.coins(), 50000, fee=SHARE)
        child = filled(made, [(parent.hash(), 0)], MOST_WEIGHT // 4 - 50000 + more, fee=SHARE)
        met += compared(gate, made, [made.asked_of([parent, child])])
    meets(met, {"J3": 2, "taken by itself": 2, "all allowed": 1})
