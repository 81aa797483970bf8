"""Packages of the node's pool: what the gate denies by itself for what it pays, it is given once more together with a child, in an
opening and while it follows the node."""

import glob
import os
import random
import time

from bitcoin import Input, Output, Transaction
from gate import same, true
from gated.engine import Unanswered
from gated.families import Families
from gated.node import entry_of
from hosting import until
from model import releases
from model_node import COIN_VALUE, number_hash, payment_of
from test_following import Beside

CORE_28, CORE_30 = {"release": 280000, "settings": releases()["core-28"]}, {"release": 300000, "settings": releases()["core-30"]}
TRUC = 3
# a rate at which a payment of 82 virtual bytes needs 1,640 satoshi, and a fee that misses it
FLOOR, POOR = 20_000, 200


class Together(Beside):
    """A node that has packages, with a gated beside it."""

    def __init__(self, gate, *words, **kinds):
        super().__init__(gate, *words, **{**CORE_28, **kinds})

    def takes(self, *txs, instead_of=(), ago=0):
        """The node takes these together, whatever each of them pays, so many seconds ago."""
        node, model = self.node, self.node.model
        with node.lock:
            before, floor, settings = node.pool(), model.floor, model.opening.settings
            model.pool = [it for it in model.pool if it.tx not in instead_of]
            model.floor, model.opening.settings = 0, {**settings, "minrelaytxfee": 0}
            replies = [model.submit(1, int(time.time()) - ago, tx).split(" ")[0] for tx in txs]
            model.floor, model.opening.settings = floor, settings
            node.changed(before, set())
        same("the node", replies, ["admitted"] * len(txs))

    def asks_for(self, floor):
        """Node and gate both ask for this feerate."""
        self.node.model.floor = floor
        until("the gate has the node's floor", lambda: self.gated.rpc("getmempoolinfo")["mempoolminfee"] == floor / 100_000_000)

    def coin(self):
        return (number_hash(self.spare.pop(0)), 0)

    def poor(self):
        """A payment that pays too little for such a floor."""
        return payment_of(self.coin(), COIN_VALUE, POOR, outputs=3)

    def events(self):
        """What gated's journal has, in its order."""
        for path in sorted(glob.glob(os.path.join(self.gated.journal, "*.journal"))):
            with open(path) as lines:
                yield from (line for line in lines if line.startswith("> "))

    def packages(self):
        """How many members each package had that gated submitted, in its order."""
        own = [line for line in self.events() if line.startswith("> user gated rpc ") and '"submitpackage"' in line]
        return [line.partition('"params":[[')[2].partition("]")[0].count(",") + 1 for line in own]

    def given(self, *txs):
        """How often the gate was given each of these, by itself or in a package."""
        lines = list(self.events())
        return [sum(tx.hex() in line for line in lines) for tx in txs]

    def stays(self, wanted):
        """The packages that were submitted are these, and after several comparisons of the pools still are."""
        same("packages", self.packages(), wanted)
        for _ in range(2):
            known = len([line for line in self.node.asked if line == "getmempoolinfo"])
            until("the pools are compared", lambda known=known: len([line for line in self.node.asked if line == "getmempoolinfo"]) > known + 1)
        same("packages, a while later", self.packages(), wanted)

    def is_legal(self, openings=1):
        same("openings", self.gated.metric("gate_openings_total"), openings)
        self.gated.end()
        self.gated.is_legal(openings)


def free_of_charge(it, fee=5000):
    """A parent of version 3 without a fee, and its child, which pays so much."""
    parent = Transaction([Input(*it.coin())], [Output(COIN_VALUE)], version=TRUC)
    return parent, Transaction([Input(parent.hash(), 0)], [Output(COIN_VALUE - fee)], version=TRUC)


def spending(*outpoints, fee):
    """A payment of outputs of poor ones."""
    each = (COIN_VALUE - POOR) // 3
    return Transaction([Input(tx.hash(), index, sequence=0xFFFFFFFD) for tx, index in outpoints], [Output(each * len(outpoints) - fee)])


def test_a_pool_with_packages(gate):
    """A pool that has parents without a fee is opened whole, again and again, also if users have lists of calls; what it takes is no
    difference."""
    for words in ((), ("--line", "rpcwhitelist shop:getmempoolinfo", "--line", "rpcwhitelistdefault 0")):
        with Together(gate, *words) as it:
            it.pay()
            for _ in range(3):
                it.takes(*free_of_charge(it))
            it.child(it.pay())
            it.open()
            it.agrees()
            same("agreements", it.gated.metric("gate_agreements_total"), 9)
            same("packages", it.packages(), [2] * 3)
            it.node.lost = 1
            it.pay()
            it.pay()
            it.opened(2)
            it.is_alike()
            it.agrees()
            it.stays([2] * 6)
            it.is_legal(2)


def test_packages_that_are_announced(gate):
    """What the node takes together, the gate takes together; blocks take it away, and bring it back."""
    for heard in (True, False):
        with Together(gate, has_zmq=heard) as it:
            it.open()
            for _ in range(3):
                it.takes(*free_of_charge(it))
                it.is_alike()
            it.node.mine()
            it.is_alike()
            it.takes(*free_of_charge(it))
            it.is_alike()
            fork = (it.node.base + it.node.model.blocks)[-2]
            first = it.node.block([], fork, after=601)
            it.node.move(1, [first, it.node.block([], first, after=601)])
            it.is_alike()
            it.agrees()
            same("packages", it.packages(), [2] * 4)
            it.is_legal()


def test_a_child_that_comes_later(gate):
    """A parent that stands in the node's pool alone is a difference, and once its child is there, both are in the gate's. Each is
    given to it once more, and no more often; both have the time of the parent."""
    with Together(gate) as it:
        it.open()
        parent, child = free_of_charge(it)
        it.takes(parent, ago=1000)
        until("it is counted", lambda: it.gated.differences() == {"A35": 1})
        it.stays([])
        it.takes(child)
        it.is_alike()
        same("differences", it.gated.differences(), {"A35": 1})
        it.stays([2])
        until("nothing is only in the node's", lambda: it.gated.metric("gate_only_in_node") == 0)
        same("given", it.given(parent, child), [2, 2])
        times = [it.gated.rpc("getmempoolentry", one.txid())["time"] for one in (parent, child)]
        same("times", times, [it.node.pool()[parent.txid()].time] * 2)
        it.is_legal()


def test_a_child_that_is_announced_late(gate):
    """A parent whose child is in the node's pool, but was not announced so far, is given to the gate together with it: both are taken
    and no difference, or both are denied. When the child is announced, it isn't given once more."""
    for fee, counted in ((5000, {}), (10, {"A35": 1, "parent": 1})):
        with Together(gate, "--check", "3600") as it:
            it.open()
            it.node.held = []
            it.takes(*free_of_charge(it, fee))
            (first, second), it.node.held = it.node.held, None
            it.node.announce(*first)
            until("the package is submitted", lambda it=it: it.packages() == [2])
            same("the gate's pool", it.gated.listing(), set() if counted else set(it.node.pool()))
            it.node.announce(*second)
            last = it.pay()
            until("what comes behind it is there", lambda it=it, last=last: last.txid() in it.gated.listing())
            until("differences", lambda it=it, counted=counted: it.gated.differences() == counted)
            same("agreements", it.gated.metric("gate_agreements_total"), 1 if counted else 3)
            same("packages", it.packages(), [2])
            it.is_legal()


def test_several_parents_and_children(gate):
    """A child pays for three parents at once. Before it one of its parents had a child that pays for itself alone: it is given to
    the gate again, and its own child behind it. Whether all are announced together, or one after another."""
    for pause in (0.0, 1.0):
        with Together(gate) as it:
            it.open()
            it.asks_for(FLOOR)
            parents = [it.poor() for _ in range(3)]
            alone = spending((parents[1], 1), fee=2000)
            below = payment_of((alone.hash(), 0), alone.outputs[0].value, 2000)
            rich = spending(*((one, 0) for one in parents), fee=20_000)
            for tx in (*parents, alone, below, rich):
                it.takes(tx)
                time.sleep(pause)
            it.is_alike()
            until("nothing is only in the node's", lambda it=it: it.gated.metric("gate_only_in_node") == 0)
            if pause:
                # each was a difference while it was there alone
                same("differences", it.gated.differences(), {"A34": 3, "parent": 2})
                it.stays([2, 4])
            it.is_legal()


def test_a_chain(gate):
    """A child that pays for its parent is taken with it; what spends from it then comes behind it, and nothing is submitted with its
    grandparents."""
    with Together(gate) as it:
        it.open()
        it.asks_for(FLOOR)
        first = it.poor()
        second = spending((first, 0), fee=9000)
        third = payment_of((second.hash(), 0), second.outputs[0].value, 1700)
        fourth = payment_of((third.hash(), 0), third.outputs[0].value, POOR)
        last = payment_of((fourth.hash(), 0), fourth.outputs[0].value, 9000)
        it.takes(first, second, third, fourth, last)
        it.is_alike()
        it.agrees()
        it.stays([2, 2])
        it.is_legal()


def test_a_family_that_stays_outside(gate):
    """What the gate denies of a family together, too, is said and counted, and not given to it again. What a caller sees is as it
    was. A parent that no child can pay for isn't given again, nor is a chain whose members are all poor."""
    with Together(gate) as it:
        it.open()
        it.asks_for(FLOOR)
        parent = it.poor()
        child = spending((parent, 0), fee=POOR)
        below = payment_of((child.hash(), 0), child.outputs[0].value, 9000)
        it.takes(parent, child, below)
        until("it is counted", lambda: it.gated.differences() == {"A34": 1, "parent": 2})
        it.stays([2])
        said = [line for line in it.gated.lines() if "together: A34 mempool min fee not met" in line or "together: A25" in line]
        true("the log says it: %s" % said, len(said) == 1 and parent.txid() in said[0] and child.txid() in said[0])
        dust = Transaction([Input(*it.coin())], [Output(200), Output(COIN_VALUE - POOR)])
        with it.node.lock:
            it.node.model.alone = lambda tx: iter(())
            it.takes(dust, payment_of((dust.hash(), 1), COIN_VALUE - POOR, 9000))
            del it.node.model.alone
        until("it is counted", lambda: it.gated.differences() == {"A34": 1, "parent": 3, "A17": 1})
        it.stays([2])
        true("only in the node's pool", until("both pools were compared", lambda: it.gated.metric("gate_only_in_node") == 5))
        same("nothing of it is here", it.gated.listing(), set())
        same("given", it.given(parent, child, below, dust), [2, 2, 1, 1])
        it.is_legal()


def test_a_child_with_a_parent_that_is_there(gate):
    """Where a package has to have all unconfirmed parents of its child, it is submitted with the one that the gate has; else
    without."""
    for release, wanted in ((CORE_28, [2, 3]), (CORE_30, [2])):
        with Together(gate, **release) as it:
            it.open()
            it.asks_for(FLOOR)
            there = payment_of(it.coin(), COIN_VALUE, 9000, outputs=3)
            same("the node", it.node.submit(there).split(" ")[0], "admitted")
            it.is_alike()
            poor = it.poor()
            it.takes(poor, spending((poor, 0), (there, 0), fee=9000))
            it.is_alike()
            it.agrees()
            it.stays(wanted)
            it.is_legal()


def test_a_package_in_the_place_of_another(gate):
    """A parent that pays no more than the one that it replaces comes in with its child."""
    with Together(gate) as it:
        it.open()
        coin = it.coin()
        old = payment_of(coin, COIN_VALUE, 1000)
        same("the node", it.node.submit(old).split(" ")[0], "admitted")
        it.is_alike()
        new = payment_of(coin, COIN_VALUE, 900, outputs=2)
        it.takes(new, payment_of((new.hash(), 0), new.outputs[0].value, 9000), instead_of=[old])
        it.is_alike()
        it.agrees()
        same("packages", it.packages(), [2])
        it.is_legal()


def test_a_parent_in_a_block(gate):
    """A child that the gate denied with its parent is given to it again once a block has the parent."""
    with Together(gate) as it:
        it.open()
        it.asks_for(FLOOR)
        parent = it.poor()
        child = spending((parent, 0), fee=1900)
        below = payment_of((child.hash(), 0), child.outputs[0].value, 2000)
        it.takes(parent, child, below)
        until("they are counted", lambda: it.gated.differences() == {"A34": 1, "parent": 2})
        it.node.mine([parent])
        it.is_alike()
        # what was a difference, and is none any more, doesn't stand for what is denied behind it
        dust = Transaction([Input(below.hash(), 0)], [Output(200), Output(below.outputs[0].value - 9000)])
        with it.node.lock:
            it.node.model.alone = lambda tx: iter(())
            it.takes(dust)
            del it.node.model.alone
        until("it is counted", lambda: it.gated.differences() == {"A34": 1, "parent": 2, "A17": 1})
        it.is_legal()


def test_a_parent_that_a_caller_brings_in(gate):
    """A parent that stands in the node's pool alone comes in by a caller's package: what was denied behind it comes in, too."""
    with Together(gate, "--forward") as it:
        it.open()
        it.asks_for(FLOOR)
        parent = it.poor()
        other, child = spending((parent, 0), fee=1900), spending((parent, 1), fee=9000)
        it.takes(parent, other)
        until("they are counted", lambda: it.gated.differences() == {"A34": 1, "parent": 1})
        told = it.gated.rpc("submitpackage", [it.node.knows(one).hex() for one in (parent, child)])
        same("taken", told["package_msg"], "success")
        it.is_alike()
        same("differences", it.gated.differences(), {"A34": 1, "parent": 1})
        it.is_legal()


def test_a_parent_that_no_child_can_pay_for(gate):
    """Under another relay fee than the node's the gate denies what isn't of version 3, whatever its child pays: no package is
    tried."""
    with Together(gate, "--line", "minrelaytxfee 5000") as it:
        parent = it.poor()
        it.takes(parent, spending((parent, 0), fee=9000))
        it.gated.start()
        same("differences", it.gated.differences(), {"A35": 1, "parent": 1})
        it.stays([])
        it.is_legal()


def test_where_nobody_takes_packages(gate):
    """With a line that takes them away, or beside a release before 28.0, the pool is put to the gate one by one, as ever."""
    older = {"release": 270000, "settings": {**releases()["core-27"], "truc": 1}}
    for words, kinds in ((("--line", "packages 0"), CORE_28), (("--line", "truc 1", "--line", "packages 1"), older)):
        with Together(gate, *words, **kinds) as it:
            it.takes(*free_of_charge(it))
            it.gated.start()
            same("at first", it.gated.differences(), {"A35": 1, "parent": 1})
            it.takes(*free_of_charge(it))
            until("then", lambda it=it: it.gated.differences() == {"A35": 2, "parent": 2})
            it.stays([])
            same("nothing is here", it.gated.listing(), set())
            it.is_legal()


class Replies:
    """A gate that gives these replies in turn, and raises what is no text."""

    entries = 0

    def __init__(self, *replies):
        self.replies, self.lines = list(replies), []

    def ask(self, line):
        self.lines.append(line)
        found = self.replies.pop(0)
        if isinstance(found, Exception):
            raise found
        return found

    look = ask

    def rules_of(self, entries):
        """The rules by which it denies these, put one after another."""
        families = Families(self, self.ask, True, {})
        for it in entries:
            families.put(it)
        return [it.rule for it in families.found.values()]


LACKS, TAKEN = "denied A25 keep bad-txns-inputs-missingorspent", "admitted x fee 0 vsize 82 replaced 0"


def listed(*txs):
    """The entries of a node's pool that has these."""
    children = {tx.txid(): [it.txid() for it in txs if any(one.hash == tx.hash() for one in it.inputs)] for tx in txs}
    return [entry_of(tx.hex(), {"time": 7, "vsize": 82, "fee": 0, "ancestorcount": 1, "depends": [], "spentby": children[tx.txid()]}) for tx in txs]


def test_a_package_without_a_reply(_):
    """A package that is too long for a line, or that the gate answers by a fault, leaves all of it denied, and the rest goes on."""
    parent = Transaction([Input(number_hash(1), 0)], [Output(COIN_VALUE)], version=TRUC)
    child = Transaction([Input(parent.hash(), 0), Input(number_hash(2), 0)], [Output(COIN_VALUE)], version=TRUC)
    entries = listed(parent, child, payment_of((number_hash(3), 0), COIN_VALUE, 1000))
    for odd in (Unanswered("the line is too long"), "fault memory", 'rpc 500 {"error":{"code":-32602,"message":"Invalid params"},"id":0,"result":null}'):
        unknown = 'rpc 500 {"error":{"code":-5,"message":"Transaction not in mempool"},"id":0,"result":null}'
        turn = Replies("denied A35 keep min relay fee not met", LACKS, odd, unknown, TAKEN)
        same("%r" % (odd,), turn.rules_of(entries), ["A35", "A25", ""])
        same("lines", [line.split(" ")[0] for line in turn.lines], ["peer", "peer", "user", "user", "peer"])


def test_what_was_denied_behind_a_parent(_):
    """In one turn: once a parent comes in with one of its children, the others that were denied before are put again, and their
    own children behind them, each once."""
    parent = payment_of((number_hash(1), 0), COIN_VALUE, POOR, outputs=3)
    first, second, rich = (spending((parent, index), fee=fee) for index, fee in enumerate((2000, 1900, 9000)))
    below = Transaction([Input(first.hash(), 0), Input(second.hash(), 0)], [Output(1000)])

    def package(*members):
        """The reply to one of these, each with what is said of it."""
        results = ",".join('"%s":{%s,"txid":"%s"}' % (tx.wtxid(), said, tx.txid()) for tx, said in members)
        return 'rpc 200 {"error":null,"id":0,"result":{"package_msg":"","replaced-transactions":[],"tx-results":{%s}}}' % results

    poor, lacks = '"error":"mempool min fee not met","rule":"A34"', '"error":"bad-txns-inputs-missingorspent","rule":"A25"'
    came = '"fees":{"base":7},"vsize":82'
    denied = [package((parent, poor), (one, lacks)) for one in (first, second)]
    turn = Replies("denied A34 keep mempool min fee not met", LACKS, denied[0], LACKS, denied[1], LACKS, LACKS, package((parent, came), (rich, came)), *[TAKEN] * 3)
    same("rules", turn.rules_of(listed(parent, first, second, below, rich)), [""] * 5)
    same("replies that are left", turn.replies, [])
    put = [[tx for tx in (parent, first, second, below, rich) if tx.hex() in line] for line in turn.lines]
    alone = [[parent], [first], [parent, first], [second], [parent, second], [below], [rich], [parent, rich], [first], [second], [below]]
    same("what was put", put, alone)


def test_random_packages(gate):
    """Payments, families of each kind, blocks, reorganisations and openings that are drawn: the pools are alike after each."""
    draw = random.Random(28)
    with Together(gate) as it:
        it.open()
        it.asks_for(FLOOR)
        for _ in range(40):
            kind = draw.random()
            if len(it.spare) < 4:
                break
            if kind < 0.2:
                it.pay(fee=2000)
            elif kind < 0.5:
                it.takes(*free_of_charge(it))
            elif kind < 0.75:
                parents = [it.poor() for _ in range(draw.randint(1, 3))]
                it.takes(*parents, spending(*((one, draw.randint(0, 2)) for one in parents), fee=20_000))
            elif kind < 0.85:
                pool = it.node.in_order([one.tx for one in it.node.model.pool])
                it.node.mine(pool[: draw.randint(0, len(pool))])
            elif kind < 0.95 and it.node.model.blocks:
                depth = draw.randint(1, len(it.node.model.blocks[-3:]))
                blocks, fork = [], (it.node.base + it.node.model.blocks)[-depth - 1]
                for _ in range(depth + 1):
                    blocks.append(it.node.block([], blocks[-1] if blocks else fork, after=draw.randint(590, 650)))
                it.node.move(depth, blocks)
            elif kind >= 0.95:
                it.node.lost = 1
                it.pay(fee=2000)
            if draw.random() < 0.3:
                it.is_alike()
        it.is_alike()
        it.agrees()
        it.gated.end()
        it.gated.is_legal(None)
