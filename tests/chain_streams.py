"""Random blocks and reorganisations between random families, each reply next to that of the plain model."""

from collections import Counter
from copy import deepcopy

from bitcoin import Input, Output, Transaction, number_hash
from chain_model import Block, ChainModel
from family_streams import Families, opening_lines
from gate import Differs, same
from model import NULL, TWO_WEEKS, Coin

STREAMS = 48
POLICY_STREAMS = 40
EVENTS = 90
SEED = 1000
SUBSIDY = 10**10
KINDS = {"fresh": 25, "longer": 25, "wider": 20, "joined": 15, "instead": 12, "instead_of_the_last": 4, "beside_another": 3, "odd": 2}

# how many of each kind all streams together have to meet
FLOORS = {
    "chain": 600, "C1": 20, "C2": 20, "C3": 20, "C4": 20, "C5": 20, "C6": 20,
    "confirmed": 400, "contradicted": 60, "came back": 300, "above its children": 60, "refused again": 40,
    "below a refused one": 10, "premature": 20, "expired": 100, "trimmed": 50,
}

# the same under limits from 1 to 40 and under full replacement
POLICY_FLOORS = {
    "chain": 350, "came back": 350, "above its children": 35, "refused again": 90, "below a refused one": 20,
    "back with the most ancestors": 20, "back with the most descendants": 10, "over the most ancestors": 4, "over the most descendants": 3,
    "replaced what doesn't signal": 3,
}


class Reorganisations(Families):
    """A stream in which blocks come and go."""

    # how often an event is the chain's
    of_chain = 0.25

    def __init__(self, seed, of_policy=False):
        super().__init__(seed, "full", of_policy)
        self.kinds = KINDS
        self.opening.budget = self.random.choice((1500, 4000, 10**9, 10**9))
        for number in range(200, 240):
            self.opening.coins[number_hash(number), 0] = Coin(10**13, self.random.choice((1, 2, 3)), True)
        self.model = ChainModel(self.opening)
        self.number = 0
        self.seen = []

    def event(self):
        if self.random.random() < self.of_chain:
            return self.chain_event()
        return super().event()

    def chain_event(self):
        depth = self.random.choice((0, 0, 0, 1, 1, 2, 3)) if self.model.blocks else self.random.choice((0,) * 12 + (1,))
        depth = depth + 2 if self.random.random() < 0.1 else min(depth, len(self.model.blocks))
        blocks = self.blocks(depth, self.random.choice((0, 1, 1, 2, depth + 1)) if depth else self.random.choice((1, 1, 2)))
        now = self.now + (TWO_WEEKS if self.random.random() < 0.05 else 0)
        words = [block.hex() for block in blocks]
        if words and self.random.random() < 0.05:
            place = self.random.randrange(len(words))
            words[place], blocks[place] = self.random.choice((words[place][:-2], words[place] + "00", "00" * 79, "0g")), None
        reply = self.model.chain(depth, now, blocks)
        self.met[reply.split()[1] if reply.startswith("refused") else "chain"] += 1
        return " ".join(["chain %d %d" % (depth, now)] + words), reply

    def judge_scripts(self, tx):
        """No verdict of its own for what a block has had: it may have come back by the others' verdict."""
        if tx.wtxid() not in {one.wtxid() for one in self.seen}:
            super().judge_scripts(tx)

    def transaction(self):
        """Some are final, or have a coin that can be spent, from the next block on and no earlier."""
        # one that stands in the model's pool stays what it is
        tx = deepcopy(super().transaction())
        draw = self.random.random()
        if draw < 0.08:
            tx.locktime = self.model.tip
        elif draw < 0.16:
            found = [point for point in self.free_coins() if self.model.coins[point].is_coinbase]
            tx.inputs = [Input(hash, index, b"", 0xFFFFFFFD) for hash, index in self.some(found)] or tx.inputs
            self.pay(tx)
        return tx

    def blocks(self, depth, count):
        """Blocks for the chain as it is when so many are disconnected, most of them without a fault."""
        model = ChainModel(self.model.opening)
        model.move(self.model.blocks[:len(self.model.blocks) - depth])
        made = []
        for _ in range(count):
            block = self.block(model)
            made.append(block)
            self.seen += block.txs[1:]
            if model.fault(block) is None:
                model.move(model.blocks + [block])
        return made

    def block(self, model):
        """A coinbase, and what can be confirmed of the pool, of blocks before, and of transactions that nobody submitted."""
        self.number += 1
        coins, txs, known = dict(model.chain_coins()), [], model.known()
        wanted = self.confirmable()
        wanted += self.some(self.seen, 2) + self.strangers(model)
        for tx in wanted:
            points = [(one.hash, one.index) for one in tx.inputs]
            if all(point in coins for point in points) and tx.hash() not in known:
                known.add(tx.hash())
                txs.append(tx)
                for point in points:
                    del coins[point]
                coins.update({(tx.hash(), index): None for index in range(len(tx.outputs))})
        block = Block(model.median_time(model.tip) + self.random.choice((1, 1, 600, 600, 1200)), [self.coinbase()] + txs)
        return self.spoiled(block, model) if self.random.random() < 0.12 else block

    def confirmable(self):
        """What of the pool a block may have, in this order."""
        return [entry.tx for entry in self.model.pool if self.random.random() < 0.4]

    def strangers(self, model):
        """A payment that no peer ever sent, most often of a coin that an entry spends; some have another version."""
        if self.random.random() < 0.4:
            return []
        spent = {point for entry in self.model.pool for point in entry.spent}
        coins = sorted(model.chain_coins())
        points = self.some([point for point in coins if point in spent] or coins)
        value = sum(model.chain_coins()[point].value for point in points)
        inputs = [Input(hash, index, b"", 0xFFFFFFFD) for hash, index in points]
        return [Transaction(inputs, [Output(max(1000, value // 2 - 5000 - self.number))] * 2, self.random.choice((2, 2, 3)))] if inputs else []

    def coinbase(self):
        script = b"\x04" + self.number.to_bytes(4, "little")
        return Transaction([Input(NULL[0], NULL[1], script)], [Output(SUBSIDY)])

    def spoiled(self, block, model):
        """The same with one fault."""
        kind = self.random.choice(("C2", "C3", "C4", "C4", "C5"))
        if kind == "C2":
            block.txs = self.random.choice((block.txs[1:], block.txs + [self.coinbase()], []))
        elif kind == "C3":
            block.txs.append(Transaction([Input(number_hash(9999))], [Output(1000)]))
        elif kind == "C4" and model.blocks:
            block.txs.append(model.blocks[-1].txs[-1])
        elif kind == "C5":
            block.time = model.median_time(model.tip) - self.random.choice((0, 1))
        return block


def answered(gate, made, seed, count):
    """Runs so many events of a stream, and a listing, and counts what it met."""
    events = [made.event() for _ in range(count)]
    events.append(("peer %d enter 192.0.2.1" % (made.peer + 1), made.model.enter(made.peer + 1)))
    events.append(("peer %d mempool" % (made.peer + 1), made.model.mempool(made.peer + 1)))
    try:
        gate.answers(opening_lines(made.opening), events)
    except Differs as error:
        raise Differs("seed %d\n%s" % (seed, error))
    return made.met + made.model.gone


def stream(gate, seed, of_policy=False):
    return answered(gate, Reorganisations(seed, of_policy), seed, EVENTS)


def test_reorganisations(gate):
    """Each reply is that of the model, and each kind of event is met often enough."""
    met = sum((stream(gate, seed) for seed in range(SEED, SEED + STREAMS)), Counter())
    same("met too seldom", {kind: met[kind] for kind, floor in FLOORS.items() if met[kind] < floor}, {})


def test_policies(gate):
    """The same under limits from 1 to 40 and under full replacement: what comes back has limits that follow from these."""
    met = sum((stream(gate, seed, True) for seed in range(SEED, SEED + POLICY_STREAMS)), Counter())
    same("met too seldom", {kind: met[kind] for kind, floor in POLICY_FLOORS.items() if met[kind] < floor}, {})
