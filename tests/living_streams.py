"""Random chains whose coins and verdicts are learnt, and whose blocks are forgotten, each reply next to that of the plain model.

A stream begins with a few coins. What is spent then has to be learnt first; what nobody needs is forgotten, and has to be
learnt again. Some openings begin at a height of their own.
"""

from collections import Counter
from copy import deepcopy

from bitcoin import Input, Output, Transaction, WITNESS_KEY_HASH, number_hash, printed
from caller_streams import Callers, words_of
from callers import CallerModel
from chain_model import Block
from chain_streams import Reorganisations, answered
from family_streams import VALUE
from gate import same
from living_model import LivingModel
from model import GREATEST_AMOUNT, Coin
from random_streams import compared

STREAMS = 150
EVENTS = 130
SEED = 5000
FROM_STREAMS = 120
FROM_EVENTS = 60
FIRST_HEIGHTS = (0, 0, 1, 5, 900000, 900000, 9999896)
VERDICTS = ("ok", "ok", "soft", "hard")
RETURN_SCRIPTS = (b"\x6a", b"\x6a\x01\x02", b"\x51" * 10001)
# the greatest number of a line
GREATEST_NUMBER = 2**53 - 1
# values of a block's output that no line of a coin can give, or that is C8
ODD_VALUES = (-1, -2**62, GREATEST_AMOUNT + 1, 2**62)
SCENARIOS = {
    "a_coin_learnt_late": 5, "a_block_before_its_coins": 5, "a_coin_of_what_is_to_come": 4, "a_transaction_of_a_forgotten_block": 5,
    "a_coin_of_an_odd_value": 2, "a_verdict_learnt_late": 5, "a_block_back_after_forgetting": 5, "a_lock_by_time": 3,
}

# how many of each kind all streams together have to meet
FLOORS = {
    "a coin learnt": 3000, "learnt again": 400, "C8": 150, "C9": 80, "C10": 50, "several faults": 150,
    "C11 of a coin of the opening": 300, "C11 of a spent coin": 150, "C11 of a block's transaction": 150, "C11 of an entry": 150,
    "a verdict learnt": 800, "a row learnt again": 70, "C12": 130,
    "forgotten": 600, "blocks forgotten": 300, "coins forgotten": 600, "rows forgotten": 300, "C6 of forgetting": 80,
    "kept for an entry": 400, "kept for a remaining block": 250, "kept of what a block made": 200,
    "granted once its coin was learnt": 90, "connected once its coins were learnt": 70, "C3": 150,
    "A24 by a learnt coin": 80, "C4 by a learnt coin": 80, "granted once that coin was forgotten": 60,
    "a forgotten block's transaction denied by A25": 60, "a forgotten block's transaction denied by A24": 30, "a forgotten block's transaction granted": 60,
    "A28 of a block's coin": 30, "granted once its verdict was learnt": 50, "A43": 700, "A44": 50, "A45": 20,
    "reorganised after forgetting": 250, "taken back after forgetting": 20, "back after forgetting": 150, "C6 past a forgotten block": 100,
    "A26 of a time that isn't known": 30, "A31": 20, "A27": 30, "C7": 80, "confirmed": 400, "came back": 200,
}
FROM_FLOORS = {
    "P9 of a height without a time": 60, "block": 40, "headers": 60, "headers from below the first height": 30, "A26": 30,
    "A27": 10, "A20": 5, "admitted": 80,
}


class Living(Reorganisations):
    """A stream of one seed."""

    def __init__(self, seed):
        super().__init__(seed, seed % 3 == 0)
        self.numbers, self.scenario, self.asks_below = 1000, iter(()), False
        self.gone_coins, self.gone_rows, self.gone_blocks = {}, set(), []
        self.opening.first = self.random.choice(FIRST_HEIGHTS)
        self.opening.coins = {(number_hash(number), 0): self.coin_of(self.random.random() < 0.2) for number in range(1, 9)}
        if seed % 2 == 0:
            self.opening.verdicts = {}
        self.prepared = [self.paying([point]) for point in list(self.opening.coins)[:4]]
        for tx in self.prepared:
            self.opening.verdicts[tx.wtxid(), 0] = self.random.choice(("ok", "ok", "soft"))
        for number in range(3):
            self.opening.verdicts[printed(number_hash(number)), number] = "ok"
        self.model = LivingModel(self.opening)

    # --- events

    def event(self):
        """The next event of what goes on, or another one."""
        for line, reply in self.scenario:
            return line, reply
        draw = self.random.random()
        if draw < 0.25 and len(self.ready()) < 6 or draw < 0.04:
            return self.learn_new()
        if draw < 0.3:
            return self.learn_again()
        if draw < 0.35:
            return self.learn_wrongly()
        if draw < 0.4:
            return self.some_verdict()
        if draw < 0.44:
            return self.forget(self.count_to_forget())
        if draw < 0.54:
            name = self.random.choices(list(SCENARIOS), list(SCENARIOS.values()))[0]
            self.scenario = getattr(self, name)()
        return super().event()

    def chain_event(self):
        """A depth may go past a forgotten block."""
        return self.noted(super().chain_event)

    def noted(self, event):
        """An event that may disconnect blocks after others were forgotten."""
        blocks, came_back = len(self.model.blocks), self.model.gone["came back"]
        line, reply = event()
        depth = int(line.split(" ")[1])
        if self.gone_blocks and depth:
            self.met["C6 past a forgotten block"] += reply.startswith("refused C6") and blocks < depth <= blocks + len(self.gone_blocks)
            self.met["reorganised after forgetting"] += reply.startswith("chain")
            self.met["taken back after forgetting"] += reply.startswith(("refused C2", "refused C3", "refused C4", "refused C5"))
            self.met["back after forgetting"] += self.model.gone["came back"] - came_back
        return line, reply

    def judge_scripts(self, tx):
        """Verdicts are learnt by events of their own. What is about to be told is noted."""
        self.asks_below = self.asks(tx)

    def transaction(self):
        if self.prepared and self.random.random() < 0.4:
            return self.prepared.pop()
        tx = super().transaction()
        for one in tx.inputs:
            if self.random.random() < 0.05:
                one.sequence = 1 << 22 | self.random.choice((0, 1, 100))
        return tx

    def count(self, reply, about):
        super().count(reply, about)
        if reply.startswith("denied A26"):
            self.met["A26 of a time that isn't known"] += self.asks_below

    # --- what an event is

    def line(self, line):
        """The same line, or with other digits that mean the same."""
        if self.random.random() < 0.9:
            return line
        words = line.split(" ")
        return " ".join(word.upper() if len(word) > 40 else word for word in words)

    def learn(self, point, coin):
        reply = self.model.learn_coin(point, coin)
        if reply == "set":
            self.met["a coin learnt"] += 1
            self.met["learnt again"] += point in self.gone_coins
        else:
            self.met[reply.split(" ")[1]] += 1
        return self.line("chain " + coin.line(point)), reply

    def learn_row(self, wtxid, index, verdict):
        reply = self.model.learn_verdict(wtxid, index, verdict)
        self.met["a verdict learnt" if reply == "set" else "C12"] += 1
        self.met["a row learnt again"] += reply == "set" and (wtxid, index) in self.gone_rows
        return self.line("chain verdict %s %d %s" % (wtxid, index, verdict)), reply

    def forget(self, count):
        coins, rows, blocks = self.model.opening.coins, set(self.model.opening.verdicts), self.model.blocks[:count]
        reply = self.model.forget(count)
        if reply.startswith("refused"):
            self.met["C6 of forgetting"] += 1
            return "chain forget %d" % count, reply
        left = self.model.opening.coins
        spent = {point for entry in self.model.pool for point in entry.spent}
        self.met["forgotten"] += 1
        self.met["blocks forgotten"] += count > 0
        self.met["coins forgotten"] += reply.split(" ")[2] != "0"
        self.met["rows forgotten"] += reply.split(" ")[3] != "0"
        self.met["kept for an entry"] += any(point in spent for point in left)
        self.met["kept for a remaining block"] += any(point not in spent for point in left)
        self.met["kept of what a block made"] += any(point not in coins for point in left)
        self.gone_coins = {point: coin for point, coin in {**self.gone_coins, **coins}.items() if point not in left}
        self.gone_rows |= rows - set(self.model.opening.verdicts)
        self.gone_blocks += blocks
        return "chain forget %d" % count, reply

    def submit(self, tx):
        """A submission by a peer, which enters first if it has to."""
        if self.model.refusal(self.peer):
            self.peer += 1
            yield "peer %d enter 192.0.2.1" % self.peer, self.model.enter(self.peer)
        now = self.time()
        self.judge_scripts(tx)
        reply = self.model.submit(self.peer, now, tx)
        self.told[tx.wtxid()] = tx
        self.count(reply, [])
        yield "peer %d tx %d %s" % (self.peer, now, tx.hex()), reply

    def connect(self, depth, *blocks):
        reply = self.model.chain(depth, self.now, list(blocks))
        self.met[reply.split(" ")[1] if reply.startswith("refused") else "chain"] += 1
        return " ".join(["chain %d %d" % (depth, self.now)] + [block.hex() for block in blocks]), reply

    # --- coins

    def new_point(self):
        self.numbers += 1
        return number_hash(self.numbers), self.random.choice((0, 0, 0, 1, 4294967295))

    def ready(self):
        """Coins of the chain that no entry spends, and that one could."""
        coins, next_height = self.model.coins, self.model.tip + 1
        found = super().free_coins()
        return [it for it in found if 0 < coins[it].value <= VALUE and not (coins[it].is_coinbase and next_height - coins[it].height < 100)]

    def free_coins(self):
        """Most often those that could be spent."""
        return self.ready() if self.random.random() < 0.9 else super().free_coins()

    def coin_of(self, is_coinbase=False):
        """A coin of a height that decides about something: the first that has a time, the one behind it, the last one, or
        that of a coinbase that is mature, or is soon."""
        opening = self.opened_with()
        last = opening.tip()
        near = (0, 1, opening.first - 1, opening.first, opening.first + 1, last - 1, last)
        height = last - self.random.choice((97, 98, 99, 100)) if is_coinbase else self.random.choice(near)
        return Coin(VALUE, min(max(0, height), last), is_coinbase)

    def opened_with(self):
        """The opening as it is by now."""
        return self.model.opening

    def learn_new(self):
        coin = self.coin_of(self.random.random() < 0.1)
        if self.random.random() < 0.06:
            coin.script = b""
        return self.learn(self.new_point(), coin)

    def learn_again(self):
        """What is known: a coin of the opening, one that a block spends, one of a block's transaction or of an entry; or
        what was forgotten."""
        opening, spent = self.model.opening.coins, self.model.coins
        kinds = {
            "C11 of a coin of the opening": [point for point in opening if point in spent],
            "C11 of a spent coin": [point for point in opening if point not in spent],
            "C11 of a block's transaction": [(tx.hash(), self.random.choice((0, 1, 9))) for block in self.model.blocks for tx in block.txs],
            "C11 of an entry": [(entry.hash, self.random.choice((0, 1, 4294967295))) for entry in self.model.pool],
            "forgotten": [point for point, coin in self.gone_coins.items() if 0 <= coin.value <= GREATEST_NUMBER],
        }
        kind = self.random.choice([kind for kind, found in kinds.items() if found] or ["new"])
        if kind == "new":
            return self.learn_new()
        (point,) = self.some(kinds[kind])
        coin = self.gone_coins[point] if kind == "forgotten" else self.coin_of()
        line, reply = self.learn(point, coin)
        if kind != "forgotten":
            same("what a known coin is answered", reply, "refused C11 coin-known")
            self.met[kind] += 1
        return line, reply

    def learn_wrongly(self):
        """A coin with a fault, or with several."""
        faults = self.some(["value", "script", "height", "known"], self.random.choice((1, 1, 1, 2, 3, 4)))
        coin, point = self.coin_of(), self.new_point()
        if "value" in faults:
            coin.value = self.random.choice((GREATEST_AMOUNT + 1, GREATEST_NUMBER))
        if "script" in faults:
            coin.script = self.random.choice(RETURN_SCRIPTS)
        if "height" in faults:
            coin.height = self.model.opening.tip() + self.random.choice((1, 1, 2, 4294967295 - self.model.opening.tip()))
        if "known" in faults and self.model.opening.coins:
            (point,) = self.some(list(self.model.opening.coins))
        self.met["several faults"] += len(faults) > 1
        return self.learn(point, coin)

    # --- verdicts

    def some_verdict(self):
        """For a transaction that is still to come, or of one that was told, was confirmed or is nobody's; or a row that stands."""
        rows = [row for row in self.model.opening.verdicts if row != "*"]
        draw = self.random.random()
        if rows and draw < 0.3:
            wtxid, index = self.random.choice(rows)
        elif self.gone_rows and draw < 0.45:
            wtxid, index = self.random.choice(sorted(self.gone_rows - {"*"}))
        elif draw < 0.6:
            wtxid, index = printed(number_hash(self.random.randint(0, 9))), self.random.choice((0, 1, 4294967295))
        else:
            known = list(self.told.values()) + [tx for block in self.model.blocks for tx in block.txs]
            tx = self.random.choice(known) if known and draw < 0.75 else self.prepare()
            wtxid, index = tx.wtxid(), self.random.randrange(len(tx.inputs))
        return self.learn_row(wtxid, index, self.random.choice(VERDICTS))

    def prepare(self):
        """A transaction that is still to come."""
        tx = deepcopy(super().transaction())
        self.prepared.append(tx)
        return tx

    # --- forgetting

    def count_to_forget(self):
        blocks = len(self.model.blocks)
        return self.random.choice((0, 0, 0, 1, 1, 1, 2, 2, max(0, blocks - 1), max(0, blocks - 1), blocks, blocks, blocks + 1, 101, GREATEST_NUMBER))

    # --- what takes several events

    def paying(self, points, outputs=1):
        """A plain payment, with a fee that is enough for most floors. What is unknown has the usual value."""
        tx = Transaction([Input(hash, index, b"", 0xFFFFFFFD) for hash, index in points], [Output(VALUE)] * outputs)
        found = [self.model.coin(one) for one in tx.inputs]
        left = sum(coin.value if coin else VALUE for coin in found) - self.random.choice((1, 5, 20)) * 1000 * (len(points) + outputs) - self.numbers
        tx.outputs = [Output(left // outputs) for _ in range(outputs)]
        return tx

    def granting(self, tx):
        """Verdicts for all inputs that have none."""
        if "*" not in self.model.opening.verdicts:
            for index in range(len(tx.inputs)):
                if (tx.wtxid(), index) not in self.model.opening.verdicts:
                    yield self.learn_row(tx.wtxid(), index, "ok")

    def last_is_granted(self, events, kind):
        """The same events, of which the last may be granted."""
        for line, reply in events:
            yield line, reply
        self.met[kind] += reply.startswith("admitted")

    def a_coin_learnt_late(self):
        """A submission whose coins aren't known yet, of which each is learnt then."""
        points = [self.new_point() for _ in range(self.random.choice((1, 1, 2)))]
        tx = self.paying(points + self.some(self.ready(), self.random.choice((0, 1))))
        yield from self.submit(tx)
        for point in points:
            yield self.learn(point, self.coin_of())
            if self.random.random() < 0.4:
                yield from self.submit(tx)
        yield from self.granting(tx)
        yield from self.last_is_granted(self.submit(tx), "granted once its coin was learnt")

    def a_block_before_its_coins(self):
        """A block that spends what is unknown, of which each is learnt then. Some has the pool's transactions too."""
        points = [self.new_point() for _ in range(self.random.choice((1, 2, 3)))]
        txs = [self.paying(points, self.random.choice((1, 2)))]
        if self.random.random() < 0.5:
            txs.append(self.paying([(txs[0].hash(), 0)]))
        block = self.block_of(*txs)
        yield self.connect(0, block)
        for point in points:
            yield self.learn(point, self.coin_of())
            if self.random.random() < 0.3:
                yield self.connect(0, block)
        line, reply = self.connect(0, block)
        self.met["connected once its coins were learnt"] += reply.startswith("chain")
        yield line, reply

    def block_of(self, *txs):
        self.number += 1
        return Block(self.model.median_time(self.model.tip) + 600, [self.coinbase(), *txs])

    def a_coin_of_what_is_to_come(self):
        """A coin of a transaction that is still to come makes it known: A24 and C4, until the coin is forgotten."""
        points = self.some(self.ready()) or [self.new_point()]
        tx = self.paying(points)
        yield self.learn((tx.hash(), self.random.choice((0, 0, 7))), self.coin_of())
        for line, reply in self.submit(tx):
            yield line, reply
        self.met["A24 by a learnt coin"] += reply.startswith("denied A24")
        line, reply = self.connect(0, self.block_of(tx))
        self.met["C4 by a learnt coin"] += reply.startswith("refused C4")
        yield line, reply
        yield self.forget(0)
        yield from self.submit(tx)
        for point in points:
            if point not in self.model.opening.coins:
                yield self.learn(point, self.coin_of())
        yield from self.granting(tx)
        yield from self.last_is_granted(self.submit(tx), "granted once that coin was forgotten")

    def a_transaction_of_a_forgotten_block(self):
        """What a block confirmed comes again when that block is forgotten; its coins are unknown, until they are learnt again."""
        points = [self.new_point(), self.new_point()]
        for point in points:
            yield self.learn(point, self.coin_of())
        tx = self.paying(points, 2)
        yield self.connect(0, self.block_of(tx))
        if self.random.random() < 0.4:
            child = self.paying([(tx.hash(), 0)])
            yield from self.granting(child)
            yield from self.submit(child)
        yield self.forget(len(self.model.blocks))
        for line, reply in self.submit(tx):
            yield line, reply
        for rule in ("A24", "A25"):
            self.met["a forgotten block's transaction denied by " + rule] += reply.startswith("denied " + rule)
        for point in points:
            yield self.learn(point, self.coin_of())
        yield from self.granting(tx)
        yield from self.last_is_granted(self.submit(tx), "a forgotten block's transaction granted")

    def a_coin_of_an_odd_value(self):
        """A block makes a coin of a value that no line could give, and the next one spends it. The first is forgotten, and the
        other one disconnected."""
        point = self.new_point()
        yield self.learn(point, self.coin_of())
        odd = self.paying([point])
        odd.outputs.append(Output(self.random.choice(ODD_VALUES)))
        first = self.block_of(odd)
        second = self.block_of(self.paying([(odd.hash(), 1)]))
        second.time += 600
        yield self.connect(0, first, second)
        yield self.forget(max(0, len(self.model.blocks) - 1))
        yield self.connect(1)
        spending = Transaction([Input(odd.hash(), 1)], [Output(VALUE)])
        for line, reply in self.submit(spending):
            yield line, reply
        self.met["A28 of a block's coin"] += reply.startswith("denied A28")

    def a_verdict_learnt_late(self):
        """A submission without a verdict, if all of them need one, and its verdicts, which a second one doesn't replace."""
        points = self.some(self.ready(), 2) or [self.new_point()]
        tx = self.paying(points)
        if "*" not in self.model.opening.verdicts:
            yield from self.submit(tx)
        for index in range(len(points)):
            yield self.learn_row(tx.wtxid(), index, self.random.choice(("ok",) * 8 + ("soft", "hard")))
            if self.random.random() < 0.3:
                yield self.learn_row(tx.wtxid(), index, self.random.choice(VERDICTS))
        yield from self.last_is_granted(self.submit(tx), "granted once its verdict was learnt")

    def a_block_back_after_forgetting(self):
        """Two blocks, of which the lower is forgotten and the upper disconnected; what it had comes back."""
        points = [self.new_point(), self.new_point()]
        for point in points:
            yield self.learn(point, self.coin_of())
        low = self.paying(points[:1], 2)
        high = self.paying([(low.hash(), 0), points[1]])
        first, second = self.block_of(low), self.block_of(high)
        second.time += 600
        yield from self.granting(high)
        yield self.connect(0, first, second)
        yield self.forget(max(0, len(self.model.blocks) - 1))
        yield self.noted(lambda: self.connect(1))
        if self.random.random() < 0.5:
            yield self.forget(0)
        yield self.noted(lambda: self.connect(2))

    def a_lock_by_time(self):
        """A coin of a height near the first that has a time, and a relative lock by time."""
        point = self.new_point()
        yield self.learn(point, self.coin_of())
        tx = self.paying([point])
        tx.inputs[0].sequence = 1 << 22 | self.random.choice((0, 1, 100))
        yield from self.granting(tx)
        yield from self.submit(tx)

    def asks(self, tx):
        """Whether a relative lock by time asks for the median of a height below the first that has a time."""
        coins = [self.model.coin(one) for one in tx.inputs if one.sequence >> 22 & 0x201 == 1]
        return any(coin and max(0, coin.height - 1) < self.model.opening.first for coin in coins)


def stream(gate, seed):
    return answered(gate, Living(seed), seed, EVENTS)


def test_living_chains(gate):
    """Each reply is that of the model, and each way to learn and to forget is met often enough."""
    met = sum((stream(gate, seed) for seed in range(SEED, SEED + STREAMS)), Counter())
    same("met too seldom", {kind: met[kind] for kind, floor in FLOORS.items() if met[kind] < floor}, {})


class FromAHeight(Callers):
    """Peers and users above an opening whose times begin at a height of its own."""

    def opened(self):
        told, settings = super().opened()
        settings.first = self.random.choice((1, 2, 11, 500, 900000, 10000001 - len(settings.times)))
        for coin in settings.coins.values():
            coin.height += self.random.choice((0, settings.first, settings.first))
        line = "from %d" % settings.first
        return ([line] + told if self.random.random() < 0.5 else told + [line]), settings

    def height(self, model):
        first = model.opening.first
        return self.random.choice((0, max(0, first - 2000), first - 1, first, first + 1, model.tip - 1, model.tip, model.tip + 1, 4294967295))

    def sequence(self):
        return 1 << 22 | self.random.choice((0, 1, 2, 100)) if self.random.random() < 0.2 else super().sequence()


def met_by(events, first):
    """What events from the height of the first time met."""
    met = Counter()
    for line, reply in events:
        if reply is None:
            continue
        met.update(words_of(reply))
        words = line.split(" ")
        is_below = words[2:3] in (["getblock"], ["headers"]) and int(words[3]) < first
        met["P9 of a height without a time"] += is_below and reply == "denied P9 keep unknown-block"
        met["headers from below the first height"] += is_below and reply.startswith("headers")
    return met


def from_stream(gate, seed):
    made = FromAHeight(seed)
    model = CallerModel(made.opening)
    events = [made.enter(model, peer) for peer in (1, 2, 3)]
    events += [made.event(model) for _ in range(FROM_EVENTS)]
    compared(gate, seed, made, events)
    return met_by(events, made.opening.first)


def test_from_a_height(gate):
    """The same of peers and users above an opening whose times begin at a height."""
    met = sum((from_stream(gate, seed) for seed in range(FROM_STREAMS)), Counter())
    same("met too seldom", {kind: met[kind] for kind, floor in FROM_FLOORS.items() if met[kind] < floor}, {})
