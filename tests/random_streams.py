"""Random openings and events, each reply next to that of the plain model."""

import random

from bitcoin import Input, Output, Transaction, number_hash
from gate import Differs, same, same_lines
from model import GREATEST_AMOUNT, NULL, TOKENS, TWO_WEEKS, Coin, Model, Opening, draw_policy, policy_lines, rate_of

STREAMS = 400
EVENTS = 60
BAD_LINES = ("peer", "peer 1 Leave", "peer -1 leave", "x", "peer 1 enter 1.2.3", "operator", "operator floor", "operator floor -1", "operator Floor 1", "operator floor 1 2")
VERDICTS = ("ok", "soft", "hard")
LOCKTIMES = (0, 0, 0, 0, 1, 19, 20, 21, 99, 100, 499999999, 500000000, 500003000, 500010000, 4294967295)
SEQUENCES = (0xFFFFFFFF, 0xFFFFFFFF, 0xFFFFFFFE, 0xFFFFFFFD, 0xFFFFFFFD, 0x80000000, 0, 1, 2, 10, 19, 20, 21, 22, 100, 0x10001)
FLOORS = (0, 0, 1, 999, 1000, 1001, 5000, 2**53 - 1)
# fee filters, which say something up to the greatest amount
RATES = (0, 0, 1, 1000, 5000, GREATEST_AMOUNT, GREATEST_AMOUNT + 1, 2**53 - 1)
AMOUNTS = (0, 1, 293, 294, 1000, 5000, 99000, 99889, 99890, 99891, 100000, GREATEST_AMOUNT // 2, GREATEST_AMOUNT)


def filter_rate(random, pool):
    """A rate for a fee filter: most often one round that of an entry."""
    if not pool or random.random() < 0.3:
        return random.choice(RATES)
    entry = random.choice(pool)
    return min(2**53 - 1, max(0, rate_of(entry.fee, entry.size) + random.choice((-1, 0, 1, 2, 9, 10))))


class Stream:
    """An opening and transactions that fit it, of one seed."""

    def __init__(self, seed):
        self.random = random.Random(seed)
        self.outpoints = [(number_hash(self.random.randint(1, 9)), self.random.choice((0, 0, 1, 4294967295))) for _ in range(8)]
        self.transactions = [self.transaction() for _ in range(14)]
        self.transactions += [self.varied(self.random.choice(self.transactions)) for _ in range(10)]
        self.time_lines, self.opening = self.opened()

    # --- transactions

    def sequence(self):
        draw = self.random.choice(SEQUENCES)
        return draw | 1 << 22 if draw < 1 << 16 and self.random.random() < 0.4 else draw

    def input(self):
        outpoint = NULL if self.random.random() < 0.02 else self.random.choice(self.outpoints)
        script = self.random.choice((b"", b"\x51", b"\x51\x51", b"\x51" * 100, b"\x51" * 101)) if outpoint == NULL else b""
        witness = self.random.choice(([], [b"\x30" * 72, b"\x02" * 33], [b""], [b"\x01"]))
        return Input(outpoint[0], outpoint[1], script, self.sequence(), witness)

    def output(self):
        draw = self.random.random()
        if draw < 0.02:
            return Output(self.random.choice((-1, GREATEST_AMOUNT + 1, -2**63, 2**63 - 1)))
        return Output(self.random.choice(AMOUNTS if draw < 0.3 else AMOUNTS[4:10]))

    def transaction(self):
        inputs = [self.input() for _ in range(self.random.choice((1, 1, 1, 2, 3)))]
        outputs = [self.output() for _ in range(self.random.choice((1, 1, 1, 2)))]
        if self.random.random() < 0.04:
            outputs = []
            if self.random.random() < 0.5:
                inputs = []
        version = self.random.choice((0, 3, -1, -2**31)) if self.random.random() < 0.04 else self.random.choice((1, 2, 2))
        return Transaction(inputs, outputs, version, self.random.choice(LOCKTIMES))

    def varied(self, tx):
        """The same transaction with another witness, another amount, or an input more."""
        draw = self.random.random()
        inputs = [Input(one.hash, one.index, one.script, one.sequence, list(one.witness)) for one in tx.inputs]
        outputs = [Output(one.value) for one in tx.outputs]
        if draw < 0.5 and inputs:
            inputs[0].witness = [b"\x07" * self.random.randint(1, 80)]
        elif draw < 0.75 and outputs:
            outputs[0].value = max(294, outputs[0].value - 1)
        elif outputs:
            inputs.append(self.input())
        return Transaction(inputs, outputs, tx.version, tx.locktime)

    # --- the opening

    def times(self):
        """Lines of block times, and the times."""
        told, times = [], []
        for _ in range(self.random.randint(1, 3)):
            count = self.random.choice((0, 1, 2, 5, 11, 20, 100))
            first, step = self.random.choice((0, 1000, 500000000)), self.random.choice((0, 1, 511, 512, 600))
            told.append("times %d %d %d" % (count, first, step))
            times += [first + step * number for number in range(count)]
        if not times:
            return ["times 20 1000 600"], [1000 + 600 * number for number in range(20)]
        return told, times

    def opened(self):
        told, times = self.times()
        opening = Opening(times, bloom=self.random.random() < 0.8)
        if self.random.random() < 0.3:
            draw_policy(self.random, opening)
        if self.random.random() < 0.4:
            opening.budget = self.random.choice((0, 109, 110, 200, 300, 500, 1000, 1000000000))
        for outpoint in self.outpoints[:6]:
            value = self.random.choice(AMOUNTS if self.random.random() < 0.2 else (100000, 100000, 200000))
            opening.coins[outpoint] = Coin(value, self.random.randint(0, len(times) - 1), self.random.random() < 0.15)
        for tx in self.transactions[:2]:
            if self.random.random() < 0.3:
                opening.coins[tx.hash(), self.random.choice((0, 1, 7))] = Coin(100000, 0, False)
        if self.random.random() < 0.8:
            opening.verdicts["*"] = self.random.choice(("ok", "ok", "ok", "soft", "hard"))
        for tx in self.transactions:
            for index in range(len(tx.inputs)):
                if self.random.random() < 0.3:
                    opening.verdicts[tx.wtxid(), index] = self.random.choice(VERDICTS + ("ok",) * 5)
        return told, opening

    def opening_lines(self):
        """The opening's lines, in any order."""
        told = [coin.line(outpoint) for outpoint, coin in self.opening.coins.items()]
        for pair, verdict in self.opening.verdicts.items():
            told.append("verdict %s %s" % ("*" if pair == "*" else "%s %d" % pair, verdict))
        if self.opening.bloom or self.random.random() < 0.5:
            told.append("bloom %d" % self.opening.bloom)
        if self.opening.budget != Opening.budget or self.random.random() < 0.5:
            told.append("budget %d" % self.opening.budget)
        told += policy_lines(self.opening, lambda: self.random.random() < 0.3)
        told += ["", "# a comment"]
        self.random.shuffle(told)
        place = self.random.randint(0, len(told))
        return told[:place] + self.time_lines + told[place:]

    # --- events

    def event(self, model):
        """The next event line, and its reply; None for a line that is skipped."""
        peer = self.random.choice((1, 1, 1, 2, 3, 9007199254740991))
        draw = self.random.random()
        if draw < 0.03:
            return self.random.choice(("", "#", "# peer 1 leave")), None
        if draw < 0.06:
            return self.random.choice(BAD_LINES), "refused L1 bad-line"
        if draw < 0.2:
            return "peer %d enter 192.0.2.1" % peer, model.enter(peer)
        if draw < 0.23:
            return "peer %d leave" % peer, model.leave(peer)
        if draw < 0.33:
            return "peer %d mempool" % peer, model.mempool(peer)
        if draw < 0.36:
            rate = self.random.choice(FLOORS)
            return "operator floor %d" % rate, model.set_floor(rate)
        if draw > 0.95:
            rate = filter_rate(self.random, model.pool)
            return "peer %d feefilter %d" % (peer, rate), model.fee_filter(peer, rate)
        tx = self.random.choice(self.transactions)
        digits = tx.hex()
        if draw < 0.4:
            tx, digits = None, self.random.choice((digits[:-1], digits[:-2], digits + "00", digits + "x", "00"))
        now = self.random.choice((0, 1, 5000)) + self.random.choice((0, 0, 0, TWO_WEEKS))
        return "peer %d tx %d %s" % (peer, now, digits), model.submit(peer, now, tx)


def compared(gate, seed, made, events):
    """Runs events, each with its reply or none, and gives the replies, which have to be these."""
    found = gate.replies(made.opening_lines(), [event for event, _ in events])
    wanted = [reply for _, reply in events if reply is not None]
    try:
        same_lines(found, wanted)
    except Differs as error:
        raise Differs("seed %d\n%s" % (seed, error))
    return wanted


def stream(gate, seed):
    """Runs one stream, and gives its replies."""
    made = Stream(seed)
    model = Model(made.opening)
    events = [("peer 1 enter 192.0.2.1", model.enter(1)), ("peer 2 enter 192.0.2.1", model.enter(2))]
    events += [made.event(model) for _ in range(EVENTS)]
    return compared(gate, seed, made, events)


def test_random_streams(gate):
    """Each reply of some hundred random streams is that of the model."""
    met = set()
    for seed in range(STREAMS):
        met |= {line.split()[1] if line.startswith("denied") else line.split()[0] for line in stream(gate, seed)}
    rules = ["A%d" % number for number in (1, 2, 3, 5, 6, 7, 8, 9, 10, 11, 12, 17, 20, 22, 23, 24, 25, 26, 27, 28, 29, 34, 35, 43, 44, 45, 46)]
    never = [word for word in rules + ["P1", "P2", "P3", "P5", "P6", "admitted", "listing", "filter", "entered", "left", "set", "refused"] if word not in met]
    same("rules that no stream met", never, [])
    same("rules that the policy does not name", [rule for rule in met if rule[0] in "AP" and rule not in TOKENS], [])
