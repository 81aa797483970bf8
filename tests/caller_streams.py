"""Random whitelists, lists of methods, peers and users, each reply next to that of the plain model."""

import json
from collections import Counter
from dataclasses import asdict

from bitcoin import Input, Output, Transaction, printed
from callers import METHODS, CallerModel, Settings
from gate import same, true
from random_streams import Stream, compared, filter_rate

STREAMS = 300
EVENTS = 88
ADDRESSES = ("192.0.2.1", "10.1.2.3", "10.255.0.1", "::ffff:a01:203", "2001:db8::1", "2001:DB8:0:0:8:800:200C:417A", "::1", "0.0.0.0", "255.255.255.255", "fe80::")
SUBNETS = ("192.0.2.1", "192.0.2.0/24", "10.0.0.0/8", "10.1.2.3/255.255.0.0", "10.1.2.3/31", "0.0.0.0/0", "2001:db8::/32", "2001:db8::1", "::/0", "::1/128", "10.1.0.0/016")
WORDS = ("bloomfilter", "bloom", "noban", "forcerelay", "relay", "mempool", "download", "addr", "all", "")
USERS = ("a", "b", "c", "A", "user:x", "-")
SWITCHES = ("bloom", "upload", "historic", "ibd")
IDS = (None, 0, 1, 18446744073709551615, -1, -9223372036854775808, "", "x", "\u00e9\n", 7)
# how often all streams together have to meet each of these
FLOORS = {
    "P1": 50, "P2": 300, "P3": 500, "P4": 100, "P5": 30, "P6": 50, "P7": 40, "P8": 50, "P9": 200, "P10": 10, "P11": 300, "U1": 300,
    "A23": 60, "A36": 5, "relay": 5, "close": 200, "admitted": 100, "block": 100, "headers": 100, "listing": 100, "filter": 300, "entered": 300, "set": 500,
    "200": 1000, "404": 50, "500": 500, "-22": 20, "-25": 20, "-26": 100, "-5": 200,
}


class Callers(Stream):
    """An opening with whitelists, and callers of all kinds, of one seed."""

    def transaction(self):
        """Most of them have nothing odd."""
        if self.random.random() < 0.15:
            return super().transaction()
        outpoint = self.random.choice(self.outpoints)
        outputs = [Output(self.random.choice((1000, 40000, 45000, 49000))) for _ in range(self.random.choice((1, 2, 2)))]
        return Transaction([Input(outpoint[0], outpoint[1], sequence=self.random.choice((0xFFFFFFFD, 0xFFFFFFFF)), witness=[b"\x30" * 72, b"\x02" * 33])], outputs)

    def opened(self):
        told, opening = super().opened()
        if self.random.random() < 0.7:
            opening.times += [opening.times[-1] + 700000] * self.random.randint(0, 3)
            told = ["times 1 %d 0" % time for time in opening.times]
        draw = self.random
        settings = Settings(**{name: getattr(opening, name) for name in vars(opening)})
        settings.whitelist = [self.entry() for _ in range(draw.choice((0, 1, 1, 2, 3)))]
        settings.rpcwhitelist = [self.methods() for _ in range(draw.choice((0, 0, 1, 2, 4)))]
        for name in ("relay", "forcerelay", "default", "blocksonly"):
            setattr(settings, name, draw.choice((None, None, False, True)))
        if draw.random() < 0.7:
            settings.verdicts = {"*": "ok"}
        if draw.random() < 0.7:
            settings.budget = Settings.budget
        return told, settings

    def entry(self):
        words = [self.random.choice(WORDS) for _ in range(self.random.randint(1, 3))]
        return self.random.choice(("", ",".join(words) + "@")) + self.random.choice(SUBNETS)

    def methods(self):
        words = [self.random.choice(METHODS + ("", "foo")) for _ in range(self.random.randint(0, 6))]
        return self.random.choice(USERS[:4]) + self.random.choice(("", ":" + self.random.choice(", ").join(words)))

    def opening_lines(self):
        opening = self.opening
        told = [line for line in super().opening_lines()]
        told += ["whitelist " + entry for entry in opening.whitelist]
        settings = {"whitelistrelay": opening.relay, "whitelistforcerelay": opening.forcerelay, "rpcwhitelistdefault": opening.default, "blocksonly": opening.blocksonly}
        more = ["%s %d" % (name, is_on) for name, is_on in settings.items() if is_on is not None]
        more += ["rpcwhitelist " + entry for entry in opening.rpcwhitelist]
        place = self.random.randint(0, len(told))
        return more[:1] + told[:place] + more[1:] + told[place:]

    # --- events

    def event(self, model):
        kind = self.random.choice(("enter", "peer", "submit", "submit", "package", "block", "headers", "mempool", "fee_filter", "operator", "call", "call", "call"))
        return getattr(self, kind)(model, self.caller(model))

    def caller(self, model):
        """A peer, most often one that is open."""
        open_ones = [peer for peer, session in model.sessions.items() if session.is_open]
        return self.random.choice(open_ones) if open_ones and self.random.random() < 0.8 else self.random.randint(1, 20)

    def enter(self, model, peer):
        peer = self.random.choice((peer, self.random.randint(1, 20)))
        address = self.random.choice(ADDRESSES)
        return "peer %d enter %s" % (peer, address), model.enter(peer, address)

    def peer(self, model, peer):
        return super().event(model) if self.random.random() < 0.8 else ("peer %d leave" % peer, model.leave(peer))

    def submit(self, model, peer):
        tx, digits = self.submission(model)
        return "peer %d tx 5000 %s" % (peer, digits), model.submit(peer, 5000, tx)

    def package(self, model, peer):
        made = [self.submission(model) for _ in range(2)]
        return "peer %d package 5000 %s" % (peer, " ".join(digits for _, digits in made)), model.package(peer, 5000, [tx for tx, _ in made])

    def block(self, model, peer):
        height = self.height(model)
        return "peer %d getblock %d" % (peer, height), model.block(peer, height)

    def headers(self, model, peer):
        height = self.height(model)
        return "peer %d headers %d" % (peer, height), model.headers(peer, height)

    def mempool(self, model, peer):
        return "peer %d mempool" % peer, model.mempool(peer)

    def fee_filter(self, model, peer):
        rate = filter_rate(self.random, model.pool)
        return "peer %d feefilter %d" % (peer, rate), model.fee_filter(peer, rate)

    def operator(self, model, peer):
        name, is_on = self.random.choice(SWITCHES), self.random.random() < 0.4
        return "operator %s %s" % (name, "on" if is_on else "off"), model.switch(name, is_on)

    def call(self, model, peer):
        """A call, and the values that its parameters stand for."""
        user, method = self.random.choice(USERS), self.random.choice(METHODS * 3 + ("foo", "GetRawMempool", ""))
        told, values = self.parameters(model, method)
        call = {"method": method, "id": self.random.choice(IDS)}
        if told or self.random.random() < 0.5:
            call["params"] = told
        keys = list(call)
        self.random.shuffle(keys)
        text = json.dumps({key: call[key] for key in keys}, ensure_ascii=self.random.random() < 0.5)
        return "user %s rpc 5000 %s" % (user, text), model.call(user, 5000, {**call, "params": values})

    def parameters(self, model, method):
        if method == "sendrawtransaction":
            tx, digits = self.submission(model)
            return [digits], [tx]
        if method == "testmempoolaccept":
            made = self.submissions(model)
            return [[digits for _, digits in made]], [[tx for tx, _ in made]]
        if method in ("getmempoolentry", "getmempoolancestors", "getmempooldescendants", "getrawtransaction"):
            txid = self.txid(model)
            more = [False] if method == "getrawtransaction" and self.random.random() < 0.3 else []
            return [self.random.choice((txid, txid.upper()))] + more, [txid] + more
        if method == "gettxspendingprevout":
            points = [self.point(model) for _ in range(self.random.choice((1, 1, 2, 5)))]
            return [points], [points]
        verbose = [self.random.random() < 0.5] if method == "getrawmempool" and self.random.random() < 0.6 else []
        return verbose, verbose

    def submissions(self, model):
        """One transaction, or several, of which some spend outputs of those before them."""
        made = [self.submission(model) for _ in range(self.random.choice((1, 1, 1, 2, 3, 6)))]
        for place in range(1, len(made)):
            parent = self.random.choice(made[:place])[0]
            if parent is not None and parent.outputs and self.random.random() < 0.5:
                index = self.random.randrange(len(parent.outputs))
                child = Transaction([Input(parent.hash(), index, sequence=self.sequence())], [Output(max(294, parent.outputs[index].value - 150))])
                made[place] = child, child.hex()
        return made

    def point(self, model):
        """An outpoint that an entry spends or makes, or that is in no transaction of the pool."""
        spent = [(printed(hash), index) for entry in model.pool for hash, index in sorted(entry.spent)]
        made = [(entry.tx.txid(), index) for entry in model.pool for index in range(len(entry.tx.outputs))]
        txid, index = self.random.choice(self.random.choice([points for points in (spent, made) if points] + [[(self.txid(model), self.random.choice((0, 7, 2147483647)))]]))
        return {"txid": txid, "vout": index}

    def txid(self, model):
        known = [entry.tx.txid() for entry in model.pool]
        return self.random.choice(known) if known and self.random.random() < 0.8 else self.random.choice(self.transactions).txid()

    def submission(self, model):
        """A transaction, or None, with its digits: often one that spends an output of the pool."""
        tx = self.random.choice(self.transactions)
        if model.pool and self.random.random() < 0.4:
            parent = self.random.choice(model.pool)
            index = self.random.randrange(len(parent.tx.outputs))
            tx = Transaction([Input(parent.hash, index, sequence=self.sequence())], [Output(max(294, parent.tx.outputs[index].value - 150))])
        if self.random.random() < 0.05:
            return None, self.random.choice(("zz", "0", tx.hex()[:-2], tx.hex() + "00"))
        return tx, tx.hex()

    def height(self, model):
        return self.random.choice((0, 1, model.tip - 1 if model.tip else 0, model.tip, model.tip + 1, 4294967295))


def words_of(reply):
    """What a reply shows that was met."""
    words = reply.split()
    if words[0] == "denied":
        return [words[1], words[2]]
    if words[0] != "rpc":
        return [words[0]]
    if words[1] == "403":
        return ["U1"]
    error = json.loads(reply[8:])["error"]
    return [words[1]] + ([str(error["code"])] if error else [])


def stream(gate, seed):
    made = Callers(seed)
    model = CallerModel(made.opening)
    events = [made.enter(model, peer) for peer in (1, 2, 3)]
    events += [made.event(model) for _ in range(EVENTS)]
    return compared(gate, seed, made, events)


def test_callers(gate):
    """Each reply to random peers and users is that of the model, and each rule on callers is met."""
    met = Counter()
    for seed in range(STREAMS):
        for reply in stream(gate, seed):
            met.update(words_of(reply))
    for word, least in FLOORS.items():
        true("%s was met %d times, and has to be met %d times" % (word, met[word], least), met[word] >= least)
