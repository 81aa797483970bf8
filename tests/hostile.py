"""Hostile inputs: texts that are cut, counts that claim too much, and transactions at and past each limit of size."""

import resource

from bitcoin import WITNESS_KEY_HASH, Input, Output, Transaction, coin, compact, number_hash, payment
from gate import lines, same, same_lines, true
from sizes import opening, submitted
from model import NULL

MEGABYTE = 1 << 20
DENIED = "denied A1 keep tx-decode"
MONEY = 2100000000000000
KEY_HASH = bytes.fromhex("76a914" + "22" * 20 + "88ac")
SCRIPT_HASH = bytes.fromhex("a914" + "22" * 20 + "87")
WITNESS_SCRIPT_HASH = bytes.fromhex("0020" + "22" * 32)
TAPROOT = bytes.fromhex("5120" + "22" * 32)
KEY = b"\x21\x02" + b"\x33" * 32
CHECKSIG = b"\xac"


def shapes():
    """Transactions whose counts and lengths have each of their forms."""
    yield payment(1, 1000)
    yield Transaction([Input(number_hash(1), witness=[b"\x30" * 72, b"\x02" * 33])], [Output(1000)])
    yield Transaction([Input(number_hash(1), script=b"\x4d\x03\x01" + b"\x51" * 259), Input(number_hash(2), witness=[b"", b"\x01" * 260])], [Output(1), Output(2, b"")])
    yield Transaction([Input(number_hash(it)) for it in range(260)], [Output(5)])
    yield Transaction([Input(number_hash(1), witness=[b"\x51"] * 260)], [Output(it, b"") for it in range(260)])


def test_every_cut_of_each_shape(gate):
    """No proper part of a transaction's bytes from its first byte on is a transaction, and neither is it with a byte behind it."""
    for tx in shapes():
        text = tx.text()
        wrong = [text[:end] for end in range(1, len(text))] + [text + bytes([it]) for it in (0, 1, 255)] + [text + text]
        events = ["peer 1 enter 192.0.2.1"] + ["peer 1 tx 5000 " + it.hex() for it in wrong] + ["peer 1 tx 5000 " + text.hex(), "peer 1 leave"]
        found = gate.replies(opening(), events)
        same_lines(found[:-2], ["entered none"] + [DENIED] * len(wrong))
        true("the whole of %d bytes: %s" % (len(text), found[-2]), found[-2].startswith("denied A") and not found[-2].startswith("denied A1 "))


def claims():
    """Texts in which a count or a length claims more than there is, at each place that has one."""
    version, locktime, point = b"\x02\x00\x00\x00", bytes(4), number_hash(1) + bytes(4)
    one, paid = b"\x01" + point + b"\x00" + b"\xfd\xff\xff\xff", b"\x01" + Output(1000).text()
    for number in (0x02000000, 0x02000001, 0xFFFFFFFF, 0x100000000, 2**64 - 1):
        many = compact(number)
        yield version + many
        yield version + many + one[1:]
        yield version + b"\x01" + point + many + bytes(100)
        yield version + one + many + paid[1:]
        yield version + one + b"\x01" + bytes(8) + many + bytes(100)
        yield version + b"\x00\x01" + many + one[1:]
        yield version + b"\x00\x01" + one + paid + many + bytes(100)
        yield version + b"\x00\x01" + one + paid + b"\x01" + many + bytes(100)
        yield version + b"\x00\x01" + one + paid + b"\x02\x00" + many + locktime


def test_claimed_counts(gate):
    """A count that claims much takes no memory for it: each is A1, in an address space of 12 megabytes."""
    limit = (12 * MEGABYTE, 12 * MEGABYTE)
    texts = [it.hex() for it in claims()]
    block = "00" * 80
    events = ["peer 1 enter 192.0.2.1"] + ["peer 1 tx 5000 " + it for it in texts]
    events += ['user a rpc 0 {"method":"sendrawtransaction","params":["%s"],"id":1}' % it for it in texts]
    events += ["chain 0 5000 " + block + it for it in ["fe00000002", "fe01000002", "ff" * 9] + ["01" + it for it in texts]]
    done = gate.run("run", lines(opening()) + "---\n" + lines(events), preexec_fn=lambda: resource.setrlimit(resource.RLIMIT_AS, limit))
    told = 'rpc 500 {"error":{"code":-22,"message":"tx-decode","rule":"A1"},"id":1,"result":null}'
    same("status", (done.status, done.stderr), (0, b""))
    same_lines(done.stdout.decode().splitlines(), ["entered none"] + [DENIED] * len(texts) + [told] * len(texts) + ["refused C1 block-decode"] * (len(texts) + 3))


def pushed(data):
    """One push of these bytes."""
    length = len(data)
    if length < 0x4C:
        return bytes([length]) + data
    if length < 0x100:
        return b"\x4c" + bytes([length]) + data
    return b"\x4d" + length.to_bytes(2, "little") + data


def multisig(keys):
    return b"\x51" + KEY * keys + bytes([0x50 + keys]) + b"\xae"


class Limits:
    """Transactions at a limit and past it, each with coins of its own, and what is answered."""

    def __init__(self):
        self.coins, self.events, self.wanted, self.number = [], [], [], 0

    def take(self, script=WITNESS_KEY_HASH, value=10000000):
        self.number += 1
        self.coins.append(coin(self.number, value, script=script))
        return number_hash(self.number)

    def admitted(self, tx, fee, cost):
        self.events.append(submitted(tx))
        self.wanted.append("admitted %s fee %d vsize %d replaced 0" % (tx.txid(), fee, tx.virtual_size(cost)))

    def denied(self, tx, rule):
        self.events.append(submitted(tx))
        self.wanted.append("denied " + rule)

    def spends(self, script, rule, cost, at, past):
        """One input that spends a coin of this script; `at` and `past` are its script and its witness."""
        for holds, (unlocking, witness) in ((True, at), (False, past)):
            tx = Transaction([Input(self.take(script), script=unlocking, witness=witness)], [Output(9000000)])
            if holds:
                self.admitted(tx, 1000000, cost)
            else:
                self.denied(tx, rule)

    def pays(self, rule, cost, at, past):
        """Outputs of 1,000 satoshi with these scripts, to which a key hash pays."""
        for holds, scripts in ((True, at), (False, past)):
            tx = Transaction([Input(self.take(KEY_HASH))], [Output(1000, script) for script in scripts])
            if holds:
                self.admitted(tx, 10000000 - 1000 * len(scripts), cost)
            else:
                self.denied(tx, rule)

    def dust(self, script, least):
        for value in (least, least - 1):
            tx = Transaction([Input(self.take(KEY_HASH))], [Output(value, script), Output(9000000)])
            if value == least:
                self.admitted(tx, 1000000 - value, 4 * script.endswith(CHECKSIG))
            else:
                self.denied(tx, "A17 keep dust")


def unlocking(limits):
    """What unlocks a coin."""
    key, signed = WITNESS_KEY_HASH, [b"\x30" * 72, KEY[1:]]
    limits.spends(key, "A14 keep scriptsig-size", 1, (b"\x51" * 1650, signed), (b"\x51" * 1651, signed))
    limits.spends(key, "A15 keep scriptsig-not-pushonly", 1, (b"\x60", signed), (b"\x61", signed))
    limits.spends(key, "A15 keep scriptsig-not-pushonly", 1, (b"\x03abc", signed), (b"\x04abc", signed))
    nonstandard = "A31 keep bad-txns-nonstandard-inputs"
    limits.spends(SCRIPT_HASH, nonstandard, 60, (pushed(CHECKSIG * 15), []), (pushed(CHECKSIG * 16), []))
    limits.spends(SCRIPT_HASH, nonstandard, 0, (pushed(b"\x51" * 520), []), (pushed(b"\x51" * 521), []))
    limits.spends(SCRIPT_HASH, nonstandard, 0, (pushed(b"\x01" * 520) + b"\x51", []), (pushed(b"\x01" * 521) + b"\x51", []))
    limits.spends(SCRIPT_HASH, nonstandard, 0, (b"\x00" * 999 + b"\x51", []), (b"\x00" * 1000 + b"\x51", []))
    witness = "A32 keep bad-witness-nonstandard"
    limits.spends(WITNESS_SCRIPT_HASH, witness, 0, (b"", [b"\x51" * 3600]), (b"", [b"\x51" * 3601]))
    limits.spends(WITNESS_SCRIPT_HASH, witness, 0, (b"", [b"\x01" * 80, b"\x51"]), (b"", [b"\x01" * 81, b"\x51"]))
    limits.spends(WITNESS_SCRIPT_HASH, witness, 0, (b"", [b"\x01"] * 100 + [b"\x51"]), (b"", [b"\x01"] * 101 + [b"\x51"]))
    limits.spends(TAPROOT, witness, 0, (b"", [b"\x01" * 80, b"\x51", b"\xc0" + bytes(32)]), (b"", [b"\x01" * 81, b"\x51", b"\xc0" + bytes(32)]))
    limits.spends(TAPROOT, witness, 0, (b"", [b"\x01" * 81, b"\x51", b"\xc2" + bytes(32)]), (b"", [b"\x51", b"\x50"]))


def paying(limits):
    """What is paid to."""
    limits.pays("A16 keep scriptpubkey", 0, [b"\x6a" + pushed(bytes(80))], [b"\x6a" + pushed(bytes(81))])
    limits.pays("A16 keep scriptpubkey", 80, [multisig(3)], [multisig(4)])
    limits.pays("A18 keep multi-op-return", 0, [b"\x6a", WITNESS_KEY_HASH], [b"\x6a", b"\x6a"])
    limits.pays("A33 keep bad-txns-too-many-sigops", 16000, [multisig(1)] * 199 + [KEY_HASH] * 20, [multisig(1)] * 199 + [KEY_HASH] * 21)
    # the least outputs of Bitcoin Core's default relay policy
    for script, least in ((KEY_HASH, 546), (SCRIPT_HASH, 540), (WITNESS_KEY_HASH, 294), (WITNESS_SCRIPT_HASH, 330), (TAPROOT, 330)):
        limits.dust(script, least)


def amounts(limits):
    """Values and their sums; the coins of two inputs."""
    one = lambda *values: Transaction([Input(limits.take(value=MONEY))], [Output(value) for value in values])
    limits.denied(one(MONEY), "A35 keep min relay fee not met")
    limits.denied(one(MONEY + 1), "A6 keep bad-txns-vout-toolarge")
    limits.denied(one(MONEY - 1000, 1000), "A35 keep min relay fee not met")
    limits.denied(one(MONEY - 1000, 1001), "A7 keep bad-txns-txouttotal-toolarge")
    limits.denied(one(2**63 - 1), "A6 keep bad-txns-vout-toolarge")
    limits.denied(one(-1), "A5 keep bad-txns-vout-negative")
    limits.denied(one(-(2**63)), "A5 keep bad-txns-vout-negative")
    for second, holds in ((1000, True), (1001, False)):
        tx = Transaction([Input(limits.take(value=MONEY - 1000)), Input(limits.take(value=second))], [Output(MONEY - 1000000)])
        if holds:
            limits.admitted(tx, 1000000, 2)
        else:
            limits.denied(tx, "A28 keep bad-txns-inputvalues-outofrange")


def shaped(limits):
    """A coinbase's script, and the least size."""
    for length, rule in ((1, "A9 keep bad-cb-length"), (2, "A11 keep coinbase"), (100, "A11 keep coinbase"), (101, "A9 keep bad-cb-length")):
        limits.denied(Transaction([Input(*NULL, script=b"\x51" * length)], [Output(1000)]), rule)
    small = Transaction([Input(limits.take())], [Output(9000000, b"\x51\x13" + bytes(19))])
    same("stripped size", len(small.stripped()), 81)
    limits.denied(small, "A19 keep tx-size-small")
    exact = Transaction([Input(limits.take())], [Output(9000000)])
    same("stripped size", len(exact.stripped()), 82)
    limits.admitted(exact, 1000000, 1)


def test_limits_of_a_transaction(gate):
    """At each limit it passes, and past it it is denied; a peer with noban stays whatever it sends."""
    for part in (unlocking, paying, amounts, shaped):
        limits = Limits()
        part(limits)
        found = gate.replies(["whitelist noban@192.0.2.1"] + opening(*limits.coins), ["peer 1 enter 192.0.2.1"] + limits.events)
        same_lines(found, ["entered noban,download"] + limits.wanted)
