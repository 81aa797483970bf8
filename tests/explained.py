"""`gate run --explain`: the figures behind each denial, what each event moved, and what came of the events, on standard error."""

import os
import re
import subprocess
import tempfile
import time

import examples
from bitcoin import Input, Output, Transaction, coin, number_hash, padded, payment, printed
from failing import each_growth
from gate import ROOT, SECONDS, as_bytes, lines, same, same_lines, true
from heights import block
from kinds import heavy
from moves import MOVED, Explaining, asked_often, rows

TIMES = "times 101 1000 600"
OPENING = [TIMES, "verdict * ok", "bloom 1"]
ENTER = "peer 1 enter 192.0.2.1"
MULTISIG = b"\x51" + 3 * (b"\x21\x02" + b"\x02" * 32) + b"\x53\xae"
# by the number of descendants that the opening allows
LONG_CHAIN = "A36 with it an entry would have more than %d descendants, itself among them, or more than 101000 virtual bytes of them; no fee helps"
# 101 for 1,000 virtual bytes is 8.28 for the 82 of a payment
ROUNDED_UP = ["feesroundup 1", "minrelaytxfee 101", "incrementalrelayfee 101"]
NO_VERDICT = " has no verdict; `verdict * ok` in the opening gives one for every input"
METHODS = (
    "sendrawtransaction, testmempoolaccept, submitpackage, getrawmempool, getmempoolentry, getmempoolancestors, getmempooldescendants, getmempoolinfo, getrawtransaction"
    " or gettxspendingprevout"
)
SPENT = (
    "A23 An entry of the pool spends the same outpoint, and none of its inputs has a sequence of at most 0xfffffffd, so that it may not be replaced;"
    " with mempoolfullrbf it may be, and if it has version 3 and truc is 1"
)
FORGETTING = "C6 More blocks are to be disconnected than are connected, or than 100; or more are to be forgotten than are connected"


def sent(tx):
    return "peer 1 tx 5000 " + tx.hex()


def said_of(gate, opening, events):
    """The lines on standard error but for the last and for what moved, each with its event's line, and the last line. Standard
    output is what it is without `--explain`."""
    text = lines(opening) + "---\n" + lines(events)
    done, plain = gate.run("run --explain", text), gate.run("run", text)
    same("standard output and status", (done.stdout, done.status), (plain.stdout, plain.status))
    same("standard error without --explain", plain.stderr, b"")
    said = done.stderr.decode().splitlines()
    before = "gate: line %d: "
    numbers = {before % (len(opening) + 1 + number): event for number, event in enumerate(events, 1)}
    told = []
    for line in said[:-1]:
        start = next(it for it in numbers if line.startswith(it))
        if not MOVED.fullmatch(line.encode()):
            told.append((numbers[start], line[len(start):]))
    return told, said[-1]


def explains(gate, opening, events):
    """Of each pair the event gets the reply that denies it by this rule, with these figures; a line break parts two lines of one."""
    told, _ = said_of(gate, opening, [event for event, _ in events])
    same_lines(["%s: %s" % it for it in told], ["%s: %s" % (event, line) for event, figures in events if figures for line in figures.split("\n")])


def spending(*spent, value):
    """A transaction that spends these outputs, to one output."""
    return Transaction([Input(tx.hash(), index) for tx, index in spent], [Output(value)])


def test_fees(gate):
    """What is paid, and what is asked: 82 virtual bytes at 1,000 satoshi per 1,000 of them, and at a floor of 2,000."""
    low, floor = payment(1, 99950), payment(2, 99900)
    explains(gate, OPENING + [coin(1), coin(2), coin(3)], [
        (ENTER, None),
        (sent(low), "A35 pays 50, needs 82; the least fee is 82"),
        ('user a rpc 5000 {"method":"sendrawtransaction","params":["%s"],"id":1}' % low.hex(), "A35 pays 50, needs 82; the least fee is 82"),
        ('user a rpc 5000 {"method":"testmempoolaccept","params":[["%s"]],"id":1}' % low.hex(), "A35 pays 50, needs 82; the least fee is 82"),
        ("operator floor 2000", None),
        (sent(floor), "A34 pays 100, needs 164; the least fee is 164"),
        (sent(payment(3, 100001)), "A29 coins of 100000, outputs of 100001"),
    ])


def listed(*made):
    """A call that asks about several transactions at once."""
    return 'user a rpc 5000 {"method":"testmempoolaccept","params":[[%s]],"id":1}' % ",".join('"%s"' % tx.hex() for tx in made)


def test_lists(gate):
    """Each transaction of a list that is denied, with the figures that those before it don't change; all of them are counted."""
    low, poor, first, again = payment(1, 99950), payment(3, 99990), payment(2, 99000), payment(2, 98000)
    child = spending((first, 0), value=98990)
    fee, coinless = "A35 pays %d, needs 82; the least fee is 82", "A25 input 0: no coin %s:0"
    events = [listed(low, poor, payment(9, 1000)), listed(first, child, again), sent(payment(2, 99500)), listed(low, child, again)]
    told, last = said_of(gate, OPENING + [coin(number) for number in (1, 2, 3)], [ENTER] + events)
    said = [[line for event, line in told if event == it] for it in events]
    same_lines(said[0], ["transaction 1 of 3: " + fee % 50, "transaction 2 of 3: " + fee % 10, "transaction 3 of 3: " + coinless % printed(number_hash(9))])
    # the child spends what the one before it makes, which is worth as much there, and the last one what the first one spends
    same_lines(said[1], ["transaction 2 of 3: A35 pays 10, needs 82", "transaction 3 of 3: " + SPENT])
    # now the child has no coin, and the last one could replace the entry, but not in a list
    same_lines(said[3], ["transaction 1 of 3: " + fee % 50, "transaction 2 of 3: " + coinless % first.txid(), "transaction 3 of 3: " + SPENT])
    true("all are counted: %s" % last, "1 admitted, 0 replaced, 8 denied (A23 2, A25 2, A35 4)" in last)


def test_coins(gate):
    """An outpoint without a coin, and a coinbase that is too young."""
    both = Transaction([Input(number_hash(1)), Input(number_hash(9), 7)], [Output(1000)])
    explains(gate, OPENING + [coin(1), coin(2, height=50, kind="cb")], [
        (ENTER, None),
        (sent(payment(9, 1000)), "A25 input 0: no coin %s:0" % printed(number_hash(9))),
        (sent(both), "A25 input 1: no coin %s:7" % printed(number_hash(9))),
        (sent(payment(2, 1000)), "A27 input 0: a coinbase of height 50, next height 101"),
    ])


def test_sizes_and_locks(gate):
    """Figures of the transaction by itself; the median time past of height 100 is the time of height 95."""
    small = Transaction([Input(number_hash(1))], [Output(0, b"\x6a")])
    explains(gate, OPENING + [coin(1), coin(2, 100000000)], [
        (ENTER, None),
        (sent(small), "A19 %d bytes without witnesses, needs 82" % len(small.stripped())),
        (sent(padded(100001, 2, 1000)), "A13 weight 400004, 400000 allowed"),
        (sent(payment(1, 99000, locktime=200)), "A20 locktime 200, next height 101, median time past 58000"),
        (sent(payment(1, 293)), "A17 output 0: value 293, needs 294"),
        (sent(padded(1000001, 2, 1000)), "A4 1000001 bytes without witnesses, 1000000 allowed"),
    ])


def test_outputs_that_are_not_standard(gate):
    """The first output whose script is not, by the opening's numbers; and how many carry data."""
    data, other = b"\x6a" + b"\x29" + b"\x00" * 41, b"\xac"
    one_key = b"\x51\x21\x02" + b"\x02" * 32 + b"\x51\xae"
    def paying(*scripts):
        return Transaction([Input(number_hash(1))], [Output(1000)] + [Output(0 if it == data else 1000, it) for it in scripts])
    explains(gate, OPENING + [coin(1), "datacarriersize 40", "datacarrieroutputs 2"], [
        (ENTER, None),
        (sent(paying(data)), "A16 output 1: a data script of 43 bytes, 40 allowed"),
        (sent(paying(one_key, other)), "A16 output 2: its script is not standard"),
    ])
    explains(gate, OPENING + [coin(1), "permitbaremultisig 0"], [(ENTER, None), (sent(paying(one_key)), "A16 output 1: a multisig script, and permitbaremultisig is 0")])
    for allowed in (1, 2):
        explains(gate, OPENING + [coin(1), "datacarrieroutputs %d" % allowed], [(ENTER, None), (sent(paying(*[data] * 3)), "A18 3 outputs carry data, %d allowed" % allowed)])
    explains(gate, OPENING + [coin(1), "datacarrieroutputs 3", "datacarriertotal 100"], [
        (ENTER, None),
        (sent(paying(data, one_key, data, data)), "A51 output 4: a data script of 43 bytes, 14 left"),
    ])


def test_relative_locks(gate):
    """How long the first lock is that is not met: the next height is 101, and the median time past of height 100 that of height 95."""
    def locked(*sequences):
        return Transaction([Input(number_hash(number + 1), sequence=it) for number, it in enumerate(sequences)], [Output(1000)])
    explains(gate, OPENING + [coin(1, height=95), coin(2, height=90)], [
        (ENTER, None),
        (sent(locked(7)), "A26 input 0: locked for 1 more blocks"),
        (sent(locked(6, 100)), "A26 input 1: locked for 89 more blocks"),
        # the block before the coin's has height 89, whose median time past is that of height 84: 11 * 600 seconds before
        (sent(locked(0, 1 << 22 | 13)), "A26 input 1: locked for 56 more seconds of median time past"),
    ])


def test_inputs_that_are_not_standard(gate):
    """The first input whose coin has a script of no kind, and the first one with a witness where none belongs."""
    bare = coin(2, script=b"\xac")
    spent = Transaction([Input(number_hash(1)), Input(number_hash(2))], [Output(1000)])
    pays_key_hash = coin(3, script=b"\x76\xa9\x14" + b"\x22" * 20 + b"\x88\xac")
    witnessed = Transaction([Input(number_hash(1)), Input(number_hash(3), witness=[b"\x01"])], [Output(1000)])
    explains(gate, OPENING + [coin(1), bare, pays_key_hash], [
        (ENTER, None),
        (sent(spent), "A31 input 1: the script of its coin, or its redeem script, is not standard"),
        (sent(witnessed), "A32 input 1: its witness is not standard"),
    ])
    anchor, keys = coin(2, script=b"\x51\x02\x4e\x73"), coin(3, script=MULTISIG)
    signed = Transaction([Input(number_hash(1)), Input(number_hash(2), witness=[b""])], [Output(1000)])
    counted = Transaction([Input(number_hash(1)), Input(number_hash(3), script=b"\x01\x01")], [Output(1000)])
    explains(gate, OPENING + [coin(1), anchor, keys, "maxtxlegacysigops 2"], [
        (ENTER, None),
        (sent(signed), "A31 input 1: the script of its coin, or its redeem script, is not standard"),
        (sent(counted), "A31 3 legacy signature operations, 2 allowed"),
    ])
    explains(gate, OPENING + [coin(1), anchor, "anchors 1"], [(ENTER, None), (sent(signed), "A32 input 1: its witness is not standard")])


def test_the_least_fee(gate):
    """With the fee that is told a transaction is taken, and with one satoshi less it is denied by a rule of A34 to A42."""
    first, wide = payment(1, 99000), padded(500, 2, 300)
    below = spending((first, 0), value=98000)
    both = [Input(number_hash(1)), Input(number_hash(2))]
    value = 200000
    before = [ENTER, sent(first), sent(below), sent(wide)]
    for settings in ([], ["incrementalrelayfee 0"], ["incrementalrelayfee 5000"], ["minrelaytxfee 3000"], ["minrelaytxfee 0", "incrementalrelayfee 1"], ROUNDED_UP):
        for inputs, paid in ((both[:1], 100000), (both[1:], 100000), (both, value)):
            opening = OPENING + [coin(1), coin(2)] + settings
            told, _ = said_of(gate, opening, before + [sent(Transaction(inputs, [Output(paid - 1)]))])
            least = int(re.search(r"; the least fee is (\d+)$", told[-1][1])[1])
            for fee, wanted in ((least, "admitted "), (least - 1, "denied A")):
                reply = gate.replies(opening, before + [sent(Transaction(inputs, [Output(paid - fee)]))])[-1]
                true("with a fee of %d: %s" % (fee, reply), reply.startswith(wanted))
                if wanted == "denied A":
                    true("its rule: " + reply, 34 <= int(reply.split()[1][1:]) <= 42)
    explains(gate, OPENING + [coin(1)] + ROUNDED_UP, [(ENTER, None), (sent(payment(1, 99992)), "A35 pays 8, needs 9; the least fee is 9"), (sent(payment(1, 99991)), None)])


def test_no_fee_helps(gate):
    """Where another rule fails with any fee."""
    first = payment(1, 99000)
    stranger = payment(2, 99000)
    joined = Transaction([Input(number_hash(1)), Input(stranger.hash())], [Output(198000)])
    low = spending((first, 0), value=98990)
    explains(gate, OPENING + [coin(1), coin(2)], [(ENTER, None), (sent(first), None), (sent(stranger), None),
        (sent(joined), "A38 pays 8130 per 1000 virtual bytes, needs more than the 12195 of %s; no fee helps" % first.txid())])
    explains(gate, OPENING + [coin(1), "limitancestorcount 1", "limitdescendantcount 1"], [(ENTER, None), (sent(first), None), (sent(low), "A35 pays 10, needs 82; the least fee is 82")])
    many = Transaction([Input(number_hash(1))], [Output(30000), Output(30000), Output(30000)])
    children = [spending((many, index), value=29000) for index in range(2)]
    explains(gate, OPENING + [coin(1), "limitdescendantcount 2"], [(ENTER, None), (sent(many), None)] + [(sent(tx), None) for tx in children] + [
        (sent(spending((many, 2), value=29999)), "A35 pays 1, needs 82; no fee helps"),
    ])


def test_dust_that_a_child_sweeps(gate):
    """With it a transaction may pay no fee, so that none helps where one is asked; of two outputs of dust the first is told; and so is
    dust of a parent that a child leaves."""
    def paying(*values):
        return Transaction([Input(number_hash(1))], [Output(it) for it in values])
    parent, two, sweep = paying(99800, 200), paying(99600, 200, 200), "ephemeraldust 1"
    explains(gate, OPENING + [coin(1), sweep], [
        (ENTER, None),
        (sent(parent), "A35 pays 0, needs 113; no fee helps"),
        (sent(two), "A17 output 1: value 200, needs 294"),
    ])
    explains(gate, OPENING + [coin(1), sweep, "minrelaytxfee 0"], [
        (ENTER, None),
        (sent(paying(99799, 200)), "A48 output 1 is dust, pays 1, 0 allowed"),
        (sent(parent), None),
        (sent(spending((parent, 0), value=99000)), "A49 dust %s:1 of a parent is not spent; no fee helps" % parent.txid()),
        (sent(spending((parent, 0), (parent, 1), value=99000)), None),
    ])


def test_a_sibling(gate):
    """What the sibling pays has to be paid too, and it is named where it pays no less."""
    parent = Transaction([Input(number_hash(1))], [Output(49000), Output(49000)], 3)
    first = spending((parent, 0), value=48000)
    as_much, less = spending((parent, 1), value=48000), spending((parent, 1), value=47919)
    for child in (first, as_much, less):
        child.version = 3
    explains(gate, OPENING + [coin(1), "truc 1"], [(ENTER, None), (sent(parent), None), (sent(first), None),
        (sent(as_much), "A38 pays 12195 per 1000 virtual bytes, needs more than the 12195 of %s; the least fee is 1082" % first.txid()),
        (sent(less), "A42 1081 - 1000 = 81, needs 82; the least fee is 1082"),
    ])


def test_signature_operations(gate):
    """The script of an output with several keys counts 20 operations, each four times; the witness of the input costs 1."""
    many = Transaction([Input(number_hash(1))], [Output(2000, MULTISIG)] * 201)
    explains(gate, OPENING + [coin(1, 100000000)], [(ENTER, None), (sent(many), "A33 cost 16081, 16000 allowed")])


def test_families(gate):
    """The 26th of a chain, and ancestors that take too much."""
    chain = [payment(1, 99000)]
    while len(chain) < 26:
        chain.append(spending((chain[-1], 0), value=chain[-1].outputs[0].value - 1000))
    large = padded(99000, 2, 1000)
    child = spending((large, 0), value=300)
    second = padded(2000, 3, 1000)
    second.inputs.append(Input(child.hash()))
    size = large.virtual_size() + child.virtual_size() + second.virtual_size()
    opening = OPENING + [coin(1), coin(2, 100000000), coin(3, 100000000)]
    explains(gate, opening, [(ENTER, None)] + [(sent(tx), None) for tx in chain[:-1]] + [
        (sent(chain[-1]), "A36 26 ancestors, 25 allowed; no fee helps"),
        (sent(large), None),
        (sent(child), None),
        (sent(second), "A36 ancestors of %d virtual bytes, 101000 allowed; no fee helps" % size),
    ])


def test_replacements(gate):
    """What a replacement pays beside what it replaces."""
    first, large = payment(1, 99000), padded(500, 2, 300)
    paid = 100000 - sum(it.value for it in large.outputs)
    many = [payment(number, 99000) for number in range(10, 111)]
    all_of_them = Transaction([Input(number_hash(number)) for number in range(10, 111)], [Output(1000)])
    opening = OPENING + [coin(number) for number in [1, 2] + list(range(10, 111))]
    size = len(payment(2, 0).stripped())
    explains(gate, opening, [(ENTER, None), (sent(first), None)] + [(sent(tx), None) for tx in [large] + many] + [
        (sent(payment(1, 98950)), "A42 1050 - 1000 = 50, needs %d; the least fee is %d" % (size, 1000 + size)),
        (sent(payment(2, 100000 - paid + 1)), "A41 pays %d, needs %d; the least fee is %d" % (paid - 1, paid, paid + size)),
        (sent(all_of_them), "A39 101 descendants, 100 allowed; no fee helps"),
    ])


def test_rates_and_signals(gate):
    """A rate that is no higher than that of what it would replace, and what may not be replaced."""
    first, again = payment(1, 99000), payment(1, 99000, version=1)
    firm, rival = Transaction([Input(number_hash(2), sequence=0xFFFFFFFF)], [Output(99000)]), payment(2, 90000)
    rate = 1000 * 1000 // first.virtual_size()
    explains(gate, OPENING + [coin(1), coin(2)], [
        (ENTER, None),
        (sent(first), None),
        (sent(firm), None),
        (sent(again), "A38 pays %d per 1000 virtual bytes, needs more than the %d of %s; the least fee is %d" % (rate, rate, first.txid(), 1000 + first.virtual_size())),
        (sent(rival), "A23 input 0: %s spends its coin, and does not signal replacement" % firm.txid()),
    ])


def test_families_under_a_policy(gate):
    """The number of ancestors is the opening's; where that is 1, a small transaction may have one parent all the same."""
    chain = [payment(1, 99000)]
    while len(chain) < 4:
        chain.append(spending((chain[-1], 0), value=chain[-1].outputs[0].value - 1000))
    another, large = payment(3, 99000), padded(10001, 2, 300)
    large.inputs.append(Input(another.hash()))
    three = [(sent(chain[-1]), "A36 4 ancestors, 3 allowed; no fee helps")]
    explains(gate, OPENING + [coin(1), "limitancestorcount 3"], [(ENTER, None)] + [(sent(tx), None) for tx in chain[:3]] + three)
    explains(gate, OPENING + [coin(1), "limitancestorcount 4", "limitdescendantcount 4"], [(ENTER, None)] + [(sent(tx), None) for tx in chain])
    explains(gate, OPENING + [coin(1), coin(2, 100000000), coin(3), "limitancestorcount 1"], [(ENTER, None)] + [(sent(tx), None) for tx in chain[:2] + [another]] + [
        (sent(chain[2]), "A36 3 ancestors, 2 allowed; no fee helps"),
        (sent(large), "A36 2 ancestors, 1 allowed; no fee helps"),
    ])


def test_descendants_under_a_policy(gate):
    """Where it is the descendants that are too many, the rule's sentence, also if the first try fails by the ancestors alone."""
    parent = Transaction([Input(number_hash(1))], [Output(30000), Output(30000), Output(30000)])
    children = [spending((parent, index), value=29000) for index in range(3)]
    for limits in (["limitdescendantcount 1"], ["limitdescendantcount 1", "limitancestorcount 1"]):
        explains(gate, OPENING + [coin(1)] + limits, [(ENTER, None), (sent(parent), None), (sent(children[0]), None), (sent(children[1]), LONG_CHAIN % 1)])
    explains(gate, OPENING + [coin(1), "limitdescendantcount 2"], [(ENTER, None), (sent(parent), None)] + [(sent(tx), None) for tx in children[:2]] + [
        (sent(children[2]), LONG_CHAIN % 2),
    ])


def test_full_replacement(gate):
    """What doesn't signal is replaced, and what is asked of its fee is told; without the option it is A23."""
    firm = Transaction([Input(number_hash(1), sequence=0xFFFFFFFF)], [Output(99000)])
    same_fee, short, enough = payment(1, 99000), payment(1, 98919), payment(1, 98918)
    opening, is_firm = OPENING + [coin(1)], "A23 input 0: %s spends its coin, and does not signal replacement" % firm.txid()
    explains(gate, opening + ["mempoolfullrbf 0"], [(ENTER, None), (sent(firm), None), (sent(enough), is_firm)])
    explains(gate, opening + ["mempoolfullrbf 1"], [
        (ENTER, None),
        (sent(firm), None),
        (sent(same_fee), "A38 pays 12195 per 1000 virtual bytes, needs more than the 12195 of %s; the least fee is 1082" % firm.txid()),
        (sent(short), "A42 1081 - 1000 = 81, needs 82; the least fee is 1082"),
        (sent(enough), None),
    ])


def test_verdicts(gate):
    """The input whose verdict is missing or bad."""
    two = Transaction([Input(number_hash(1)), Input(number_hash(2))], [Output(1000)])
    soft = payment(3, 99000)
    verdicts = ["verdict %s 0 ok" % two.wtxid(), "verdict %s 0 soft" % soft.wtxid()]
    explains(gate, [TIMES] + [coin(number) for number in (1, 2, 3)] + verdicts, [
        (ENTER, None),
        (sent(two), "A43 input 1 of " + two.wtxid() + NO_VERDICT),
        (sent(soft), "A44 input 0 of " + soft.wtxid()),
    ])


def test_rules_without_figures(gate):
    """The sentence of the rule."""
    tx = payment(1, 99000)
    explains(gate, OPENING + [coin(1), "rpcwhitelist a:getmempoolinfo"], [
        ("peer 2 leave", "P1 No peer entered with this number"),
        (ENTER, None),
        (sent(tx), None),
        (sent(tx), "P5 The pool has the transaction already, by its wtxid"),
        ("peer 1 tx 5000 00", "the transaction is cut behind byte 1, in the version\nA1 The bytes are not the text of a transaction"),
        ('user a rpc 5000 {"method":"getrawmempool","id":1}', "U1 The user may not call this method"),
        ("chain 101 5000", FORGETTING),
    ])


def test_learning_and_forgetting(gate):
    """The sentence of each rule on coins and verdicts that are learnt, and on blocks that are forgotten."""
    tx = payment(1, 99000)
    known = "C11 An opening coin has the outpoint, spent or not, or a connected block's transaction or an entry of the pool has the txid"
    explains(gate, OPENING + [coin(1)], [
        (ENTER, None),
        (sent(payment(3, 99000)), "A25 input 0: no coin %s:0" % printed(number_hash(3))),
        ("chain " + coin(3), None),
        (sent(payment(3, 99000)), None),
        ("chain " + coin(2, 2100000000000001), "C8 The value of the coin is above 2,100,000,000,000,000 satoshi"),
        ("chain " + coin(2, script=b"\x6a"), "C9 The script of the coin begins with 0x6a (OP_RETURN) or has more than 10,000 bytes"),
        ("chain " + coin(2, height=101), "C10 The height of the coin is above that of the opening's last block; coins of later heights are made by blocks"),
        ("chain " + coin(1), known),
        (sent(tx), None),
        ("chain coin %s 5 1 0 plain -" % tx.txid(), known),
        ("chain verdict %s 0 soft" % tx.wtxid(), None),
        ("chain verdict %s 0 ok" % tx.wtxid(), "C12 There is a verdict on this input of the transaction already"),
        ("chain forget 1", FORGETTING),
        ("chain forget 0", None),
        (sent(payment(9, 1000)), "A25 input 0: no coin %s:0" % printed(number_hash(9))),
    ])


def test_a_lock_by_time_below_the_first_height(gate):
    """A relative lock whose coin asks for a median that isn't known is the rule's sentence, as one that isn't met."""
    tx = Transaction([Input(number_hash(1), sequence=1 << 22)], [Output(99000)])
    explains(gate, OPENING + ["from 900000", coin(1, height=900000), coin(2, height=900001)], [
        (ENTER, None),
        (sent(tx), "A26 input 0: locked by time, and its coin is older than the block times of the opening"),
        (sent(Transaction([Input(number_hash(2), sequence=1 << 22)], [Output(99000)])), None),
    ])


def test_calls(gate):
    """What is wrong with a call that is answered by an error."""
    explains(gate, OPENING, [
        ("user a rpc 0 {", "the call is not valid JSON; its texts stand between double quotes"),
        ('user a rpc 0 {"method":1}', "a call is an object with a method and a list of params"),
        ('user a rpc 0 {"method":"getrawmempol"}', 'there is no such method: "getrawmempol" is unknown; is it getrawmempool?'),
        ('user a rpc 0 {"method":"getbalance"}', 'there is no such method: "getbalance" is unknown; expected ' + METHODS),
        ('user a rpc 0 {"method":"getrawmempool","params":[1]}', "getrawmempool does not take these params; expected [], [false] or [true]"),
        ('user a rpc 0 {"method":"getmempoolentry","params":["%s"]}' % printed(number_hash(1)), "no transaction in the pool has this txid"),
    ])
    params = "[[hex, ..]], [[hex, ..], maxfeerate] or [[hex, ..], maxfeerate, maxburnamount] with 1 to 25 texts"
    explains(gate, OPENING + ["packages 1"], [
        ('user a rpc 0 {"method":"submitpackage","params":[]}', "submitpackage does not take these params; expected " + params),
    ])


@heavy
def test_the_summary_without_memory(gate):
    """Whichever growth of memory is refused beside an event, the summary counts the replies that were written."""
    events = [ENTER, sent(payment(1, 99000)), sent(payment(1, 90000)), sent(payment(9, 1000))]
    opening = OPENING + [coin(1)]
    text = lines(opening) + "---\n" + lines(events)
    refused = 0
    for at in range(2, len(events) + 1):
        for growth, done in each_growth(gate.program, "run --explain", text, line=len(opening) + 1 + at):
            if done.status:
                continue
            replies, last = done.stdout.decode().splitlines(), done.stderr.decode().splitlines()[-1]
            words = {"admitted": "admitted ", "denied": "denied ", "out of memory": "fault memory"}
            counts = {word: sum(reply.startswith(front) for reply in replies) for word, front in words.items()}
            replaced = sum(int(reply.split()[-1]) for reply in replies if reply.startswith("admitted "))
            wanted = "gate: 4 events: %d admitted, %d replaced, %d denied" % (counts["admitted"], replaced, counts["denied"])
            same("growth %d beside event %d" % (growth, at), re.split(r" \(|, \d+ (?:out|lines)", last)[0], wanted)
            same("faults at growth %d beside event %d" % (growth, at), ", 1 out of memory" in last, counts["out of memory"] == 1)
            refused += 1
    true("%d growths were refused" % refused, refused >= 10)


def test_replaced_by_a_call(gate):
    """A user's transaction replaces like a peer's: the summary counts it."""
    first, second = payment(1, 99000), payment(1, 98000)
    call = 'user a rpc 5000 {"method":"%s","params":[%s],"id":1}'
    _, last = said_of(gate, OPENING + [coin(1)], [
        call % ("sendrawtransaction", '"%s"' % first.hex()), call % ("testmempoolaccept", '["%s"]' % second.hex()), call % ("sendrawtransaction", '"%s"' % second.hex()),
    ])
    same("the summary", last, "gate: 3 events: 2 admitted, 1 replaced, 0 denied, 0 lines refused; pool: 1 entry, 82 of 300000000 virtual bytes, floor 0")


def test_the_summary_of_a_living_chain(gate):
    """What was learnt and forgotten is counted, if there was any, and what was refused as a denial."""
    learnt, verdict = "chain " + coin(3), "chain verdict %s 0 ok" % payment(3, 99000).wtxid()
    for events, wanted in (
        ([learnt, learnt], "gate: 2 events: 0 admitted, 0 replaced, 1 denied (C11 1), learnt 1 coin and 0 verdicts, forgot 0 blocks, 0 lines refused"),
        ([verdict, verdict, "chain verdict * ok"], "gate: 2 events: 0 admitted, 0 replaced, 1 denied (C12 1), learnt 0 coins and 1 verdict, forgot 0 blocks, 1 line refused"),
        ([learnt, "chain " + coin(4), verdict, "chain forget 0"], "gate: 4 events: 0 admitted, 0 replaced, 0 denied, learnt 2 coins and 1 verdict, forgot 0 blocks, 0 lines refused"),
        (["chain forget 0"], "gate: 1 event: 0 admitted, 0 replaced, 0 denied, 0 lines refused"),
        (["chain forget 1"], "gate: 1 event: 0 admitted, 0 replaced, 1 denied (C6 1), 0 lines refused"),
        (["chain 0 5000 " + block(0).hex(), "chain forget 1"], "gate: 2 events: 0 admitted, 0 replaced, 0 denied, learnt 0 coins and 0 verdicts, forgot 1 block, 0 lines refused"),
        (["chain 0 5000 %s %s" % (block(0).hex(), block(1).hex()), "chain forget 2"], "gate: 2 events: 0 admitted, 0 replaced, 0 denied, learnt 0 coins and 0 verdicts, forgot 2 blocks, 0 lines refused"),
    ):
        _, last = said_of(gate, OPENING, events)
        same("the summary of %r" % events, last, wanted + "; pool: 0 entries, 0 of 300000000 virtual bytes, floor 0")


def all_told(terminal):
    """What was written to a terminal that nobody has open any more."""
    told = b""
    while True:
        try:
            part = os.read(terminal, 10000)
        except OSError:
            return told.decode()
        if not part:
            return told.decode()
        told += part


@heavy
def test_progress(gate):
    """At a terminal a run that takes more than five seconds says how far it is. It waits here for its replies to be read."""
    ours, theirs = os.openpty()
    with tempfile.TemporaryFile() as file:
        file.write(as_bytes(TIMES + "\n---\n" + 60000 * "operator bloom on\n"))
        file.seek(0)
        with subprocess.Popen(gate.words("run --explain"), stdin=file, stdout=subprocess.PIPE, stderr=theirs) as running:
            os.close(theirs)
            time.sleep(5.5)
            replies, _ = running.communicate(timeout=SECONDS)
    told = all_told(ours).splitlines()
    os.close(ours)
    same("replies", replies, 60000 * b"set\n")
    true("progress and a summary: %r" % told, len(told) == 2)
    true("progress: %r" % told[0], re.fullmatch(r"gate: [1-9]\d*00 events, [1-9]\d* a second, [1-9]\d? % of the input", told[0]))
    same("the summary", told[1].partition(":")[2].partition(":")[0], " 60000 events")


def test_the_example(gate):
    """The example of a replacement, of which one try is a satoshi short."""
    with open(os.path.join(ROOT, "examples", "replacement.txt"), "rb") as file:
        done = gate.run("run --explain", file.read())
    parent, child, instead = (it.txid() for it in (examples.PARENT, examples.CHILD, examples.spending(examples.COIN, 99670)))
    same("standard error", done.stderr.decode().splitlines(), [
        "gate: line 10: + " + parent,
        "gate: line 12: + " + child,
        "gate: line 14: A42 329 - 220 = 109, needs 110; the least fee is 330",
        "gate: line 16: - " + parent,
        "gate: line 16: - " + child,
        "gate: line 16: + " + instead,
        "gate: 6 events: 3 admitted, 2 replaced, 1 denied (A42 1), 0 lines refused; pool: 1 entry, 110 of 300000000 virtual bytes, floor 0",
    ])


def test_what_moves(gate):
    """What is told of each line of random streams is what the listings before and behind it show."""
    asked_often(Explaining(gate.program, seconds=gate.seconds))


@heavy
def test_what_moves_in_rows(gate):
    """The same of each row; its output is that of the row."""
    rows(Explaining(gate.program, seconds=gate.seconds))


@heavy
def test_what_moves_without_memory(gate):
    """Whichever growth of memory is refused beside an event, nothing is told but what it moved, and nothing of one that was not answered."""
    first, second = payment(1, 99000), payment(1, 90000)
    events = [ENTER, sent(first), sent(second)]
    opening = OPENING + [coin(1)]
    text, at = lines(opening) + "---\n" + lines(events), len(opening) + 1 + len(events)
    wanted = ["gate: line %d: %s" % (at, change) for change in ("- " + first.txid(), "+ " + second.txid())]
    refused = 0
    for growth, done in each_growth(gate.program, "run --explain", text, line=at):
        if done.status:
            continue
        told = [line for line in done.stderr.decode().splitlines() if line.startswith("gate: line %d: " % at)]
        is_fault = done.stdout.decode().splitlines()[-1] == "fault memory"
        same("growth %d" % growth, told, [] if is_fault else [line for line in wanted if line in told])
        refused += 1
    true("%d growths were refused" % refused, refused >= 3)


def test_the_summary(gate):
    """The last line counts what came of the events."""
    tx, low = payment(1, 99000), payment(2, 99950)
    told, last = said_of(gate, OPENING + [coin(1), coin(2)], [
        ENTER, sent(tx), "nonsense", "# a comment", sent(low), sent(payment(1, 90000)), sent(payment(9, 1000)), sent(payment(8, 1000)),
    ])
    same("what is told of the lines", [event for event, _ in told], ["nonsense", sent(low), sent(payment(9, 1000)), sent(payment(8, 1000))])
    same("the summary", last, "gate: 6 events: 2 admitted, 1 replaced, 3 denied (A25 2, A35 1), 1 line refused;"
         " pool: 1 entry, 82 of 300000000 virtual bytes, floor 0")
    _, last = said_of(gate, OPENING + [coin(1), coin(2)], [ENTER, sent(tx), sent(payment(2, 99000)), "x", "y"])
    same("of several", last, "gate: 3 events: 2 admitted, 0 replaced, 0 denied, 2 lines refused; pool: 2 entries, 164 of 300000000 virtual bytes, floor 0")
    _, last = said_of(gate, OPENING, [ENTER])
    same("of one", last, "gate: 1 event: 0 admitted, 0 replaced, 0 denied, 0 lines refused; pool: 0 entries, 0 of 300000000 virtual bytes, floor 0")
    _, last = said_of(gate, OPENING, [])
    same("of nothing", last, "gate: 0 events: 0 admitted, 0 replaced, 0 denied, 0 lines refused; pool: 0 entries, 0 of 300000000 virtual bytes, floor 0")
