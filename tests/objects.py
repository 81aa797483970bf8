"""`gate run --explain=json`: the same as in words, as one object a line."""

import json

from bitcoin import Input, Output, Transaction, coin, number_hash, payment, printed
from chain_model import Block
from explained import ENTER, OPENING, TIMES, sent, spending
from gate import lines, same
from model import NULL


def objects(gate, opening, events):
    """The objects of a run, but for the last, and the last; standard output is what it is without them, and so is the status."""
    text = lines(opening) + "---\n" + lines(events)
    done, plain = gate.run("run --explain=json", text), gate.run("run", text)
    same("standard output and status", (done.stdout, done.status), (plain.stdout, plain.status))
    same("the other name", gate.run("run --explain-json", text), done)
    said = [json.loads(line) for line in done.stderr.splitlines()]
    for it in said[:-1]:
        it["line"] -= len(opening) + 1
    return said[:-1], said[-1]


def block(number, *transactions):
    """A block of a coinbase and these."""
    coinbase = Transaction([Input(NULL[0], NULL[1], b"\x04" + number.to_bytes(4, "little"))], [Output(5000000000)])
    return Block(2000000 + 600 * number, [coinbase] + list(transactions))


def left(line, tx, reason):
    return {"line": line, "left": tx.txid(), "reason": reason}


def entered(line, tx, reason="admitted"):
    return {"line": line, "entered": tx.txid(), "reason": reason}


def denied(line, rule, token, **more):
    return dict({"line": line, "rule": rule, "token": token}, **more)


def test_fees(gate):
    """What is paid and what is needed, and the least fee."""
    low, first = payment(1, 99950), payment(2, 99000)
    short, again = payment(2, 98950), payment(2, 98000)
    said, last = objects(gate, OPENING + [coin(1), coin(2)], [ENTER, sent(low), sent(first), sent(short), sent(again)])
    same("objects", said, [
        denied(2, "A35", "min relay fee not met", pays=50, needs=82, least_fee=82),
        entered(3, first),
        denied(4, "A42", "insufficient fee", pays=1050, needs=1082, replaced_fees=1000, least_fee=1082, conflicts=[first.txid()]),
        left(5, first, "replaced"),
        entered(5, again),
    ])
    same("the last", last, {
        "events": 5, "admitted": 2, "replaced": 1, "denied": 2, "rules": {"A35": 1, "A42": 1}, "learnt_coins": 0, "learnt_verdicts": 0, "forgotten_blocks": 0,
        "out_of_memory": 0, "refused": 0, "entries": 1, "size": 82, "budget": 300000000, "floor": 0,
    })


def test_lists(gate):
    """An object for each transaction of a list that is denied, with its number and txid."""
    low, unknown = payment(1, 99950), payment(9, 1000)
    call = 'user a rpc 5000 {"method":"testmempoolaccept","params":[["%s","%s","%s"]],"id":1}' % (payment(2, 99000).hex(), low.hex(), unknown.hex())
    said, last = objects(gate, OPENING + [coin(1), coin(2)], [call])
    same("objects", said, [
        {"line": 1, "transaction": 2, "denied": low.txid(), "rule": "A35", "token": "min relay fee not met", "pays": 50, "needs": 82, "least_fee": 82},
        {"line": 1, "transaction": 3, "denied": unknown.txid(), "rule": "A25", "token": "bad-txns-inputs-missingorspent", "input": 0, "txid": printed(number_hash(9)), "vout": 0},
    ])
    same("counts", (last["denied"], last["rules"]), (2, {"A35": 1, "A25": 1}))


def test_lines_and_calls(gate):
    """A line that does not parse, bytes that do not decode, an error of a call, and a rule without figures."""
    said, last = objects(gate, OPENING, [ENTER, "nonsense \"x", "peer 1 tx 5000 00", "user a rpc 0 {", "peer 2 leave"])
    same("objects", said, [
        {"line": 2, "cause": '"nonsense" is unknown; expected peer, user, chain or operator'},
        {"line": 3, "cause": "the transaction is cut behind byte 1, in the version"},
        denied(3, "A1", "tx-decode", says="The bytes are not the text of a transaction"),
        {"line": 4, "error": "the call is not valid JSON; its texts stand between double quotes"},
        denied(5, "P1", "peer-unknown", says="No peer entered with this number"),
    ])
    same("refused", (last["refused"], last["denied"]), (1, 2))


def test_figures(gate):
    """Inputs, outputs and what is still to wait."""
    two = Transaction([Input(number_hash(1)), Input(number_hash(9), 7)], [Output(1000)])
    locked = Transaction([Input(number_hash(1)), Input(number_hash(2), sequence=10)], [Output(1000)])
    young = payment(3, 1000)
    said, _ = objects(gate, OPENING + [coin(1), coin(2, height=95), coin(3, height=50, kind="cb")], [ENTER, sent(two), sent(locked), sent(young), sent(payment(1, 293))])
    same("objects", said, [
        denied(2, "A25", "bad-txns-inputs-missingorspent", input=1, txid=printed(number_hash(9)), vout=7),
        denied(3, "A26", "non-BIP68-final", input=1, blocks=4),
        denied(4, "A27", "bad-txns-premature-spend-of-coinbase", input=0, coin_height=50, blocks=49),
        denied(5, "A17", "dust", output=0, value=293, least=294),
    ])


def test_dust_that_a_child_sweeps(gate):
    """The output and the fee that may not stand beside it, and the dust that a child leaves, which no fee makes up for."""
    def paying(value):
        return Transaction([Input(number_hash(1))], [Output(value), Output(200)])
    parent = paying(99800)
    said, _ = objects(gate, OPENING + [coin(1), "ephemeraldust 1", "minrelaytxfee 0"], [ENTER, sent(paying(99000)), sent(parent), sent(spending((parent, 0), value=99000))])
    same("objects", said, [
        denied(2, "A48", "dust", output=1, pays=800, most=0),
        entered(3, parent),
        denied(4, "A49", "missing-ephemeral-spends", txid=parent.txid(), vout=1, least_fee=None, parents=[parent.txid()]),
    ])


def test_families(gate):
    """Parents, and what no fee helps."""
    parent = payment(1, 99000)
    child = spending((parent, 0), value=98000)
    grandchild = spending((child, 0), value=97000)
    said, _ = objects(gate, OPENING + [coin(1), "limitancestorcount 2"], [ENTER, sent(parent), sent(child), sent(grandchild)])
    same("objects", said, [
        entered(2, parent),
        entered(3, child),
        denied(4, "A36", "too-long-mempool-chain", ancestors=3, most=2, least_fee=None, parents=[child.txid()]),
    ])


def test_why_entries_move(gate):
    """Replaced, expired, trimmed, confirmed, contradicted by a block, and returned."""
    first, second, third = payment(1, 99000), payment(2, 99000), payment(3, 98000)
    at = "peer 1 tx %d %s"
    said, _ = objects(gate, OPENING + [coin(1), coin(2), "mempoolexpiry 1"], [ENTER, at % (5000, first.hex()), at % (8601, second.hex())])
    same("expired", said, [entered(2, first), left(3, first, "expired"), entered(3, second)])
    said, _ = objects(gate, OPENING + [coin(1), coin(2), coin(3), "budget 164"], [ENTER, sent(first), sent(second), sent(third)])
    same("trimmed", said, [entered(2, first), entered(3, second), left(4, second, "trimmed"), entered(4, third)])
    rival = payment(2, 98000)
    said, _ = objects(gate, OPENING + [coin(1), coin(2)], [ENTER, sent(first), sent(second), "chain 0 70000 " + block(0, first, rival).hex()])
    same("a block", said, [entered(2, first), entered(3, second), left(4, first, "confirmed"), left(4, second, "conflict of a block")])
    said, _ = objects(gate, OPENING + [coin(1)], [ENTER, sent(first), "chain 0 70000 " + block(0, first).hex(), "chain 1 70000 " + block(1).hex()])
    same("a block that goes", said, [entered(2, first), left(3, first, "confirmed"), entered(4, first, "returned")])


def test_an_opening_that_fails(gate):
    """It is told in words, as without objects."""
    same("an opening", gate.run("run --explain=json", TIMES + "\nbloom 2\n"), gate.run("run", TIMES + "\nbloom 2\n"))
