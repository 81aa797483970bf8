"""Deep reorganisations, and the deepest JSON on small stacks."""

import resource

from bitcoin import Input, Output, Transaction, coin, compact, number_hash, payment
from gate import lines, same, same_lines
from growths import ASKED, row
from heights import block
from kinds import long
from sizes import ENTER, admitted, opening, submitted

KILOBYTE = 1 << 10
DEEPEST = 127
RPC = 'rpc 200 {"error":null,"id":1,"result":%s}'


def transaction_of(event):
    """The hexadecimal of a submission."""
    return event.split(" ")[-1]


def block_of(number, digits):
    """A block of a coinbase and transactions."""
    bare = block(number)
    text = bare.hex()
    head, coinbase = text[:160], text[162:]
    return head + compact(1 + len(digits)).hex() + coinbase + "".join(digits)


def test_a_block_that_spends_what_ninety_nine_rest_on(gate):
    """A block takes four coins, and with them the families of 99 entries; when it goes, its transaction comes back, and none of them."""
    head, events, wanted = row("replacement-of-ninety-nine")
    replacement, listing, size = transaction_of(events[-2]), wanted[-1], wanted[-2].split(" ")[1]
    chained = block_of(1, [replacement])
    found = gate.replies(head, events[:-2] + ["chain 0 5000 " + chained, ASKED % ("getrawmempool", ""), "chain 1 5000", ASKED % ("getrawmempool", ""), "chain 0 5000 " + chained])
    same_lines(found[: len(wanted) - 2], wanted[:-2])
    same_lines(found[len(wanted) - 2 :], ["chain 101 removed 99 entered 0", RPC % "[]", "chain 100 removed 0 entered 1", RPC % ('["%s"]' % size), "chain 101 removed 1 entered 0"])
    same("the listing of the row", RPC % ('["%s"]' % size), listing)


def test_a_hundred_blocks_and_one_more(gate):
    """At most a hundred blocks go at once: 101 are refused and nothing changes, 100 go, and come again."""
    blocks = [block(number).hex() for number in range(101)]
    tip = ("peer 1 headers 0", "headers 1 %d")
    gate.answers(["times 101 1000 600"], [
        ENTER,
        ("chain 0 5000 " + " ".join(blocks), "chain 201 removed 0 entered 0"),
        ("chain 101 5000", "refused C6 no-undo"),
        ("chain 101 5000 " + " ".join(blocks), "refused C6 no-undo"),
        (tip[0], tip[1] % 201),
        ("chain 100 5000", "chain 101 removed 0 entered 0"),
        (tip[0], tip[1] % 101),
        ("chain 0 5000 " + " ".join(blocks[1:]), "chain 201 removed 0 entered 0"),
        ("chain 100 5000 " + " ".join(blocks[1:]), "chain 201 removed 0 entered 0"),
        ("chain 9007199254740991 5000", "refused C6 no-undo"),
        (tip[0], tip[1] % 201),
    ])


def over(gate, count):
    """A block that confirms one of so many entries, and contradicts another, goes and comes again."""
    made = [payment(number, 99000) for number in range(1, count + 1)]
    other = payment(2, 98000)
    chained = block_of(1, [made[0].hex(), other.hex()])
    events = [ENTER] + [(submitted(tx), admitted(tx, 1000, 1)) for tx in made]
    events += [("chain 0 5000 " + chained, "chain 101 removed 2 entered 0"), ("chain 1 5000", "chain 100 removed 0 entered 2")]
    listed = [tx.txid() for tx in made[2:]] + [made[0].txid(), other.txid()]
    events += [("peer 1 mempool", "listing %d %s" % (count, " ".join(listed)))]
    events += [("chain 0 5000 " + chained, "chain 101 removed 2 entered 0"), ("peer 1 mempool", "listing %d %s" % (count - 2, " ".join(listed[:-2])))]
    gate.answers(opening(*[coin(number) for number in range(1, count + 1)]), events)


def test_a_reorganisation_over_a_thousand(gate):
    over(gate, 1000)


@long
def test_a_reorganisation_over_a_hundred_thousand(gate):
    over(gate, 100000)


def test_a_chain_of_a_thousand_comes_back(gate):
    """A chain of a thousand, which the opening's limits allow, is confirmed and comes back whole, and then its first alone above
    the others."""
    made, spent, value = [], number_hash(1), 10**9
    for _ in range(1000):
        value -= 1000
        made.append(Transaction([Input(spent)], [Output(value)]))
        spent = made[-1].hash()
    listed = [tx.txid() for tx in made]
    listing = "listing 1000 "
    limits = ["limitancestorcount 1000", "limitdescendantcount 1000"]
    events = [ENTER] + [(submitted(tx), admitted(tx, 1000)) for tx in made]
    events += [("chain 0 5000 " + block_of(1, [tx.hex() for tx in made]), "chain 101 removed 1000 entered 0"), ("peer 1 mempool", "listing 0")]
    events += [("chain 1 5000", "chain 100 removed 0 entered 1000"), ("peer 1 mempool", listing + " ".join(listed))]
    events += [("chain 0 5000 " + block_of(1, [made[0].hex()]), "chain 101 removed 1 entered 0")]
    events += [("chain 1 5000", "chain 100 removed 0 entered 1"), ("peer 1 mempool", listing + " ".join(listed[1:] + listed[:1]))]
    gate.answers(opening(*limits, coin(1, 10**9)), events)


def test_a_payment_to_many_entries_goes(gate):
    """A block that pays to 1,600 entries goes: its payment has too many descendants to come back, so they leave too."""
    value = 10000
    paying = Transaction([Input(number_hash(1))], [Output(value)] * 1600)
    made = [Transaction([Input(paying.hash(), index)], [Output(value - 1000)]) for index in range(1600)]
    events = [ENTER, ("chain 0 5000 " + block_of(1, [paying.hex()]), "chain 101 removed 0 entered 0")]
    events += [(submitted(tx), admitted(tx, 1000)) for tx in made]
    events += [("chain 1 5000", "chain 100 removed 1600 entered 0"), ("peer 1 mempool", "listing 0")]
    gate.answers(opening(coin(1, 10**9)), events)


def nested(depth):
    """A call beside whose keys stand lists in one another, with the call itself so many deep."""
    return 'user a rpc 0 {"method":"getrawmempool","x":%s,"id":1}' % ("[" * (depth - 1) + "]" * (depth - 1))


def on_a_stack(size):
    limit = (size * KILOBYTE, resource.getrlimit(resource.RLIMIT_STACK)[1])
    return lambda: resource.setrlimit(resource.RLIMIT_STACK, limit)


def test_small_stacks(gate):
    """The deepest JSON is answered by a run on a stack of 128 KB, and by 64 lanes, each on a thread with a stack of 160 KB."""
    head = lines(["times 1 0 0"])
    for depth, reply in ((DEEPEST, RPC % "[]"), (DEEPEST + 1, 'rpc 500 {"error":{"code":-32700,"message":"Parse error"},"id":null,"result":null}')):
        done = gate.run("run", head + "---\n" + nested(depth) + "\n", preexec_fn=on_a_stack(128))
        same("a run, %d deep" % depth, (done.status, done.stdout.decode(), done.stderr), (0, reply + "\n", b""))
        done = gate.run("lanes", head + ("---\n" + nested(depth) + "\n") * 64, preexec_fn=on_a_stack(160))
        wanted = "".join("lane %d\n%s\n" % (number, reply) for number in range(1, 65)) + "settled 64\n"
        same("64 lanes, %d deep" % depth, (done.status, done.stdout.decode(), done.stderr), (0, wanted, b""))
