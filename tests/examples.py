"""The files of examples/ on permissions, policies, RPC, a package, a payment of one's own, a living chain, lanes and rounds stand as they are made here,
and each event gets the reply that is told."""

import os

from bitcoin import Input, Output, Transaction, WITNESS_KEY_HASH, printed
from callers import InOrder, json_text
from chain_model import Block
from gate import ROOT, lines, same, same_lines, true
from model import NULL

COIN = b"\x11" * 32


def spending(hash, value):
    return Transaction([Input(hash, witness=[b"\x30" * 72, b"\x02" * 33])], [Output(value)])


PARENT = spending(COIN, 99890)
CHILD = spending(PARENT.hash(), 99780)
CHAIN = ["times 101 1000 600", "coin %s 0 100000 1 plain %s" % (printed(COIN), WITNESS_KEY_HASH.hex()), "verdict * ok"]


def admitted(tx):
    return "admitted %s fee 110 vsize 110 replaced 0" % tx.txid()


def permissions():
    """An opening, and events: what is said of each, its line, and its reply."""
    opening = ["# what peers may do by their addresses; blocks only, so that a peer needs relay to submit"] + CHAIN + [
        "blocksonly 1",
        "# a network of our own lists the pool, and is not disconnected for what it asks",
        "whitelist noban,mempool@10.0.0.0/8",
        "# one machine in it may submit too, and has what it sends relayed again",
        "whitelist forcerelay@10.1.2.3",
        "# an entry without words: noban, mempool and download, and relay if blocksonly is off",
        "whitelist 2001:db8::/32",
    ]
    return opening, [
        ("a stranger", "peer 1 enter 192.0.2.1", "entered none"),
        ("it may not submit, and is disconnected, before its transaction is read", "peer 1 tx 5000 " + PARENT.hex(), "denied P4 close blocks-only"),
        ("a number is taken for good", "peer 1 enter 192.0.2.1", "denied P3 keep peer-known"),
        ("the flags of both entries that match: noban brings download, and forcerelay relay", "peer 2 enter 10.1.2.3", "entered noban,forcerelay,relay,mempool,download"),
        ("it submits", "peer 2 tx 5000 " + PARENT.hex(), admitted(PARENT)),
        ("and again: it is denied, and relayed", "peer 2 tx 5000 " + PARENT.hex(), "denied P5 relay txn-already-in-mempool"),
        ("the same network, as an IPv4 address mapped into IPv6", "peer 3 enter ::ffff:a00:1", "entered noban,mempool,download"),
        ("it may list the pool", "peer 3 mempool", "listing 1 " + PARENT.txid()),
        ("it asks not to be told of what pays less than 2,000 satoshi per 1,000 virtual bytes", "peer 3 feefilter 2000", "filter 2000"),
        ("so it isn't told of this", "peer 3 mempool", "listing 0"),
        ("another network", "peer 4 enter 2001:db8::1", "entered noban,mempool,download"),
        ("the node makes its initial download", "operator ibd on", "set"),
        ("download serves headers all the same, those above height 0", "peer 4 headers 0", "headers 1 100"),
        ("a stranger", "peer 5 enter 192.0.2.2", "entered none"),
        ("is not served", "peer 5 headers 0", "denied P8 keep headers-during-download"),
        ("blocks are", "peer 5 getblock 100", "block 100 61000"),
        ("a listing is for flags alone while bloom filters are off", "peer 5 mempool", "denied P6 close mempool-no-bloom"),
    ]


def policies():
    """An opening with limits of its own and full replacement."""
    opening = ["# what an operator asks of families and of replacements: two transactions in a row, and nothing has to signal that it may be replaced"] + CHAIN + [
        "bloom 1", "limitancestorcount 2", "limitdescendantcount 2", "mempoolfullrbf 1",
    ]
    firm = Transaction([Input(COIN, sequence=0xFFFFFFFF, witness=[b"\x30" * 72, b"\x02" * 33])], [Output(99890)])
    child, grandchild = spending(firm.hash(), 99780), spending(spending(firm.hash(), 99780).hash(), 99670)
    instead = spending(COIN, 99000)
    return opening, [
        ("a peer", "peer 1 enter 192.0.2.1", "entered none"),
        ("it asks not to be told of what pays less than 2,000 satoshi per 1,000 virtual bytes", "peer 1 feefilter 2000", "filter 2000"),
        ("its transaction doesn't signal that it may be replaced", "peer 1 tx 5000 " + firm.hex(), admitted(firm)),
        ("a child of it", "peer 1 tx 5001 " + child.hex(), admitted(child)),
        ("no child of the child: it would be the third in a row", "peer 1 tx 5002 " + grandchild.hex(), "denied A36 keep too-long-mempool-chain"),
        ("both pay 1,000 satoshi per 1,000 virtual bytes", "peer 1 mempool", "listing 0"),
        ("a payment that pays more than both takes their place", "peer 1 tx 5003 " + instead.hex(), "admitted %s fee 1000 vsize 110 replaced 2" % instead.txid()),
        ("the peer is told of it", "peer 1 mempool", "listing 1 " + instead.txid()),
    ]


def call(user, now, method, *params):
    return "user %s rpc %d %s" % (user, now, json_text({"method": method, "params": list(params), "id": 1}))


def answer(value):
    return "rpc 200 " + json_text({"error": None, "id": 1, "result": value})


def error(status, code, message, rule):
    return "rpc %d %s" % (status, json_text({"error": {"code": code, "message": message, "rule": rule}, "id": 1, "result": None}))


def tried(tx):
    """What `testmempoolaccept` says of a payment that is allowed."""
    return answer([{"allowed": True, "fees": {"base": 110}, "txid": tx.txid(), "vsize": 110, "wtxid": tx.wtxid()}])


def own_payment():
    """An opening for a payment of one's own, and the two tries of it."""
    opening = [
        "# would my payment be relayed? Four lines say what a node would know of it",
        "# the height of the first block time, and eleven times, the last of them the tip's: here 600 seconds apart",
        "from 976990",
        "times 11 1764400000 600",
        "# no script is run here: what it says is believed",
        "verdict * ok",
        "# the coin that is spent: txid, output, satoshi, height, plain (or cb, of a coinbase), script",
        "coin %s 0 100000 976000 plain %s" % (printed(COIN), WITNESS_KEY_HASH.hex()),
    ]
    poor = spending(COIN, 99900)
    denied = {"allowed": False, "reject-reason": "min relay fee not met", "rule": "A35", "txid": poor.txid(), "wtxid": poor.wtxid()}
    return opening, [
        ("the payment, in hexadecimal: it pays 100 satoshi for 110 virtual bytes", call("me", 1764406300, "testmempoolaccept", [poor.hex()]), answer([denied])),
        ("ten satoshi more are enough", call("me", 1764406301, "testmempoolaccept", [PARENT.hex()]), tried(PARENT)),
    ]


def rpc():
    opening = ["# what users may call"] + CHAIN + [
        "# one sends, the other watches, and nobody else may call anything",
        "rpcwhitelist wallet:sendrawtransaction,testmempoolaccept,getmempoolentry",
        "rpcwhitelist monitor:getrawmempool getmempoolinfo",
    ]
    accepted = {"allowed": True, "fees": {"base": 110}, "txid": PARENT.txid(), "vsize": 110, "wtxid": PARENT.wtxid()}
    missing = {"allowed": False, "reject-reason": "missing-inputs", "rule": "A25", "txid": CHILD.txid(), "wtxid": CHILD.wtxid()}
    entry = {
        "ancestorcount": 2, "ancestorfees": 220, "ancestorsize": 220, "bip125-replaceable": True, "depends": [PARENT.txid()], "descendantcount": 1,
        "descendantfees": 110, "descendantsize": 110, "fee": 110, "spentby": [], "time": 5001, "vsize": 110, "weight": CHILD.weight(), "wtxid": CHILD.wtxid(),
    }
    return opening, [
        ("would it enter", call("wallet", 5000, "testmempoolaccept", [PARENT.hex()]), answer([accepted])),
        ("its child would not, without it", call("wallet", 5000, "testmempoolaccept", [CHILD.hex()]), answer([missing])),
        ("nor may it be sent", call("wallet", 5000, "sendrawtransaction", CHILD.hex()), error(500, -25, "bad-txns-inputs-missingorspent", "A25")),
        ("so the parent first", call("wallet", 5000, "sendrawtransaction", PARENT.hex()), answer(PARENT.txid())),
        ("then the child", call("wallet", 5001, "sendrawtransaction", CHILD.hex()), answer(CHILD.txid())),
        ("what the pool knows of the child", call("wallet", 5002, "getmempoolentry", CHILD.txid()), answer(entry)),
        ("the pool", call("monitor", 5002, "getrawmempool"), answer([PARENT.txid(), CHILD.txid()])),
        ("its size and rates", call("monitor", 5002, "getmempoolinfo"), answer({"bytes": 220, "maxmempool": 300000000, "mempoolminfee": 1000, "minrelaytxfee": 1000, "size": 2})),
        ("a method that is not in the list", call("monitor", 5002, "sendrawtransaction", PARENT.hex()), "rpc 403 denied U1 rpc-whitelist"),
        ("a user without a list", call("mallory", 5002, "getrawmempool"), "rpc 403 denied U1 rpc-whitelist"),
    ]


def packaged(message, *results):
    """The answer to a package: its members stand in the order of the package, and not in that of their names."""
    told = InOrder((tx.wtxid(), result) for tx, result in results)
    return answer({"package_msg": message, "replaced-transactions": [], "tx-results": told})


def below_the_fee(tx):
    return tx, {"error": "min relay fee not met", "rule": "A35", "txid": tx.txid()}


def package():
    """A commitment transaction without a fee, and the child that brings it in."""
    opening = ["# a parent that pays nothing, and a child that pays for both, as payment channels send them (BIP 431)"] + CHAIN + ["bloom 1", "truc 1", "packages 1"]

    def of_version_three(hash, value):
        return Transaction([Input(hash, witness=[b"\x30" * 72, b"\x02" * 33])], [Output(value)], version=3)

    parent = of_version_three(COIN, 100000)
    poor, child = of_version_three(parent.hash(), 99781), of_version_three(parent.hash(), 99780)
    fees = {"effective-feerate": 1000, "effective-includes": [parent.wtxid(), child.wtxid()]}
    taken = [(tx, {"fees": {"base": fee, **fees}, "txid": tx.txid(), "vsize": 110}) for tx, fee in ((parent, 0), (child, 220))]
    known = [(tx, {"fees": {"base": fee}, "txid": tx.txid(), "vsize": 110}) for tx, fee in ((parent, 0), (child, 220))]
    return opening, [
        ("a peer connects", "peer 1 enter 192.0.2.1", "entered none"),
        ("it sends the parent alone, which is below the least fee", "peer 1 tx 5000 " + parent.hex(), "denied A35 keep min relay fee not met"),
        (
            "a user sends it with its child, which pays 219 satoshi: one too few for the 220 virtual bytes of both",
            call("a", 5000, "submitpackage", [parent.hex(), poor.hex()]),
            packaged("transaction failed", below_the_fee(parent), below_the_fee(poor)),
        ),
        ("with 220 both come in, each at the feerate of both", call("a", 5000, "submitpackage", [parent.hex(), child.hex()]), packaged("success", *taken)),
        ("the same package again: both are known", call("a", 5001, "submitpackage", [parent.hex(), child.hex()]), packaged("success", *known)),
        (
            "a peer offers the same two, the parent first",
            "peer 1 package 5002 %s %s" % (parent.hex(), child.hex()),
            "packaged keep success | known %s | known %s" % (parent.txid(), child.txid()),
        ),
        ("and both are in the pool", "peer 1 mempool", "listing 2 %s %s" % (parent.txid(), child.txid())),
    ]


def living_chain():
    """An opening without coins and verdicts, which are learnt."""
    opening = [
        "# a chain that goes on: coins and verdicts are learnt as a node would tell them, and a block is forgotten",
        "# the first of these block times is that of height 900000",
        "from 900000",
        "times 11 1231000000 600",
    ]
    other = Transaction([Input(b"\x12" * 32, witness=[b"\x30" * 72, b"\x02" * 33])], [Output(99890)])
    coinbase = Transaction([Input(NULL[0], NULL[1], b"\x03\xab\xbb\x0d")], [Output(625000220)])
    block = "chain 0 6000 " + Block(1231007000, [coinbase, PARENT, other]).hex()
    coin = "chain coin %s 0 100000 %d plain " + WITNESS_KEY_HASH.hex()
    return opening, [
        ("a peer", "peer 1 enter 192.0.2.1", "entered none"),
        ("the coin that it spends isn't known", "peer 1 tx 5000 " + PARENT.hex(), "denied A25 keep bad-txns-inputs-missingorspent"),
        ("the node knows it: it is learnt", coin % (printed(COIN), 899990), "set"),
        ("nor is it known whether the script of the input is met", "peer 1 tx 5000 " + PARENT.hex(), "denied A43 keep verdict-missing"),
        ("the node has run it: the verdict is learnt", "chain verdict %s 0 ok" % PARENT.wtxid(), "set"),
        ("now it is admitted", "peer 1 tx 5000 " + PARENT.hex(), admitted(PARENT)),
        ("a block has it, and another payment, of a coin that isn't known", block, "refused C3 block-inputs"),
        ("so that coin is learnt first", coin % ("12" * 32, 900007), "set"),
        ("the block is connected, and the payment leaves the pool", block, "chain 900011 removed 1 entered 0"),
        ("a child of the payment, which the chain has now", "chain verdict %s 0 ok" % CHILD.wtxid(), "set"),
        ("spends a coin that the block made: nobody has to learn it", "peer 1 tx 6001 " + CHILD.hex(), admitted(CHILD)),
        ("the block is forgotten; of its three coins the one stays that the child spends, and one verdict goes", "chain forget 1", "forgotten 1 2 1"),
        ("it can't be disconnected any more", "chain 1 7000", "refused C6 no-undo"),
        ("its time and its height are known", "peer 1 getblock 900011", "block 900011 1231007000"),
        ("the payment is known as long as a coin of it is", "peer 1 tx 7000 " + PARENT.hex(), "denied A24 keep txn-already-known"),
        ("the other one isn't: the coin that it spent is gone", "peer 1 tx 7000 " + other.hex(), "denied A25 keep bad-txns-inputs-missingorspent"),
        ("a coin of the forgotten block may be learnt again", "chain coin %s 0 99890 900011 plain %s" % (other.txid(), WITNESS_KEY_HASH.hex()), "set"),
        ("but no coin is learnt twice", "chain coin %s 0 99890 900011 plain %s" % (other.txid(), WITNESS_KEY_HASH.hex()), "refused C11 coin-known"),
        ("what nobody used since goes with the next forgetting, also without a block", "chain forget 0", "forgotten 0 1 0"),
    ]


def sent(user, value):
    """A user spends the coin, by a transaction that does not say that it may be replaced."""
    tx = Transaction([Input(COIN, sequence=0xFFFFFFFF, witness=[b"\x30" * 72, b"\x02" * 33])], [Output(value)])
    return tx, call(user, 5000, "sendrawtransaction", tx.hex())


def race():
    """The lanes of examples/lanes.txt: what is said of each, its caller's transaction, and its line."""
    return [
        ("one user's lane", *sent("alice", 99890)),
        ("another's, who spends the same coin", *sent("bob", 99889)),
    ]


def race_text():
    opening = ["# lanes are called at once, each for one caller: of two who spend one coin exactly one is granted"] + CHAIN
    return lines(opening) + "".join("---\n# %s\n%s\n" % (about, line) for about, _, line in race())


def race_output(winner):
    """What is printed where this lane comes first, and its journal."""
    taken = error(500, -26, "txn-mempool-conflict", "A23")
    replies = [answer(tx.txid()) if number == winner else taken for number, (_, tx, _) in enumerate(race())]
    journal = [part for number in (winner, 1 - winner) for part in ("> " + race()[number][2], "< " + replies[number])]
    return ["lane 1", replies[0], "lane 2", replies[1], "settled 2"], journal


def text_of(opening, events):
    return lines(opening + ["---"]) + lines("# %s\n%s" % (about, event) for about, event, _ in events)


def holds(gate, name, made):
    with open(os.path.join(ROOT, "examples", name)) as file:
        text = file.read()
    same("the example", text, text_of(*made))
    done = gate.run("run", text)
    same_lines(done.stdout.decode().splitlines(), [reply for _, _, reply in made[1]])
    same("status", done.status, 0)


def test_example_of_permissions(gate):
    """examples/permissions.txt."""
    holds(gate, "permissions.txt", permissions())


def test_example_of_policies(gate):
    """examples/policies.txt."""
    holds(gate, "policies.txt", policies())


def test_example_of_rpc(gate):
    """examples/rpc.txt."""
    holds(gate, "rpc.txt", rpc())


def test_example_of_a_package(gate):
    """examples/package.txt."""
    holds(gate, "package.txt", package())


def test_example_of_a_payment(gate):
    """examples/own-payment.txt."""
    holds(gate, "own-payment.txt", own_payment())


def test_example_of_a_living_chain(gate):
    """examples/living-chain.txt."""
    holds(gate, "living-chain.txt", living_chain())


def test_example_of_lanes(gate):
    """examples/lanes.txt: either of the two comes first, and the journal says which."""
    with open(os.path.join(ROOT, "examples", "lanes.txt")) as file:
        text = file.read()
    same("the example", text, race_text())
    done = gate.run("lanes --journal", text)
    outputs = [lines(printed + journal).encode() for printed, journal in (race_output(0), race_output(1))]
    true("the output is neither of the two: %r" % done.stdout, done.stdout in outputs)
    same("status", (done.status, done.stderr), (0, b""))


def test_example_of_a_journal(gate):
    """examples/journal.txt is a journal of examples/lanes.txt."""
    with open(os.path.join(ROOT, "examples", "journal.txt")) as file:
        text = file.read()
    same("the example", text, lines(["# what the lanes of lanes.txt were answered, in the order of their calls"] + CHAIN + ["---"] + race_output(1)[1]))
    done = gate.run("audit", text)
    same("the audit", (done.stdout, done.stderr, done.status), (b"legal 2\n", b"", 0))


def rounds():
    """The rounds of examples/rounds.txt: of each what is said of it, and the event and the reply of its one lane."""
    return [
        ("the first round: a user sends a transaction", call("alice", 5000, "sendrawtransaction", PARENT.hex()), answer(PARENT.txid())),
        ("the second: another finds it in the pool", call("bob", 5001, "getrawmempool"), answer([PARENT.txid()])),
    ]


def rounds_text():
    opening = ["# a gate that goes on: the line === ends a round, and the next begins with the state that this one leaves"] + CHAIN
    return lines(opening) + "===\n".join("---\n# %s\n%s\n" % (about, line) for about, line, _ in rounds())


def rounds_output():
    """What is printed of these rounds, with their journals."""
    first, second = [["lane 1", reply, "settled 1", "> " + line, "< " + reply] for _, line, reply in rounds()]
    return first + ["base 1"] + second


def test_example_of_rounds(gate):
    """examples/rounds.txt: each round prints its journal, and the line of the base stands between them."""
    with open(os.path.join(ROOT, "examples", "rounds.txt")) as file:
        text = file.read()
    same("the example", text, rounds_text())
    done = gate.run("lanes --journal", text)
    same_lines(done.stdout.decode().splitlines(), rounds_output())
    same("status", (done.status, done.stderr), (0, b""))


def two_rounds():
    """The journal of these rounds."""
    journal = [line for line in rounds_output() if line.startswith(("> ", "< ", "base "))]
    return lines(["# what the rounds of rounds.txt were answered; between two rounds stands the number of entries so far"] + CHAIN + ["---"] + journal)


def test_example_of_a_journal_of_two_rounds(gate):
    """examples/rounds-journal.txt: with another number in its base line the second entry is wrong."""
    with open(os.path.join(ROOT, "examples", "rounds-journal.txt")) as file:
        text = file.read()
    same("the example", text, two_rounds())
    for journal, printed, status in ((text, b"legal 2\n", 0), (text.replace("base 1", "base 2"), b"illegal 2\n", 1)):
        done = gate.run("audit", journal)
        same("the audit", (done.stdout, done.stderr, done.status), (printed, b"", status))
