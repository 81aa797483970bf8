"""`gate try`: what it prints is what `gate run` prints of the text that docs/FORMATS.md gives."""

import json

from bitcoin import Input, Output, Transaction, WITNESS_KEY_HASH, number_hash, payment, printed
from gate import lines, same, true

SCRIPT = WITNESS_KEY_HASH.hex()
SAID = "gate: scripts are not run, and count as good; --verdict says otherwise"


def coin_word(number, value=100000, height=1, more=""):
    return "%s:0,%d,%d,%s%s" % (printed(number_hash(number)), value, height, SCRIPT, more)


def text_of(transactions, coins, tip, time, verdict="ok", is_json=False, said=()):
    """The text of a trial, as the page has it."""
    first = max(tip - 10, 0)
    opening = ["from %d" % first, "times %d %d 600" % (tip - first + 1, max(time - 6000, 0))]
    opening += ["coin %s 0 %d %d %s %s" % (printed(number_hash(number)), value, height, kind, SCRIPT) for number, value, height, kind in coins]
    opening += said
    if is_json:
        call = 'user try rpc %d {"id":1,"method":"%s","params":[%s]}'
        if len(transactions) == 1:
            events = [call % (time, "testmempoolaccept", '["%s"]' % transactions[0].hex())]
        else:
            events = [call % (time, "sendrawtransaction", '"%s"' % tx.hex()) for tx in transactions]
    else:
        events = ["peer 1 enter 127.0.0.1"] + ["peer 1 tx %d %s" % (time, tx.hex()) for tx in transactions]
    return lines(opening + ["verdict * " + verdict, "---"] + events)


def tries(gate, words, text, status, said=SAID, run="run --explain"):
    """The trial prints what a run of the text prints, says what it says behind a line on scripts, and ends with this status."""
    done, ran = gate.run_words(["try"] + words), gate.run(run, text)
    same("standard output", done.stdout.decode(), ran.stdout.decode())
    same_said = [it for it in done.stderr.decode().splitlines()]
    same("standard error", same_said, [said] + ran.stderr.decode().splitlines())
    same("status of gate try", done.status, status)
    return done


def test_one_that_is_relayed(gate):
    tx = payment(1, 99000)
    done = tries(gate, [tx.hex(), "--coin", coin_word(1), "--tip", "100", "--time", "60000"], text_of([tx], [(1, 100000, 1, "plain")], 100, 60000), 0)
    same("the reply", done.stdout.decode().splitlines()[-1], "admitted %s fee 1000 vsize %d replaced 0" % (tx.txid(), tx.virtual_size()))


def test_one_that_is_denied(gate):
    """Words stand in any order; the fee that helps is told."""
    tx = payment(1, 99950)
    text = text_of([tx], [(1, 100000, 1, "plain")], 900000, 1700000000)
    done = tries(gate, ["--time", "1700000000", "--tip", "900000", "--coin", coin_word(1), tx.hex()], text, 1)
    true("why: %r" % done.stderr, b"A35 pays 50, needs 82; the least fee is 82\n" in done.stderr)


def test_a_low_chain(gate):
    """Below height 10 there are fewer block times; the second of a block is at least 0."""
    tx = payment(1, 99000)
    for tip, time in ((0, 0), (3, 700), (9, 5999), (10, 6000), (11, 6001)):
        tries(gate, [tx.hex(), "--coin", coin_word(1, height=0), "--tip", str(tip), "--time", str(time)], text_of([tx], [(1, 100000, 0, "plain")], tip, time), 0)


def test_several(gate):
    """Parents first: a child spends what its parent makes; a coinbase's coin is too young."""
    parent = payment(1, 99000)
    child = Transaction([Input(parent.hash())], [Output(98000)])
    words = ["--coin", coin_word(1), "--tip", "100", "--time", "60000"]
    coins = [(1, 100000, 1, "plain")]
    tries(gate, [parent.hex(), child.hex()] + words, text_of([parent, child], coins, 100, 60000), 0)
    tries(gate, [child.hex(), parent.hex()] + words, text_of([child, parent], coins, 100, 60000), 1)
    young = ["--coin", coin_word(1, more=",cb"), "--tip", "100", "--time", "60000"]
    tries(gate, [parent.hex(), child.hex()] + young, text_of([parent, child], [(1, 100000, 1, "cb")], 100, 60000), 0)
    tries(gate, [parent.hex(), "--coin", coin_word(1, height=2, more=",cb"), "--tip", "100", "--time", "60000"], text_of([parent], [(1, 100000, 2, "cb")], 100, 60000), 1)


def test_answers_in_json(gate):
    """`--json`: calls of a user, and explanations as objects."""
    parent = payment(1, 99000)
    child = Transaction([Input(parent.hash())], [Output(98950)])
    words = ["--coin", coin_word(1), "--tip", "100", "--time", "60000", "--json"]
    said = '{"scripts":"not run","verdict":"ok"}'
    coins = [(1, 100000, 1, "plain")]
    tries(gate, [parent.hex()] + words, text_of([parent], coins, 100, 60000, is_json=True), 0, said, "run --explain=json")
    done = tries(gate, [parent.hex(), child.hex()] + words, text_of([parent, child], coins, 100, 60000, is_json=True), 1, said, "run --explain=json")
    why = [json.loads(line) for line in done.stderr.splitlines() if b'"rule"' in line and b'"line"' in line]
    same("why", [(it["rule"], it["pays"], it["needs"], it["least_fee"], it["parents"]) for it in why], [("A35", 50, 82, 82, [parent.txid()])])


def test_verdicts(gate):
    tx = payment(1, 99000)
    words = [tx.hex(), "--coin", coin_word(1), "--tip", "100", "--time", "60000", "--verdict", "soft"]
    tries(gate, words, text_of([tx], [(1, 100000, 1, "plain")], 100, 60000, "soft"), 1, "gate: scripts are not run; the verdict on each is soft")


def test_policies(gate):
    """`--policy` and `--set` are lines of the opening behind the coins; what a release lacks is told."""
    tx, coins = payment(1, 99950), [(1, 100000, 1, "plain")]
    words = [tx.hex(), "--coin", coin_word(1), "--tip", "100", "--time", "60000"]
    for more, said, status in (
        (["--policy", "core-22"], ["policy core-22"], 1),
        (["--policy", "core-28"], ["policy core-28"], 1),
        (["--policy", "core-30"], ["policy core-30"], 0),
        (["--set", "minrelaytxfee=600"], ["minrelaytxfee 600"], 0),
        (["--set", "minrelaytxfee=610", "--set", "feesroundup=1"], ["minrelaytxfee 610", "feesroundup 1"], 1),
        (["--set", "minrelaytxfee=1000", "--policy", "core-29"], ["policy core-29", "minrelaytxfee 1000"], 1),
        (["--policy", "core-28", "--policy", "core-29"], ["policy core-29"], 0),
    ):
        tries(gate, words + more, text_of([tx], coins, 100, 60000, said=said), status)
        said_in_json = '{"scripts":"not run","verdict":"ok"}'
        asked = text_of([tx], coins, 100, 60000, is_json=True, said=said)
        tries(gate, words + more + ["--json"], asked, status, said_in_json, "run --explain=json")
    done = gate.run_words(["try"] + words + ["--set", "minrelaytxfee=1", "--set", "minrelaytxfee=1"])
    same("a setting twice", (done.status, done.stdout), (2, b"opening 5 bad-line\n"))


def test_standard_input(gate):
    """`-` stands for the words of standard input; without `--time` it is now."""
    tx = payment(1, 99000)
    done = gate.run("try - --tip 100 --time 60000 --coin " + coin_word(1), "\n %s\n" % tx.hex())
    same("standard output", done.stdout.decode(), gate.run("run", text_of([tx], [(1, 100000, 1, "plain")], 100, 60000)).stdout.decode())
    same("status", done.status, 0)
    same("now", gate.run_words(["try", tx.hex(), "--tip", "100", "--coin", coin_word(1)]).status, 0)


def test_faults_of_usage(gate):
    tx = payment(1, 99000).hex()
    for words, told in (
        ([], "a transaction is required"),
        ([tx], "--tip is required"),
        ([tx, "--tip"], "a value is required for --tip"),
        ([tx, "--tip", "x"], '"x" behind --tip is not a height'),
        ([tx, "--tip", "01"], '"01" behind --tip is not a height'),
        ([tx, "--tip", "1", "--time", "4294967296"], "is not a second"),
        ([tx, "--tip", "1", "--coin", "00"], "is no coin"),
        ([tx, "--tip", "1", "--coin", coin_word(1, more=",plain")], '"plain" behind a coin is unknown'),
        ([tx, "--tip", "1", "--coin", coin_word(1, more=",cb,cb")], "is no coin"),
        ([tx, "--tip", "1", "--verdict", "good"], "expected ok, soft or hard"),
        ([tx, "--tip", "1", "--policy", "core-23"], "expected one of core-22, core-25, core-26, core-27, core-28, core-29, core-30, knots-29"),
        ([tx, "--tip", "1", "--policy"], "a value is required for --policy"),
        ([tx, "--tip", "1", "--set", "minrelaytxfee"], "expected WORD=NUMBER"),
        ([tx, "--tip", "1", "--set", "minrelaytx=1"], 'no setting is named "minrelaytx"; gate settings lists them'),
        ([tx, "--tip", "1", "--set", "mintxsize=83"], '"83" is not what mintxsize may be: a number from 60 to 82'),
        ([tx, "--tip", "1", "--set", "mintxsize=59"], "a number from 60 to 82"),
        ([tx, "--tip", "1", "--set", "mintxsize="], "a number from 60 to 82"),
        ([tx, "--tip", "1", "--set", "mintxsize=070"], "a number from 60 to 82"),
        ([tx, "--tip", "1", "--frobnicate"], "unexpected option --frobnicate"),
        ([tx + " 00", "--tip", "1"], "is more than one word"),
        ([tx + "\npeer 1 leave", "--tip", "1"], "is more than one word"),
    ):
        done = gate.run_words(["try"] + words)
        same("status and standard output of gate try %r" % words, (done.status, done.stdout), (2, b""))
        true("%r of gate try %r" % (done.stderr, words), told.encode() in done.stderr and b"Usage: gate try" in done.stderr)
    # what is a coin for the words and none for the opening
    done = gate.run_words(["try", tx, "--tip", "1", "--time", "60000", "--coin", "00:0,1,0,zz"])
    same("a coin that is none", (done.status, done.stdout), (2, b"opening 3 bad-line\n"))
    done = gate.run_words(["try", tx, "--tip", "1", "--time", "60000", "--coin", coin_word(1, height=2)])
    same("a coin above the tip", (done.status, done.stdout), (2, b"opening 3 coin-above-tip\n"))
    done = gate.run_words(["try", "zz", "--tip", "1", "--time", "60000"])
    same("what is no transaction", (done.status, done.stdout.splitlines()[-1]), (1, b"denied A1 keep tx-decode"))
