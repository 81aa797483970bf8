"""Each growth of memory refused in turn, on the built program: nothing has changed, and what comes after is answered."""

import os
from collections import namedtuple

from bitcoin import Input, Output, Transaction, coin, number_hash, payment, printed
from chain_model import Block
from failing import each_growth, failing
from gate import ROOT, NotTried, lines, same, same_lines, true
from sizes import ENTER, opening, submitted
from kinds import long
from model import NULL
from streams import NO_MEMORY, past

FAULT = "fault memory"
UNKNOWN = "unsettled memory"
NEED_NO_MEMORY = ("x", "peer 1 getblock", "peer 1 headers", "peer 1 feefilter", "peer 1 leave", "operator")
ASKED = 'user a rpc 5000 {"method":"%s","params":[%s],"id":1}'


def row(name):
    """The opening and the events of a row, and its reply lines."""
    texts = []
    for file in ("stdin", "stdout"):
        with open(os.path.join(ROOT, "rows", name, file)) as text:
            texts.append(text.read().splitlines())
    head = texts[0].index("---")
    return texts[0][:head], texts[0][head + 1 :], texts[1]


def args_of(name):
    with open(os.path.join(ROOT, "rows", name, "args")) as args:
        return " ".join(args.read().split())


def is_short(name):
    """Whether a row's input is a text of at most 20,000 bytes with a line `---`."""
    with open(os.path.join(ROOT, "rows", name, "stdin"), "rb") as file:
        text = file.read()
    return len(text) <= 20000 and b"\n---\n" in text and text.isascii() and b"\r" not in text


def questions(replies):
    """What tells one pool from another: floor, budget, listing, and each admitted entry with its family; a tip and sessions."""
    txids = sorted({reply.split(" ")[1] for reply in replies if reply.startswith("admitted ")})
    asked = [ASKED % ("getmempoolinfo", ""), ASKED % ("getrawmempool", ""), ASKED % ("getrawmempool", "true")]
    for txid in txids:
        asked += [ASKED % (method, '"%s"' % txid) for method in ("getmempoolentry", "getmempoolancestors", "getmempooldescendants")]
    return asked + ["peer 1 headers 0", "peer 1 getblock 101", "peer 2 leave"]


def refuse_each(gate, head, events, at, wanted):
    """Event `at` has each of its growths refused in turn, and is made again; questions before and after it tell that nothing has changed.

    A refusal while its line is read, or while its reply line is made, ends the program, with the replies before it. Gives how many
    refusals were answered by `fault memory`.
    """
    asked = questions(wanted)
    before, event, after = events[:at], events[at], events[at + 1 :]
    untouched = gate.replies(head, before + asked)[at:]
    text = lines(head) + "---\n" + lines(before + [event] + asked + [event] + after)
    right = lines(wanted[:at] + [FAULT] + untouched + wanted[at:]).encode()
    ended = lines(wanted[:at]).encode()
    faults = 0
    for growth, done in each_growth(gate.program, "run", text, line=len(head) + 1 + at + 1):
        what = "growth %d of %s" % (growth, event[:60])
        if done.status == 0:
            same_lines([what] + done.stdout.decode().splitlines(), [what] + right.decode().splitlines())
            faults += 1
        else:
            same(what, (done.status, done.stdout, done.stderr), (1, ended, NO_MEMORY))
    return faults


def refused(gate, name, at, least):
    head, events, wanted = row(name)
    faults = refuse_each(gate, head, events, at % len(events), wanted)
    true("%s: %d growths were answered by `fault memory`, of %d at least" % (name, faults, least), faults >= least)


def test_a_replacement(gate):
    refused(gate, "replacement-fees", 4, 6)


def test_a_replacement_of_ninety_nine(gate):
    refused(gate, "replacement-of-ninety-nine", -2, 20)


def test_a_submission_that_trims(gate):
    refused(gate, "trim-and-floor", 3, 3)


def test_a_package(gate):
    """Its members stand in the pool, and what they push out is trimmed."""
    refused(gate, "trim-behind-a-package", 3, 15)


def test_a_package_that_replaces(gate):
    """What its members replace comes back."""
    refused(gate, "replaced-by-two-members", 5, 40)


def test_two_that_replace_together(gate):
    """A parent that pays nothing, and its child: judged by themselves, and then together."""
    refused(gate, "package-replacement", 6, 40)


def test_a_package_of_a_peer(gate):
    """One that replaces an entry, and one whose peer is shut out for it."""
    refused(gate, "package-replacement-by-a-peer", 4, 40)
    refused(gate, "package-that-closes-a-session", 1, 3)


def test_a_list_that_is_a_package(gate):
    """Two that are allowed, and a list in which one is denied."""
    refused(gate, "list-of-version-three", 3, 10)
    refused(gate, "list-with-a-denial", 0, 5)


def test_a_reorganisation(gate):
    """A disconnected parent comes back above its children."""
    refused(gate, "reorganisation-returns-a-parent", 5, 40)


def test_a_coin_that_is_learnt(gate):
    refused(gate, "coin-learnt", 1, 1)


def test_a_verdict_that_is_learnt(gate):
    refused(gate, "verdict-learnt", 2, 1)


def test_a_block_that_is_forgotten(gate):
    """Of its coins and the opening's one stays."""
    refused(gate, "forgetting-a-block", 6, 1)


def test_coins_and_rows_that_are_forgotten(gate):
    """Without a block."""
    refused(gate, "forgetting-coins-and-rows-alone", 3, 1)


def test_a_question_about_an_entry(gate):
    refused(gate, "reorganisation-returns-a-parent", 6, 4)


def listed():
    """A pool of 50 entries, which a peer lists, with the replies."""
    made = [payment(number, 99000) for number in range(1, 51)]
    head = opening(*[coin(number) for number in range(1, 51)])
    events = [ENTER[0]] + [submitted(tx) for tx in made] + ["peer 1 mempool"]
    wanted = [ENTER[1]] + ["admitted %s fee 1000 vsize %d replaced 0" % (tx.txid(), tx.virtual_size(1)) for tx in made]
    wanted.append("listing 50 " + " ".join(tx.txid() for tx in made))
    return head, events, wanted


def test_a_listing(gate):
    """A peer's, of 50 entries."""
    head, events, wanted = listed()
    true("no listing was refused", refuse_each(gate, head, events, len(events) - 1, wanted) >= 1)


def events_of_each_kind():
    """An opening, and events of each kind, with a block that comes and goes again."""
    one, two, three = payment(1, 99000), payment(2, 99000), payment(1, 98000)
    user = 'user a rpc 5000 {"method":"%s","params":[%s],"id":1}'
    child = Transaction([Input(two.hash())], [Output(98000)])
    grandchild = Transaction([Input(child.hash())], [Output(97000)])
    coinbase = Transaction([Input(NULL[0], NULL[1], b"\x04abcd")], [Output(5000000000)])
    events = [
        "peer 1 enter 192.0.2.1", submitted(one), submitted(three), "x", "# skipped", "peer 1 mempool",
        user % ("sendrawtransaction", '"%s"' % two.hex()), user % ("testmempoolaccept", '["%s"]' % one.hex()),
        user % ("getrawmempool", ""), user % ("getmempoolentry", '"%s"' % two.txid()), user % ("getmempoolancestors", '"%s"' % two.txid()),
        user % ("getmempooldescendants", '"%s"' % two.txid()), user % ("getmempoolinfo", ""), user % ("none", ""), "user a rpc 0 {",
        user % ("getrawmempool", "true"), user % ("getrawtransaction", '"%s"' % two.txid()),
        user % ("gettxspendingprevout", '[{"txid":"%s","vout":0},{"txid":"%s","vout":0}]' % (printed(number_hash(2)), two.txid())),
        user % ("testmempoolaccept", '["%s","%s","%s"]' % (child.hex(), grandchild.hex(), one.hex())),
        "chain 0 5000 " + Block(70000, [coinbase, two]).hex(), "peer 1 getblock 101", "peer 1 headers 0", "chain 1 5000", "peer 1 mempool",
        "chain " + coin(3), "chain verdict %s 0 ok" % two.wtxid(), "chain forget 0",
        "operator floor 5000", "operator bloom off", "operator ibd on", "peer 1 leave", "peer 1 leave",
    ]
    return ["whitelist noban@192.0.2.1", "rpcwhitelist b:getmempoolinfo", "rpcwhitelistdefault 0"] + opening(coin(1), coin(2)), events


class WholeRun:
    """A run over events, and the same without one of them."""

    def __init__(self, gate, head, events):
        self.gate, self.head = gate, head
        self.events = [event for event in events if event and not event.startswith("#")]
        self.right, self.without = gate.replies(head, self.events), {}

    def replies_without(self, at):
        if at not in self.without:
            self.without[at] = self.gate.replies(self.head, self.events[:at] + self.events[at + 1 :])
        return self.without[at]

    def refuse_each(self):
        """Refuses each growth: the run ends with the replies of whole events, or one event is answered by `fault memory` and changes nothing.

        Gives the places of the events that were answered so, and how many runs ended.
        """
        met, ended = set(), 0
        for growth, done in each_growth(self.gate.program, "run", lines(self.head) + "---\n" + lines(self.events)):
            what, replies = "growth %d" % growth, done.stdout.decode().splitlines()
            if done.status:
                same(what, (done.status, done.stderr), (1, NO_MEMORY))
                is_front(what, replies, self.right)
                ended += 1
            elif FAULT in replies:
                at = replies.index(FAULT)
                same_lines([what] + replies[:at] + replies[at + 1 :], [what] + self.replies_without(at))
                met.add(at)
            else:
                same_lines([what] + replies, [what] + self.right)
        return met, ended


def test_each_growth_of_a_run(gate):
    """Of a run over events of each kind."""
    run = WholeRun(gate, *events_of_each_kind())
    met, ended = run.refuse_each()
    missed = [event for at, event in enumerate(run.events) if at not in met and not event.startswith(NEED_NO_MEMORY)]
    same("events that were never answered by `fault memory`", missed, [])
    true("no refusal ended the run", ended)


@long
def test_each_growth_of_each_row(gate):
    """Of the rows of `gate run` whose opening is none of a fault and whose input is short."""
    tried = 0
    for name in sorted(os.listdir(os.path.join(ROOT, "rows"))):
        if os.path.exists(os.path.join(ROOT, "rows", name, "stdin")) and args_of(name) == "run" and is_short(name):
            head, events, _ = row(name)
            WholeRun(gate, head, events).refuse_each()
            tried += 1
    true("%d rows were tried, of 80 at least" % tried, tried >= 80)


def learning_and_forgetting():
    """An opening, and events of a chain that learns coins and verdicts, connects blocks, forgets some and disconnects others."""
    made = [payment(number, 99000) for number in range(1, 41)]
    coinbases = [Transaction([Input(NULL[0], NULL[1], b"\x04abc%d" % number)], [Output(5000000000)]) for number in range(4)]
    blocks = [Block(70000 + 600 * number, [coinbases[number], *made[10 + 4 * number : 14 + 4 * number]]) for number in range(4)]
    events = [ENTER[0]] + ["chain " + coin(number) for number in range(3, 41)]
    events += ["chain verdict %s 0 ok" % tx.wtxid() for tx in made[2:]] + [submitted(tx) for tx in made[:8]]
    events += ["chain 0 5000 " + " ".join(block.hex() for block in blocks), "chain " + coin(3), "chain verdict %s 0 hard" % made[2].wtxid()]
    events += ["chain forget 5", "chain forget 2", "chain 1 6000", "peer 1 mempool", submitted(made[10]), "chain " + coin(11), "chain forget 1"]
    return ["times 101 1000 600", "bloom 1", coin(1), coin(2), "verdict %s 0 ok" % made[0].wtxid()], events


def test_each_growth_of_learning_and_forgetting(gate):
    """A growth that is refused beside a coin, a verdict or blocks to be forgotten is answered by `fault memory`, and nothing
    has changed: what comes after is answered as if that event had not been there."""
    run = WholeRun(gate, *learning_and_forgetting())
    met, ended = run.refuse_each()
    kinds = {" ".join(run.events[at].split(" ")[:2]) for at in met}
    same("kinds of events that were never answered by `fault memory`", {"chain coin", "chain verdict", "chain forget"} - kinds, set())
    true("no refusal ended the run", ended)


def laned():
    """A lane of a peer, whose last line but one is another caller's, and a lane of a user; and the lines of the first."""
    head, events, wanted = row("replacement-fees")
    first, replies = events + ["operator bloom on", "x"], wanted + ["fault wrong-caller", "refused L1 bad-line"]
    return lines(head), first, replies, lines(first) + "---\n" + 'user a rpc 0 {"method":"none","id":1}\n'


def is_front(what, found, wanted):
    same_lines([what] + found, [what] + wanted[: len(found)])


def parts_of(printed):
    """The replies of each lane, the number of calls that were settled, and the journal's lines; none of the last two where they are not whole."""
    found, settled, journal = [], None, []
    for line in printed:
        if settled is not None:
            journal.append(line)
        elif line.startswith("lane "):
            found.append([])
        elif line.startswith("settled "):
            settled = int(line.split(" ")[1])
        else:
            found[-1].append(line)
    return found, settled, journal


def test_each_growth_of_lanes(gate):
    """Each lane's replies are a front of those of its calls, with `fault memory` for at most one event; a journal that was printed is legal."""
    head, first, wanted, second = laned()
    user = 'rpc 404 {"error":{"code":-32601,"message":"Method not found"},"id":1,"result":null}'
    without = {at: gate.run("run", head + "---\n" + lines(first[:at] + first[at + 1 :])).stdout.decode().splitlines() for at in range(len(wanted) - 2)}
    met, stopped, unprinted, unknown = set(), 0, 0, 0
    for growth, done in each_growth(gate.program, "lanes --journal", head + "---\n" + second):
        what = "growth %d" % growth
        same(what, (done.status, done.stderr), (1, NO_MEMORY) if done.status else (0, b""))
        printed = done.stdout.decode().splitlines()
        if UNKNOWN in printed:
            same(what, (printed.index(UNKNOWN), done.status), (len(wanted) + 3, 1))
            printed.pop()
            unknown += 1
        found, settled, journal = parts_of(printed)
        replies = (found + [[], []])[:2]
        if FAULT in replies[0]:
            at = replies[0].index(FAULT)
            same_lines(replies[0][:at] + replies[0][at + 1 :], without[at][:-2] + wanted[-2:])
            met.add(at)
        else:
            is_front(what, replies[0], wanted)
        is_front(what, replies[1], [FAULT if FAULT in replies[1] else user])
        met.update("user" for reply in replies[1] if reply == FAULT)
        if settled is None or len(journal) < 2 * settled:
            same(what, done.status, 1)
            unprinted += 1
            continue
        audit = gate.run("audit", head + "---\n" + lines(journal))
        same("the audit of the journal behind " + what, (audit.stdout, audit.status), (b"legal %d\n" % settled, 0))
        stopped += done.status
    # the fourth, which A38 denies, takes little memory, and threads grow in no fixed order
    same("events that were never answered by `fault memory`", {0, 1, 2, 4, "user"} - met, set())
    true("no lane was stopped, or everything was printed", stopped and unprinted)
    true("memory never ran out while the calls were settled", unknown)


def test_each_growth_of_an_audit(gate):
    """An audit answers, or ends without an answer."""
    head, first, wanted, _ = laned()
    journal = "".join("> %s\n< %s\n" % pair for pair in zip(first[:-2], wanted))
    ended = 0
    for growth, done in each_growth(gate.program, "audit", head + "---\n" + journal):
        if done.status:
            same("growth %d" % growth, (done.status, done.stdout, done.stderr), (1, b"", NO_MEMORY))
            ended += 1
        else:
            same("growth %d" % growth, (done.status, done.stdout, done.stderr), (0, b"legal 5\n", b""))
    true("no refusal ended the audit", ended)


def test_each_growth_of_a_check(gate):
    """A check of a word, and of the input, and of an opening with a fault: the right text, or none."""
    tx = payment(1, 1000)
    right = ("%s %s %d\nstandard\n" % (tx.txid(), tx.wtxid(), tx.weight())).encode()
    fault = b"opening 1 bad-line\n"
    for words, text, answer, status, said in (
        ("check " + tx.hex(), "", right, 0, b""), ("check -", tx.hex(), right, 0, b""), ("run", "bloom 2\n", fault, 2, past(1, '"2" is unknown; expected 0 or 1')),
    ):
        ended = 0
        for growth, done in each_growth(gate.program, words, text):
            what = "growth %d of gate %s" % (growth, words)
            if done.status == 1:
                same(what, (done.stdout, done.stderr), (b"", NO_MEMORY))
                ended += 1
            else:
                same(what, (done.status, done.stdout), (status, answer))
                true("%s says %r" % (what, done.stderr), done.stderr in (b"", said))
        true("no refusal ended gate " + words, ended)


# the calls that are made, with the word that asks for each
CALLS = {"step": "step", "enroll": "calls", "look": "calls", "call": "calls", "settle": "settle", "finish": "finish"}


def upto(name, at):
    """The opening of a row, its events up to that place, and their replies."""
    head, events, wanted = row(name)
    count = at % len(events) + 1
    return head, events[:count], wanted[:count]


def attempt(call, *told):
    """The lines of one attempt at a call."""
    return ["> " + call, "< " + call, *told]


# what the last of the events comes to: how many inputs the last submission has; whether the event changes the state; how many
# entries the pool has after it; and how many of these inputs have a coin before it, all unless it says so
Last = namedtuple("Last", "inputs changes left coins", defaults=[None])
# questions to a copy of the state, which tell what is known of coins, verdicts and blocks
KNOWN = ["chain forget 0", "chain forget 1", "chain forget 1"]


class Made:
    """The calls that the program of `crates/gate_growth` makes over the last of some events, and what it tells of each."""

    def __init__(self, program, made, last):
        head, events, wanted = made
        self.program, self.count = program, len(events)
        self.text = lines(head) + "---\n" + lines(events) + "---\n" + lines(questions(wanted) + KNOWN)
        coins = last.inputs if last.coins is None else last.coins
        self.told = {
            "step": (wanted[-1], "changed" if last.changes else "unchanged"),
            "enroll": ("pass %d" % self.count, "changed"),
            "look": ("coins %d of %d" % (coins, last.inputs), "unchanged"),
            "call": ("%d %s" % (self.count, wanted[-1]), "changed"),
            "settle": ("settled %d" % self.count, "changed"),
            "finish": ("finished %d %d" % (self.count, last.left),),
        }

    def lines(self, word, refused=None):
        """What it writes for a word, where memory ran out once in that call."""
        found = []
        for call in [call for call in CALLS if word in ("", CALLS[call])]:
            if call == refused:
                found += attempt(call, FAULT, "unchanged")
            found += attempt(call, *self.told[call])
        return found

    def refuse_each(self, call):
        """Refuses each growth of a call in turn, and gives how many there were."""
        growths, right = 0, self.lines(CALLS[call], call)
        for growth, done in each_growth(self.program, CALLS[call], self.text, mark=call):
            what = "growth %d of %s" % (growth, call)
            same(what, (done.status, done.stderr), (0, b""))
            same_lines([what] + done.stdout.decode().splitlines(), [what] + right)
            growths = growth
        return growths


def refuse_calls(gate, made, last, **least):
    """Each growth of each call of a gate, over the last of some events: a step, a pass, a look, a call, settling, the end.

    So many growths are met at least: of a step what is given, of a call one more, of a pass and a look 0 and 1 unless it is given,
    of settling 3, since each call is claimed, its owner named and its entry copied, in a list each, and of the end 2, since it
    takes the journal itself.
    """
    if not gate.calls:
        raise NotTried("tests/run --calls names the program of crates/gate_growth")
    calls = Made(gate.calls, made, last)
    plain = failing(gate.calls, "", calls.text)
    same("without a refusal", (plain.status, plain.stderr), (0, b""))
    same_lines(plain.stdout.decode().splitlines(), calls.lines(""))
    found = {call: calls.refuse_each(call) for call in CALLS}
    least = {"enroll": 0, "look": 1, "call": least["step"] + 1, "settle": 3, "finish": 2, **least}
    same("calls with fewer growths than %s" % least, {call: found[call] for call in CALLS if found[call] < least[call]}, {})


def test_calls_of_a_replacement(gate):
    refuse_calls(gate, upto("replacement-fees", 4), Last(1, True, 1), step=6)


def test_calls_of_a_replacement_of_ninety_nine(gate):
    refuse_calls(gate, upto("replacement-of-ninety-nine", -2), Last(4, True, 1), step=20)


def test_calls_of_a_submission_that_trims(gate):
    refuse_calls(gate, upto("trim-and-floor", 3), Last(1, True, 2), step=3)


def test_calls_of_a_reorganisation(gate):
    """The last submission spends outputs of two entries."""
    refuse_calls(gate, upto("reorganisation-returns-a-parent", 5), Last(2, True, 4), step=40)


def test_calls_of_a_question_about_an_entry(gate):
    refuse_calls(gate, upto("reorganisation-returns-a-parent", 6), Last(2, False, 4), step=4, enroll=1)


def test_calls_of_a_listing(gate):
    refuse_calls(gate, listed(), Last(1, False, 50), step=1)


def test_calls_of_a_coin_that_is_learnt(gate):
    """The submission before it has no coin yet."""
    tx = payment(3, 99000)
    events, replies = [ENTER[0], submitted(tx), "chain " + coin(3)], [ENTER[1], "denied A25 keep bad-txns-inputs-missingorspent", "set"]
    refuse_calls(gate, (opening(coin(1), coin(2)), events, replies), Last(1, True, 0, 0), step=1)


def test_calls_of_a_verdict_that_is_learnt(gate):
    refuse_calls(gate, upto("verdict-learnt", 2), Last(1, True, 0), step=1)


def test_calls_of_a_block_that_is_forgotten(gate):
    """The submission before it has spent its coin, which stays."""
    refuse_calls(gate, upto("forgetting-a-block", 6), Last(1, True, 1), step=1)


def test_ids_that_collide(gate):
    """Every reply of the short rows of `gate run`, over hash tables in which all ids have one hash."""
    if not gate.calls:
        raise NotTried("tests/run --calls names the program of crates/gate_growth")
    tried = 0
    for name in sorted(os.listdir(os.path.join(ROOT, "rows"))):
        if not os.path.exists(os.path.join(ROOT, "rows", name, "stdin")) or args_of(name) != "run" or not is_short(name):
            continue
        head, events, wanted = row(name)
        events = [event for event in events if event and not event.startswith("#")]
        for at, (event, reply) in enumerate(zip(events, wanted)):
            if not reply.startswith("refused "):
                done = failing(gate.calls, "step", lines(head) + "---\n" + lines(events[: at + 1]))
                same("%s: %s" % (name, event[:60]), (done.stdout.decode().splitlines()[:3], done.stderr), (attempt("step", reply), b""))
                tried += 1
    true("%d replies were tried, of 400 at least" % tried, tried >= 400)


def test_each_growth_of_a_worker(gate):
    """Memory that is refused to a thread that checks inputs beside the lane's own: every reply is as ever."""
    tx = Transaction([Input(number_hash(number), witness=[b"\x30" * 71, b"\x02" * 33]) for number in range(1, 101)], [Output(9900000)])
    head, events = opening(*[coin(number) for number in range(1, 101)]), [ENTER[0]] + [submitted(tx)] * 20
    wanted = "lane 1\n" + lines(gate.replies(head, events)) + "settled 21\n"
    met = 0
    for growth in range(1, 61):
        done = failing(gate.program, "lanes", lines(head) + "---\n" + lines(events), growth=growth, others=1)
        same("growth %d" % growth, (done.status, done.stdout.decode(), done.stderr), (0, wanted, b""))
        met += done.refused
    # how many inputs a worker gets before the lane itself has checked them is the scheduler's doing
    true("memory was refused to a worker in %d runs, of 10 at least" % met, met >= 10)
