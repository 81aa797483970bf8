"""Calls at their limits, and at sizes that no other test reaches."""

import os
import resource
import subprocess

from bitcoin import coin, payment
from chain_model import Block
from gate import ROOT, lines, same, same_lines
from heights import MOST_TIMES, block
from journals import audited, raced
from kinds import long
from sizes import ENTER, admitted, opening, submitted
from streams import SECONDS, TOO_MANY_LANES, Talk, past

MEGABYTE = 1 << 20


def payments(count):
    """Transactions that each spend a coin of their own for a fee of 1,000, and the lines of these coins."""
    return [payment(number, 99000) for number in range(1, count + 1)], [coin(number) for number in range(1, count + 1)]


def granted(made, fee=1000, replaced=0):
    return admitted(made, fee, 1, replaced)


def test_an_opening_of_the_most_times(gate):
    """1,000,000 times are taken, with a coin at the highest of them; one more is refused, on whatever line it stands."""
    made, _ = payments(1)
    most = "times %d 1000 1" % MOST_TIMES
    gate.answers(
        ["verdict * ok", most, coin(1, height=MOST_TIMES - 1)],
        [ENTER, (submitted(made[0]), granted(made[0])), ("peer 1 getblock 999999", "block 999999 1000999")],
    )
    for told, line, token in (
        ([coin(1, height=MOST_TIMES), most], 1, "coin-above-tip"),
        (["times %d 1000 1" % (MOST_TIMES + 1)], 1, "times-limit"),
        ([most, "bloom 1", "times 1 5 0"], 3, "times-limit"),
        (["times 1 5 0"] * 3 + ["times %d 5 0" % (MOST_TIMES - 3), "times 1 5 0", "x"], 5, "times-limit"),
    ):
        done = gate.run("run", lines(told))
        same("%r" % told, (done.stdout.decode(), done.status), ("opening %d %s\n" % (line, token), 2))


def test_an_opening_of_many_coins_and_verdicts(gate):
    """200,000 coins and 20,000 verdict rows: each coin can be spent, and each row is found, the first and the last too."""
    rows = 20000
    made, coins = payments(200000)
    words = ("ok", "soft", "hard")
    verdicts = ["verdict %s 0 %s" % (tx.wtxid(), words[number % 3]) for number, tx in enumerate(made[:rows])]
    events = []
    for number in (0, 1, 2, 9999, 10000, 10001, 19997, 19998, 19999, 20000, 199999):
        wanted = (granted(made[number]), "denied A44 keep non-mandatory-script-verify-flag", "denied A45 close mandatory-script-verify-flag-failed")
        reply = wanted[number % 3] if number < rows else "denied A43 keep verdict-missing"
        events += [("peer %d enter 192.0.2.1" % number, "entered none"), (submitted(made[number], number), reply)]
    gate.answers(["times 101 1000 600"] + coins + verdicts, events)


def test_a_hundred_and_one_blocks_in_a_lane(gate):
    """One event connects 101 blocks. A hundred of them can be disconnected by one event, and their payments come back."""
    made, coins = payments(101)
    blocks = [Block(block(number).time, block(number).txs + [tx]) for number, tx in enumerate(made)]
    lane = [
        ("chain 0 5000 " + " ".join(it.hex() for it in blocks), "chain 201 removed 0 entered 0"),
        ("chain 101 5000", "refused C6 no-undo"),
        ("chain 100 5000", "chain 101 removed 0 entered 100"),
        ("chain 2 5000", "refused C6 no-undo"),
        ("chain 0 5000 " + " ".join(it.hex() for it in blocks[1:]), "chain 201 removed 100 entered 0"),
    ]
    found, count, journal = raced(gate, lines(opening(*coins)) + "---\n" + lines(event for event, _ in lane))
    same("calls", count, len(lane))
    same_lines(found[0], [reply for _, reply in lane])
    same("the journal's events and replies", journal, lane)
    same("the audit", audited(gate, lines(opening(*coins)) + "---\n", journal), ("legal 5\n", 0))
    listed = ("peer 1 mempool", "listing 100 " + " ".join(tx.txid() for tx in made[1:]))
    gate.answers(opening(*coins), lane[:3] + [ENTER, listed])


def test_a_journal_of_many_submissions(gate):
    """Eight lanes of 625 submissions: their journal is legal, and illegal from its last entry where that reply is changed."""
    made, coins = payments(5000)
    told = [made[first : first + 625] for first in range(0, 5000, 625)]
    text = [["peer %d enter 192.0.2.1" % peer] + [submitted(tx, peer) for tx in each] for peer, each in enumerate(told)]
    found, count, journal = raced(gate, lines(opening(*coins)) + "".join("---\n" + lines(lane) for lane in text))
    same("calls", (count, len(journal)), (5008, 5008))
    for replies, each in zip(found, told):
        same_lines(replies, ["entered none"] + [granted(tx) for tx in each])
    head = lines(opening(*coins)) + "---\n"
    same("the audit", audited(gate, head, journal), ("legal 5008\n", 0))
    event, reply = journal[-1]
    same("with the last reply changed", audited(gate, head, journal[:-1] + [(event, reply + "0")]), ("illegal 5008\n", 1))
    same_lines(gate.replies(opening(*coins), [event for event, _ in journal]), [reply for _, reply in journal])


def test_a_pool_of_sixty_thousand(gate):
    """It is listed to a peer and to a user, and its first and last entries are found."""
    count = 60000
    made, coins = payments(count)
    ids = [tx.txid() for tx in made]
    asked = 'user a rpc 5000 {"method":"%s","params":[%s],"id":1}'
    answer = 'rpc 200 {"error":null,"id":1,"result":%s}'
    size = made[0].virtual_size(1)
    info = '{"bytes":%d,"maxmempool":300000000,"mempoolminfee":1000,"minrelaytxfee":1000,"size":%d}' % (count * size, count)
    gate.answers(
        opening(*coins),
        [ENTER]
        + [(submitted(tx), granted(tx)) for tx in made]
        + [
            ("peer 1 mempool", "listing %d %s" % (count, " ".join(ids))),
            (asked % ("getrawmempool", ""), answer % ("[%s]" % ",".join('"%s"' % it for it in ids))),
            (asked % ("getmempoolinfo", ""), answer % info),
            (asked % ("getmempoolancestors", '"%s"' % ids[0]), answer % "[]"),
            (asked % ("getmempooldescendants", '"%s"' % ids[-1]), answer % "[]"),
        ],
    )


def test_many_coins_and_verdicts_learnt(gate):
    """50,000 coins and 20,000 verdicts are learnt above an opening that has none, each known from then on; those that nobody
    needs are forgotten at once, and may be learnt again."""
    count, rows, spent = 50000, 20000, (0, 1, 9999, 19998, 19999)
    made, coins = payments(count)
    learnt = ["chain " + line for line in coins]
    judged = ["chain verdict %s 0 %s" % (tx.wtxid(), "soft" if number % 2 else "ok") for number, tx in enumerate(made[:rows])]
    denied = "denied A44 keep non-mandatory-script-verify-flag"
    answered = [(submitted(made[number]), denied if number % 2 else granted(made[number])) for number in spent]
    kept = sum(number % 2 == 0 for number in spent)
    gate.answers(
        ["times 101 1000 600"],
        [ENTER]
        + [(line, "set") for line in learnt + judged]
        + [(line, "refused C11 coin-known") for line in learnt[::1000]]
        + [(line, "refused C12 verdict-known") for line in judged[::1000]]
        + answered
        + [("chain forget 0", "forgotten 0 %d %d" % (count - kept, rows - kept)), ("chain forget 0", "forgotten 0 0 0")]
        + [(line, "refused C11 coin-known" if number in spent and number % 2 == 0 else "set") for number, line in enumerate(learnt[:10])]
        + [(learnt[-1], "set"), (submitted(made[-1]), "denied A43 keep verdict-missing"), ("chain forget 0", "forgotten 0 10 0")],
    )


def test_coins_of_long_scripts(gate):
    """A coin's script has at most 10,000 bytes, however long a line may be; numbers of blocks may be as great as any."""
    front = "chain " + coin(1, script=b"")[:-1]
    longest = "51" * ((16777216 - len(front)) // 2)
    gate.answers(
        ["times 101 1000 600"],
        [
            (front + longest, "refused C9 coin-unspendable"),
            (front + "51" * 10001, "refused C9 coin-unspendable"),
            (front + "6A" + "51" * 9999, "refused C9 coin-unspendable"),
            (front + "51" * 10000, "set"),
            (front + "51" * 10000, "refused C11 coin-known"),
            ("chain forget 9007199254740991", "refused C6 no-undo"),
            ("chain forget 9007199254740992", "refused L1 bad-line"),
            ("chain forget 0", "forgotten 0 1 0"),
            (front + longest + "51", "refused L2 line-too-long"),
        ],
    )


def test_a_long_chain_of_forgotten_blocks(gate):
    """2,000 blocks, of which the last ten are ever connected: what was learnt and made below them is forgotten."""
    events = []
    for number in range(2000):
        tx = payment(number + 1, 99000)
        one = block(number)
        events += [("chain " + coin(number + 1), "set"), ("chain 0 5000 " + Block(one.time, one.txs + [tx]).hex(), "chain %d removed 0 entered 0" % (101 + number))]
        if number >= 19 and number % 10 == 9:
            # the coinbases and the payments of ten blocks; the coins that they spent were spent
            events.append(("chain forget 10", "forgotten 10 20 0"))
    events += [("chain 11 5000", "refused C6 no-undo"), ("chain 10 5000", "chain 2090 removed 0 entered 10"), ("chain forget 1", "refused C6 no-undo")]
    gate.answers(opening(), events)


@long
def test_memory_of_a_chain_that_goes_on(gate):
    """2,000 blocks of 100 payments, whose coins are learnt and forgotten, take at most 1.1 times as much memory as 200."""
    done = subprocess.run([os.path.join(ROOT, "bench", "living"), gate.program], stdin=subprocess.DEVNULL, capture_output=True, text=True, check=False)
    print(done.stdout.strip())
    same("standard error and status after %s" % done.stdout, (done.stderr, done.returncode), ("", 0))


def test_thirty_thousand_sessions(gate):
    """Each number is known from then on, and each session answers for itself."""
    numbers = range(30000)
    events = [("peer %d enter 192.0.2.1" % it, "entered none") for it in numbers]
    events += [("peer %d enter 192.0.2.1" % it, "denied P3 keep peer-known") for it in numbers]
    events += [("peer %d leave" % it, "left") for it in numbers if it % 2]
    events += [("peer %d leave" % it, "denied P2 keep peer-closed" if it % 2 else "left") for it in numbers]
    gate.answers(opening(), events)


def test_a_whitelist_of_many_entries(gate):
    """An address has the flags of all entries whose subnet has it, wherever they stand among 400."""
    entries = ["whitelist noban@10.%d.%d.0/24" % (it // 256, it % 256) for it in range(399)] + ["whitelist addr@10.0.0.0/8"]
    events = [("peer 0 enter 10.0.0.1", "entered noban,download,addr"), ("peer 1 enter 10.1.142.255", "entered noban,download,addr")]
    events += [("peer 2 enter 10.1.143.0", "entered addr"), ("peer 3 enter 11.0.0.1", "entered none")]
    gate.answers(["times 1 0 0"] + entries, events)


def test_replacements_leave_no_memory_behind(gate):
    """100,000 replacements in a pool of one entry, in an address space that so many entries do not fit."""
    value, count = 100000000, 100000
    made = [payment(1, value - 1000 - 100 * number) for number in range(count)]
    events = ["peer 1 enter 192.0.2.1"] + [submitted(tx) for tx in made]
    wanted = ["entered none"] + [granted(tx, 1000 + 100 * number, 1 if number else 0) for number, tx in enumerate(made)]
    limit = (24 * MEGABYTE, 24 * MEGABYTE)
    text = lines(opening(coin(1, value))) + "---\n" + lines(events)
    done = gate.run("run", text, preexec_fn=lambda: resource.setrlimit(resource.RLIMIT_AS, limit))
    same("standard error and status", (done.stderr, done.status), (b"", 0))
    same_lines(done.stdout.decode().splitlines(), wanted)


def test_lanes_past_their_number(gate):
    """A 65th lane ends the program, while its input is still open."""
    with Talk(gate, "lanes") as talk:
        talk.say("times 1 0 0\n" + "---\n" * 65)
        status = talk.process.wait(SECONDS)
        same("what is printed, and the status", (talk.process.stdout.read(), talk.process.stderr.read(), status), (b"", past(66, TOO_MANY_LANES), 1))
