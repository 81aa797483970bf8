"""Rounds of lanes: a gate that goes on from the state that the round before led to, and what is printed as each ends."""

import os
import subprocess
import tempfile

from bitcoin import coin, payment
from causes import CALLERS
from chain_model import Block
from failing import each_growth
from gate import lines, same, same_lines, true
from growths import FAULT, UNKNOWN
from heights import block
from kinds import long
from streams import NO_MEMORY, TOO_MANY, TOO_MANY_LANES, Talk, past

OPENING = lines(["times 101 1000 600", "verdict * ok", "bloom 1", coin(1), coin(2)])
BEFORE = OPENING.count("\n")
NO_LANE = "a round begins with a line ---"
UNKNOWN_PEER = "denied P1 keep peer-unknown"
LISTS = 'user a rpc 0 {"method":"getrawmempool","id":1}'
# the most entries of a journal that `gate audit` reads to its end, where it has ten rounds: two lines each, and nine bases
MOST_OF_TEN = (1000000 - 9) // 2


def sends(tx):
    return 'user a rpc 5000 {"method":"sendrawtransaction","params":["%s"],"id":1}' % tx.hex()


def answer(result):
    return 'rpc 200 {"error":null,"id":1,"result":%s}' % result


def sent(tx):
    return answer('"%s"' % tx.txid())


def listed(*made):
    return answer("[%s]" % ",".join('"%s"' % tx.txid() for tx in made))


def input_of(rounds):
    """An opening, and rounds: for each lane its events."""
    return OPENING + "===\n".join("".join("---\n" + lines(lane) for lane in lanes) for lanes in rounds)


def printed_of(rounds, journal=False):
    """What is printed of rounds whose lanes have their events and replies, and are called in the lanes' order."""
    found, count = [], 0
    for number, lanes in enumerate(rounds):
        if number:
            found.append("base %d" % count)
        for place, lane in enumerate(lanes, 1):
            found += ["lane %d" % place] + [reply for _, reply in lane]
        called = [pair for lane in lanes for pair in lane]
        found.append("settled %d" % len(called))
        if journal:
            found += [part for event, reply in called for part in ("> " + event, "< " + reply)]
        count += len(called)
    return found


def events_of(rounds):
    return [[[event for event, _ in lane] for lane in lanes] for lanes in rounds]


def prints(gate, text, wanted, words="lanes", status=0):
    done = gate.run(words, text)
    same_lines(done.stdout.decode().splitlines(), wanted)
    same("standard error", done.stderr, b"")
    same("status", done.status, status)


def is_unread(gate, text, line, limit):
    """Nothing is printed, since no lane was run, and standard error says why."""
    done = gate.run("lanes", text)
    same("after %r" % text[-100:], (done.stdout, done.stderr, done.status), (b"", past(BEFORE + line, limit), 1))


def journal_in(printed):
    """The lines of the journal of rounds among what is printed of them."""
    return [line for line in printed if line.startswith(("> ", "< ", "base "))]


def audited(gate, journal):
    done = gate.run("audit", OPENING + "---\n" + lines(journal))
    same("standard error of the audit", done.stderr, b"")
    return done.stdout.decode(), done.status


def made_rounds():
    """Two transactions, and rounds: what one sends is listed in a later one, and a session goes on."""
    one, two = payment(1, 99000), payment(2, 99000)
    return one, two, [
        [[(sends(one), sent(one))], [("peer 1 enter 192.0.2.1", "entered none")]],
        [[]],
        [[("peer 1 mempool", "listing 1 " + one.txid()), ("peer 1 leave", "left")]],
        [[(LISTS, listed(one)), (sends(two), sent(two)), (LISTS, listed(one, two))]],
    ]


def test_rounds_go_on(gate):
    """Each round goes on from the state before; lanes are numbered from 1, and a base counts the calls of all rounds before it."""
    _, _, rounds = made_rounds()
    done = gate.run("lanes --journal", input_of(events_of(rounds)))
    same("end", (done.stderr, done.status), (b"", 0))
    found = done.stdout.decode().splitlines()
    # the journal of the first round has its two calls in either order
    right = printed_of(rounds, True)
    first = right.index("base 2")
    other = right[:first - 4] + right[first - 2 : first] + right[first - 4 : first - 2]
    true("the first round is neither of the two: %r" % found[:first], found[:first] in (right[:first], other))
    same_lines(found[first:], right[first:])
    prints(gate, input_of(events_of(rounds)), printed_of(rounds))
    same("the audit", audited(gate, journal_in(found)), ("legal 7\n", 0))


def test_the_audit_of_some_rounds(gate):
    """The journals of the first rounds are legal by themselves; with another number in a base line, or none, they are not."""
    _, _, rounds = made_rounds()
    journal = journal_in(gate.run("lanes --journal", input_of(events_of(rounds))).stdout.decode().splitlines())
    bases = [place for place, line in enumerate(journal) if line.startswith("base ")]
    same("bases", [journal[place] for place in bases], ["base 2", "base 2", "base 4"])
    for place, count in zip(bases, (2, 2, 4)):
        same("the audit of the first", audited(gate, journal[:place]), ("legal %d\n" % count, 0))
        same("the audit up to a base", audited(gate, journal[: place + 1]), ("legal %d\n" % count, 0))
        wrong = journal[:place] + ["base %d" % (count + 1)] + journal[place + 1 :]
        same("the audit of a wrong base", audited(gate, wrong), ("illegal %d\n" % (count + 1), 1))


def test_lines_of_rounds(gate):
    """A line `===` ends a round, also where it has one empty lane; empty lines and comments may stand before the next line `---`."""
    leave = ("peer 1 leave", UNKNOWN_PEER)
    prints(gate, OPENING + "---\n===\n---", printed_of([[[]], [[]]]))
    prints(gate, OPENING + "---\n===\n\n# ===\n#\n---\npeer 1 leave", printed_of([[[]], [[leave]]]))
    prints(gate, OPENING + "---\npeer 1 leave\n---\n===\n---\n---\npeer 1 leave\n", printed_of([[[leave], []], [[], [leave]]]))
    prints(gate, OPENING + "---\n====\n=== \n===\r\n #\n===\n---\n---\n", [
        "lane 1"] + ["refused L1 bad-line"] * 4 + ["settled 0", "base 0", "lane 1", "lane 2", "settled 0"])


def test_rounds_without_a_lane(gate):
    """Behind a line `===` the first line that is not skipped is `---`: nothing is run, and standard error names the line."""
    is_unread(gate, OPENING + "---\n===", 2, NO_LANE)
    is_unread(gate, OPENING + "---\npeer 1 leave\n===\n", 3, NO_LANE)
    is_unread(gate, OPENING + "---\n===\n\n#\n", 4, NO_LANE)
    is_unread(gate, OPENING + "---\n===\n\npeer 1 leave\n---\n", 4, NO_LANE)
    is_unread(gate, OPENING + "---\n===\n===\n---\n", 3, NO_LANE)
    is_unread(gate, OPENING + "---\n===\n--- \n---\n", 3, NO_LANE)
    is_unread(gate, OPENING + "---\n===\n---\n===\n#\n #\n---\n", 6, NO_LANE)
    done = gate.run("lanes --explain", OPENING + "---\nx\n===\n---\ny\n===\nz\n")
    same("lines that are told of", done.stderr.decode().splitlines(), [
        'gate: line %d: "%s" is unknown; expected %s' % (BEFORE + line, word, CALLERS) for line, word in ((2, "x"), (5, "y"))] + ["gate: line %d: %s" % (BEFORE + 7, NO_LANE)])


def test_lanes_are_counted_over_all_rounds(gate):
    """64 lanes and 1,000,000 lines are the most of all rounds together."""
    for most in (OPENING + "---\n" + "===\n---\n" * 63, OPENING + "---\n" * 32 + "===\n" + "---\n" * 32):
        done = gate.run("lanes", most)
        same("64 lanes", (done.stdout.count(b"lane "), done.stderr, done.status), (64, b"", 0))
        is_unread(gate, most + "---\n", most.count("\n") - BEFORE + 1, TOO_MANY_LANES)
        is_unread(gate, most + "===\n---\n", most.count("\n") - BEFORE + 2, TOO_MANY_LANES)
    # 1,000,000 lines behind the one that ends the opening
    text = OPENING + "---\n" + "\n" * 499999 + "===\n---\n" + "\n" * 499999
    is_unread(gate, text + "\n", 1000002, TOO_MANY)
    prints(gate, text, ["lane 1", "settled 0", "base 0", "lane 1", "settled 0"])


def test_callers_of_lanes_in_rounds(gate):
    """A lane of a later round has a caller of its own, whose lines are told of with `--explain`; base lines are lines of a journal."""
    text = OPENING + "---\npeer 1 leave\n===\n---\noperator bloom on\npeer 1 leave\n"
    done = gate.run("lanes --explain", text)
    same("standard output", done.stdout.decode().splitlines(), [
        "lane 1", UNKNOWN_PEER, "settled 1", "base 1", "lane 1", "set", "fault wrong-caller", "settled 1"])
    true("line 6 is told of, and no other: %r" % done.stderr, done.stderr.decode().startswith("gate: line %d: the caller is not that of the lane" % (BEFORE + 6)))
    same("lines that are told of", done.stderr.count(b"\n"), 1)
    done = gate.run("audit --explain", OPENING + "---\nbase 0\n> peer 1 leave\n< %s\nbase 1\n" % UNKNOWN_PEER)
    same("the audit", (done.stdout, done.stderr, done.status), (b"legal 1\n", b"", 0))


def test_rounds_print_as_they_end(gate):
    """The first round is out before the second, of 90,000 calls, has ended."""
    calls = 30000
    later = [["peer %d leave" % peer] * calls for peer in (1, 2, 3)]
    text = input_of([[["peer 9 leave"]]] + [later])
    with Talk(gate, "lanes") as talk:
        talk.say(text)
        talk.process.stdin.close()
        talk.process.stdin = None
        talk.hears(lines(["lane 1", UNKNOWN_PEER, "settled 1", "base 1"]))
        true("the second round had ended", talk.process.poll() is None)


def test_a_living_chain_in_rounds(gate):
    """What one round learns the next ones spend, confirm and forget; their journal is legal."""
    tx = payment(3, 99000)
    confirmed = Block(block(0).time, block(0).txs + [tx])
    rounds = [
        [[("chain " + coin(3), "set"), ("chain verdict %s 0 ok" % tx.wtxid(), "set")]],
        [[(sends(tx), sent(tx))]],
        [[("chain " + coin(3), "refused C11 coin-known"), ("chain 0 5000 " + confirmed.hex(), "chain 101 removed 1 entered 0")]],
        [[("chain forget 1", "forgotten 1 4 1"), ("chain 1 5000", "refused C6 no-undo")]],
        [[(LISTS, listed()), (sends(tx), 'rpc 500 {"error":{"code":-25,"message":"bad-txns-inputs-missingorspent","rule":"A25"},"id":1,"result":null}')]],
    ]
    found = printed_of(rounds, True)
    prints(gate, input_of(events_of(rounds)), found, "lanes --journal")
    journal = journal_in(found)
    same("the audit", audited(gate, journal), ("legal 9\n", 0))
    wrong = [line.replace("< forgotten 1 4 1", "< forgotten 1 4 0") for line in journal]
    same("the audit of another count", audited(gate, wrong), ("illegal 6\n", 1))


def test_learning_in_the_lane_of_another(gate):
    """Coins, verdicts and forgetting are the chain's: in the lane of a peer, of a user or of the operator they are not called."""
    events = ["chain " + coin(3), "chain verdict %s 0 ok" % payment(3, 99000).wtxid(), "chain forget 0"]
    for first, reply in (("peer 1 leave", UNKNOWN_PEER), (LISTS, listed()), ("operator bloom on", "set")):
        wanted = ["lane 1", reply] + ["fault wrong-caller"] * 3 + ["settled 1"]
        prints(gate, OPENING + "---\n" + lines([first] + events), wanted)
    prints(gate, OPENING + "---\n" + lines(events + ["peer 1 leave"]), ["lane 1", "set", "set", "forgotten 0 3 1", "fault wrong-caller", "settled 3"])


def in_rounds(printed):
    """What is printed of each round, without the lines of the bases."""
    found = [[]]
    for line in printed:
        if line.startswith("base "):
            found.append([])
        else:
            found[-1].append(line)
    return found


def is_stopped(what, found, right):
    """What is printed of a round of one lane whose memory ran out is all of it, or a front, or what it is where the lane stopped."""
    if found == right[: len(found)]:
        return
    settled = next(number for number, line in enumerate(found) if line.startswith("settled "))
    same_lines([what] + found[:settled], [what] + right[:settled])
    count = int(found[settled].split(" ")[1])
    true("%s: %d calls, and %d replies" % (what, count, settled - 1), count - (settled - 1) in (0, 1))
    journal = [line for line in right if line.startswith(("> ", "< "))][: 2 * count]
    same_lines([what] + found[settled + 1 :], [what] + journal[: len(found) - settled - 1])


def test_each_growth_of_rounds(gate):
    """Memory that is refused once: the rounds before are whole, none is run behind the one that it ended, and the journal is legal.

    An event that is answered by `fault memory` has changed nothing, and the rounds go on.
    """
    one, two, rounds = made_rounds()
    rounds = [[rounds[0][0]], [[(LISTS, listed(one)), (sends(two), sent(two))]], [[(LISTS, listed(one, two))]]]
    right = in_rounds(printed_of(rounds, True))
    ended, unknown, faults = set(), set(), 0
    for growth, done in each_growth(gate.program, "lanes --journal", input_of(events_of(rounds))):
        what, printed = "growth %d" % growth, done.stdout.decode().splitlines()
        same(what, (done.status, done.stderr), (1, NO_MEMORY) if done.status else (0, b""))
        found = in_rounds(printed)
        last = len(found) - 1
        if FAULT in printed:
            faults += 1
        elif UNKNOWN in printed:
            same(what, (printed[-1], done.status, found[:last]), (UNKNOWN, 1, right[:last]))
            same_lines([what] + found[last][:-1], [what] + right[last][: len(found[last]) - 1])
            unknown.add(last)
        elif done.status:
            same(what, found[:last], right[:last])
            is_stopped(what, found[last], right[last])
        else:
            same(what, found, right)
        if done.status:
            ended.add(last)
        journal = journal_in(printed)
        if journal and journal[-1].startswith("> "):
            journal.pop()
        count = sum(line.startswith("> ") for line in journal)
        same("the audit behind " + what, audited(gate, journal), ("legal %d\n" % count, 0))
    same("rounds that memory ended", ended, {0, 1, 2})
    same("rounds of which it was not known whether they settle", unknown, {0, 1, 2})
    true("no event was answered by `fault memory`", faults)


def ran_to(gate, words, text, printed):
    """Runs the program with its output in a file, and gives the most memory that it had, in bytes."""
    with tempfile.TemporaryFile() as file:
        file.write(text.encode())
        file.seek(0)
        process = subprocess.Popen(gate.words(words), stdin=file, stdout=printed, stderr=subprocess.PIPE)
        said = process.stderr.read()
        _, status, used = os.wait4(process.pid, 0)
        process.returncode = os.waitstatus_to_exitcode(status)
        process.stderr.close()
    same("gate " + words, (said, process.returncode), (b"", 0))
    return 1024 * used.ru_maxrss


def lanes_of(count, calls):
    """So many lanes that have so many calls together, each of which is denied."""
    return [["peer %d leave" % peer] * (calls // count) for peer in range(1, count + 1)]


def rounds_of(numbers, calls):
    """Rounds with so many lanes each, and so many calls."""
    return [lanes_of(count, calls) for count in numbers]


def is_printed(file, numbers, calls):
    """The replies of all rounds, their bases, and their journals, of which only the number of lines is told."""
    count, file = 0, iter(file)
    for place, lanes in enumerate(numbers):
        if place:
            same("a base", next(file), "base %d\n" % count)
        for lane in range(1, lanes + 1):
            same("a lane", next(file), "lane %d\n" % lane)
            same("the replies of a lane", {next(file) for _ in range(calls // lanes)}, {UNKNOWN_PEER + "\n"})
        made = calls // lanes * lanes
        same("what is settled", next(file), "settled %d\n" % made)
        marks = [0, 0]
        for _ in range(2 * made):
            marks["> < ".index(next(file)[:2]) // 2] += 1
        same("the marks of a journal", marks, [made, made])
        count += made
    same("what follows", next(file, None), None)
    return count


def many_rounds(gate, numbers, calls):
    """Rounds of so many lanes, with their journal, which is audited as far as the limit of lines lets it. Gives the memory that they took."""
    with tempfile.TemporaryFile("w+") as printed:
        used = ran_to(gate, "lanes --journal", input_of(rounds_of(numbers, calls)), printed)
        printed.seek(0)
        count = is_printed(printed, numbers, calls)
        printed.seek(0)
        journal = journal_in(line.rstrip("\n") for line in printed)
    if len(journal) <= 1000000:
        same("the audit", audited(gate, journal), ("legal %d\n" % count, 0))
    return used, journal


def test_ten_rounds(gate):
    """64 lanes in ten rounds, of 1,000 calls each."""
    many_rounds(gate, [7, 7, 7, 7] + [6] * 6, 1000)


@long
def test_ten_rounds_of_the_most_calls(gate):
    """Ten rounds of 90,000 calls each from 64 lanes: memory doesn't grow with the rounds that are done.

    Their journal has some 900,000 entries, and an audit reads at most 499,995 of ten rounds within its limit of lines. So the
    journal of the first five is audited, and that of ten rounds of 49,998 calls.
    """
    numbers, calls = [7, 7, 7, 7] + [6] * 6, 90000
    two, _ = many_rounds(gate, numbers[-2:], calls)
    ten, journal = many_rounds(gate, numbers, calls)
    print("two rounds took %d MB, and ten rounds %d MB" % (two >> 20, ten >> 20))
    # the input stands in memory from the beginning on: 13 bytes a call
    true("ten rounds took %d bytes, and two %d" % (ten, two), ten - two < 8 * calls * 13 + (16 << 20))
    fifth = [place for place, line in enumerate(journal) if line.startswith("base ")][4]
    same("the audit of five rounds", audited(gate, journal[: fifth + 1]), ("legal %s\n" % journal[fifth].split(" ")[1], 0))
    _, journal = many_rounds(gate, [6] * 10, MOST_OF_TEN // 10 // 6 * 6)
    true("an audit of ten rounds has %d lines" % len(journal), len(journal) <= 1000000)
