"""What is wrong with a line, on standard error: the mistakes of one who begins, each with its line."""

import json
import os
import re

from bitcoin import coin, number_hash, printed
from gate import ROOT, as_bytes, same, true
from kinds import heavy

TIMES = "times 101 1000 600\n"
ENTER = "peer 1 enter 192.0.2.1\n"
OPENED = TIMES + "---\n"
ID = printed(number_hash(1))
SCRIPT = "00142222222222222222222222222222222222222222"
SUMMARY = re.compile(r"gate: \d+ events?: ")
DENIED = re.compile(r"gate: line \d+: (transaction \d+ of \d+: )?[APUC]\d+ ")
MOVED = re.compile(r"gate: line \d+: [-+] [0-9a-f]{64}$")
MOST = "9,007,199,254,740,991"
# what an opening can't say of a release that it names
LACKS = {
    "core-22": None,
    "core-25": None,
    "core-26": None,
    "core-27": None,
    "core-28": None,
    "core-29": None,
    "core-30": None,
    "knots-29": "version 3 (A12), dust that a child spends (A17), and options of its own",
}
# what begins a line of an opening and is no setting
LINES = ("budget", "policy", "from", "times", "coin", "verdict", "whitelist", "rpcwhitelist")
CALLERS = "peer, user, chain or operator"
CHAIN = "coin, verdict, forget or how many blocks are disconnected, 0 to " + MOST
SCRIPT_EXPECTED = "a script in hexadecimal digits, and not an address, or -"
STRANGE = "the caller is not that of the lane, which is the caller of its first event; is a line --- missing?"


def example(name):
    with open(os.path.join(ROOT, "examples", name), "rb") as file:
        return file.read()


def tells(gate, words, stdin, lines, stdout, status=0):
    """Standard error has these lines but for a summary, and standard output what it has without them."""
    done = gate.run(words, stdin)
    about = "gate %s with %r" % (words, as_bytes(stdin)[-100:])
    said = [line for line in done.stderr.decode().splitlines() if not SUMMARY.match(line)]
    same("standard error of " + about, said, ["gate: " + line for line in lines])
    same("standard output of " + about, (done.stdout.decode(), done.status), (stdout, status))


def refuses(gate, opening, line, cause):
    """An opening's form is told of, by every command that reads one."""
    for words in ("run", "lanes", "audit"):
        tells(gate, words, opening, ["line %d: %s" % (line, cause)], "opening %d bad-line\n" % line, 2)


def lists(gate, opening, line, word):
    """An opening's line begins with an unknown word, and all that it might begin with is listed."""
    start = 'gate: line %d: "%s" is unknown; expected ' % (line, word)
    for words in ("run", "lanes", "audit"):
        done = gate.run(words, opening)
        same("gate %s" % words, (done.stdout.decode(), done.status), ("opening %d bad-line\n" % line, 2))
        begins, _, listed = done.stderr.decode().partition("expected ")
        same("the message of gate %s" % words, begins + "expected ", start)
        same("what it lists", sorted(re.split(", | or ", listed.rstrip("\n"))), sorted([*LINES, *gate.settings()]))


def explains(gate, line, cause):
    """An event's form is told of where that is asked for, and an event's line is not."""
    text = OPENED + ENTER + line + "\n" + "peer 1 leave\n"
    said = ["line 4: " + cause]
    answered = "entered none\nrefused L1 bad-line\nleft\n"
    tells(gate, "run --explain", text, said, answered)
    tells(gate, "run", text, [], answered)


def test_releases(gate):
    """What an opening can't say of the release that it names is told once, where causes are asked for, and nowhere else."""
    for name, lacks in LACKS.items():
        text = TIMES + "policy %s\n---\n" % name + ENTER
        said = ["line 2: an opening can't say all that %s does: %s" % (name, lacks)] if lacks else []
        tells(gate, "run --explain", text, said, "entered none\n")
        tells(gate, "run", text, [], "entered none\n")
        done = gate.run("run --explain=json", text)
        told = [it for it in map(json.loads, done.stderr.decode().splitlines()) if "cause" in it]
        same("causes in JSON", told, [{"line": 2, "cause": it.partition(": ")[2]} for it in said])


def test_openings(gate):
    """Each mistake in an opening."""
    lists(gate, example("payment.hex"), 1, example("payment.hex").decode()[:40] + "..")
    refuses(gate, OPENED.replace("\n", "\r\n"), 1, "ends with a carriage return")
    refuses(gate, b"\xef\xbb\xbf" + OPENED.encode(), 1, "begins with a byte order mark")
    refuses(gate, TIMES + ENTER, 2, "an event in the opening; is the line --- missing?")
    refuses(gate, TIMES + "--- \n" + ENTER, 2, "ends with a space")
    refuses(gate, TIMES + "bloom  1\n", 2, "has two spaces in a row")
    refuses(gate, TIMES + " bloom 1\n", 2, "begins with a space")
    refuses(gate, TIMES + "bloom 1 \n", 2, "ends with a space")
    refuses(gate, TIMES + "bloom\t1\n", 2, "has a tab; words are separated by single spaces")
    refuses(gate, TIMES + "Bloom 1\n", 2, '"Bloom" is unknown; is it bloom?')
    refuses(gate, TIMES + "bugdet 1\n", 2, '"bugdet" is unknown; is it budget?')
    lists(gate, TIMES + "zzzzzzzz 1\n", 2, "zzzzzzzz")
    refuses(gate, TIMES + "whitelist=127.0.0.1\n", 2, '"whitelist=127.0.0.1" is unknown; is it whitelist 127.0.0.1?')
    refuses(gate, TIMES + "bloom\n", 2, "ends before 0 or 1")
    refuses(gate, TIMES + "bloom 2\n", 2, '"2" is unknown; expected 0 or 1')
    refuses(gate, TIMES + "bloom 1 1\n", 2, '"1" is one word too many')
    refuses(gate, TIMES + "bloom 1\nbloom 1\n", 3, "repeats a setting or a verdict of an earlier line")
    refuses(gate, TIMES + "budget 1000000001\n", 2, '"1000000001" is too large; expected the budget in virtual bytes, 0 to 1,000,000,000')
    refuses(gate, TIMES + "limitancestorcount 0\n", 2, '"0" is too small; expected the most ancestors, 1 to 1,000')
    refuses(gate, TIMES + "limitancestorcount 1001\n", 2, '"1001" is too large; expected the most ancestors, 1 to 1,000')
    refuses(gate, TIMES + "limitdescendantcount\n", 2, "ends before the most descendants, 1 to 1,000")
    refuses(gate, TIMES + "limitdescendantcount x\n", 2, '"x" is not a number; expected the most descendants, 1 to 1,000')
    refuses(gate, TIMES + "limitancestorcounts 1\n", 2, '"limitancestorcounts" is unknown; is it limitancestorcount?')
    refuses(gate, TIMES + "mempoolfullrbf 2\n", 2, '"2" is unknown; expected 0 or 1')
    refuses(gate, TIMES + "limitancestorsize 100\n", 2, '"100" is too small; expected the most thousand virtual bytes of ancestors, 101 to 10,000')
    refuses(gate, TIMES + "limitdescendantsize 10001\n", 2, '"10001" is too large; expected the most thousand virtual bytes of descendants, 101 to 10,000')
    refuses(gate, TIMES + "mintxsize 59\n", 2, '"59" is too small; expected the least bytes without witnesses, 60 to 82')
    refuses(gate, TIMES + "mintxsize 83\n", 2, '"83" is too large; expected the least bytes without witnesses, 60 to 82')
    refuses(gate, TIMES + "mempoolexpiry 0\n", 2, '"0" is too small; expected how many hours an entry stays, 1 to 100,000')
    refuses(gate, TIMES + "bytespersigop 26\n", 2, '"26" is too large; expected bytes per signature operation, 1 to 25')
    refuses(gate, TIMES + "dustrelayfee 0.00003\n", 2, '"0.00003" is not a whole number; expected satoshi per 1,000 bytes, 0 to 100,000,000')
    refuses(gate, TIMES + "minrelaytxfee\n", 2, "ends before satoshi per 1,000 virtual bytes, 0 to 100,000,000")
    refuses(gate, TIMES + "minrelaytxfees 1\n", 2, '"minrelaytxfees" is unknown; is it minrelaytxfee?')
    refuses(gate, TIMES + "datacarrieroutputs 2 2\n", 2, '"2" is one word too many')
    refuses(gate, TIMES + "permitbaremultisig 2\n", 2, '"2" is unknown; expected 0 or 1')
    refuses(gate, TIMES + "incrementalrelayfee 1\nincrementalrelayfee 1\n", 3, "repeats a setting or a verdict of an earlier line")
    refuses(gate, TIMES + "policy core-31\n", 2, '"core-31" is unknown; is it core-30?')
    refuses(gate, TIMES + "policy x\n", 2, '"x" is unknown; expected core-22, core-25, core-26, core-27, core-28, core-29, core-30 or knots-29')
    refuses(gate, TIMES + "policy core-26\npolicy core-27\n", 3, "repeats a setting or a verdict of an earlier line")
    refuses(gate, TIMES + "budget 01\n", 2, '"01" has a leading zero; expected the budget in virtual bytes, 0 to 1,000,000,000')
    refuses(gate, TIMES + "budget 1,000\n", 2, '"1,000" is not a number; expected the budget in virtual bytes, 0 to 1,000,000,000')
    refuses(gate, TIMES + "coin %s 0 0.00100000 1 plain %s\n" % (ID, SCRIPT), 2, '"0.00100000" is not a whole number; expected a value in satoshi, 0 to ' + MOST)
    refuses(gate, TIMES + "coin %s 0 1 1 coinbase %s\n" % (ID, SCRIPT), 2, '"coinbase" is unknown; expected plain or cb')
    refuses(gate, TIMES + "coin %s 0 1 1 plain 0x%s\n" % (ID, SCRIPT), 2, '"0x%s.." is not an even number of hexadecimal digits; expected %s' % (SCRIPT[:38], SCRIPT_EXPECTED))
    refuses(gate, TIMES + "coin %s 0 1 1 plain\n" % ID, 2, "ends before " + SCRIPT_EXPECTED)
    refuses(gate, TIMES + "coin %s 0 1 1 plain -\n" % ID[:-1], 2, '"%s.." is not an id; expected a txid of 64 hexadecimal digits' % ID[:40])
    refuses(gate, TIMES + "verdict * maybe\n", 2, '"maybe" is unknown; expected ok, soft or hard')
    refuses(gate, TIMES.encode() + b"bloom 1\xff\n", 2, "is not UTF-8")
    refuses(gate, TIMES + "> peer 1 leave\n", 2, "a line of a journal, which gate audit reads")
    refuses(gate, TIMES + "rpcwhitelistdefault 2\n", 2, '"2" is unknown; expected 0 or 1')
    refuses(gate, TIMES + "rpcwhitelistdefaults 1\n", 2, '"rpcwhitelistdefaults" is unknown; is it rpcwhitelistdefault?')
    refuses(gate, TIMES + "bloom 1\nbloom 1\nbloom\t1\n", 3, "repeats a setting or a verdict of an earlier line")
    refuses(gate, TIMES + "from\n", 2, "ends before the height of the first block time, 0 to 10,000,000")
    refuses(gate, TIMES + "from x\n", 2, '"x" is not a number; expected the height of the first block time, 0 to 10,000,000')
    refuses(gate, TIMES + "from 10000001\n", 2, '"10000001" is too large; expected the height of the first block time, 0 to 10,000,000')
    refuses(gate, TIMES + "from 1 2\n", 2, '"2" is one word too many')
    refuses(gate, TIMES + "form 1\n", 2, '"form" is unknown; is it from?')
    refuses(gate, "from 5\n" + TIMES + "from 5\n", 3, "repeats a setting or a verdict of an earlier line")
    refuses(gate, TIMES + "chain forget 0\n", 2, "an event in the opening; is the line --- missing?")
    refuses(gate, TIMES + "chain " + coin(1) + "\n", 2, "an event in the opening; is the line --- missing?")


def test_other_faults_of_openings(gate):
    """A fault of an opening that is none of form is told by its sentence."""
    high = "The height of a coin is above the tip, which is the height of the first block time, less one and as many as there are times"
    for words in ("run", "lanes", "audit"):
        none = "the opening: no-times: There is no block time; a line `times COUNT FIRST STEP` gives some"
        tells(gate, words, "---\n" + ENTER, [none], "opening 0 no-times\n", 2)
        tells(gate, words, TIMES + coin(1, height=101) + "\n---\n", ["line 2: coin-above-tip: " + high], "opening 2 coin-above-tip\n", 2)
        word = '"Noban" is unknown; is it noban?'
        tells(gate, words, TIMES + "whitelist Noban@10.0.0.0/8\n---\n", ["line 2: unknown-permission: " + word], "opening 2 unknown-permission\n", 2)


def test_events(gate):
    """Each mistake in an event's line."""
    explains(gate, "peer 1 leave\r", "ends with a carriage return")
    explains(gate, "peer 1 tx 0 01 00", '"00" is one word too many')
    explains(gate, "peer  1 leave", "has two spaces in a row")
    explains(gate, "peer 1 leave ", "ends with a space")
    explains(gate, "Peer 1 leave", '"Peer" is unknown; is it peer?')
    explains(gate, "per 1 leave", '"per" is unknown; is it peer?')
    explains(gate, "peer 1 leaves", '"leaves" is unknown; is it leave?')
    explains(gate, "peer 1", "ends before enter, leave, tx, package, mempool, getblock, headers or feefilter")
    explains(gate, "peer x leave", '"x" is not a number; expected the number of a peer, 0 to ' + MOST)
    explains(gate, "peer 9007199254740992 leave", '"9007199254740992" is too large; expected the number of a peer, 0 to ' + MOST)
    explains(gate, "peer 1 headers 4294967296", '"4294967296" is too large; expected a height, 0 to 4,294,967,295')
    explains(gate, "peer 1 feefilter", "ends before satoshi per 1,000 virtual bytes, 0 to " + MOST)
    explains(gate, "peer 1 feefilter 9007199254740992", '"9007199254740992" is too large; expected satoshi per 1,000 virtual bytes, 0 to ' + MOST)
    explains(gate, "peer 1 feefilters 1", '"feefilters" is unknown; is it feefilter?')
    explains(gate, "bloom 1", "a line of an opening behind the line ---")
    explains(gate, "rpcwhitelistdefault 1", "a line of an opening behind the line ---")
    explains(gate, "> peer 1 leave", "a line of a journal, which gate audit reads")
    explains(gate, "{", '"{" is unknown; expected ' + CALLERS)
    explains(gate, '"method": "getmempoolinfo"', '""method":" is unknown; expected ' + CALLERS)
    explains(gate, 'user a rpc {"method":"getmempoolinfo"}', '"{"method":"getmempoolinfo"}" is not a number; expected the second of the event, 0 to ' + MOST)
    for address in ("1.2.3.4:8333", "[::1]", "expyuzz4wqqyqhjn.onion"):
        explains(gate, "peer 2 enter " + address, '"%s" is not an IP address; expected an address without a port, brackets or a host name' % address)


def test_events_of_a_living_chain(gate):
    """Each mistake in a coin, a verdict or a number of blocks, and a coin as an opening has it."""
    words = "coin %s 0 1 1 plain %s" % (ID, SCRIPT)
    explains(gate, "chain", "ends before " + CHAIN)
    explains(gate, "chain coins " + ID, '"coins" is unknown; is it coin?')
    explains(gate, "chain Coin " + ID, '"Coin" is unknown; is it coin?')
    explains(gate, "chain forgot 1", '"forgot" is unknown; is it forget?')
    explains(gate, "chain connect 1", '"connect" is unknown; expected ' + CHAIN)
    explains(gate, "chain coin", "ends before a txid of 64 hexadecimal digits")
    explains(gate, "chain coin %s 0 1 1 plain -" % ID[:-2], '"%s.." is not an id; expected a txid of 64 hexadecimal digits' % ID[:40])
    explains(gate, "chain coin %s 4294967296 1 1 plain -" % ID, '"4294967296" is too large; expected the index of an output, 0 to 4,294,967,295')
    explains(gate, "chain coin %s 0 0.5 1 plain -" % ID, '"0.5" is not a whole number; expected a value in satoshi, 0 to ' + MOST)
    explains(gate, "chain coin %s 0 9007199254740992 1 plain -" % ID, '"9007199254740992" is too large; expected a value in satoshi, 0 to ' + MOST)
    explains(gate, "chain coin %s 0 1 4294967296 plain -" % ID, '"4294967296" is too large; expected the height of a coin, 0 to 4,294,967,295')
    explains(gate, "chain coin %s 0 1 1 coinbase -" % ID, '"coinbase" is unknown; expected plain or cb')
    explains(gate, "chain coin %s 0 1 1 plain" % ID, "ends before " + SCRIPT_EXPECTED)
    explains(gate, "chain coin %s 0 1 1 plain 0" % ID, '"0" is not an even number of hexadecimal digits; expected ' + SCRIPT_EXPECTED)
    explains(gate, "chain %s 1" % words, '"1" is one word too many')
    explains(gate, "chain verdict * ok", '"*" is not an id; expected a wtxid of 64 hexadecimal digits')
    explains(gate, "chain verdict %s ok" % ID, '"ok" is not a number; expected the index of an input, 0 to 4,294,967,295')
    explains(gate, "chain verdict %s 0 good" % ID, '"good" is unknown; expected ok, soft or hard')
    explains(gate, "chain verdict %s 0 ok ok" % ID, '"ok" is one word too many')
    explains(gate, "chain forget", "ends before how many blocks to forget, 0 to " + MOST)
    explains(gate, "chain forget all", '"all" is not a number; expected how many blocks to forget, 0 to ' + MOST)
    explains(gate, "chain forget 01", '"01" has a leading zero; expected how many blocks to forget, 0 to ' + MOST)
    explains(gate, "chain forget 9007199254740992", '"9007199254740992" is too large; expected how many blocks to forget, 0 to ' + MOST)
    explains(gate, "chain forget 0 0", '"0" is one word too many')
    explains(gate, "chain forget\t0", "has a tab; words are separated by single spaces")
    explains(gate, words, "a line of an opening behind the line ---; the event begins with the word chain")
    explains(gate, "verdict %s 0 ok" % ID, "a line of an opening behind the line ---; the event begins with the word chain")
    explains(gate, "from 1", "a line of an opening behind the line ---")


def test_the_first_cause_from_the_left(gate):
    """What stands left of everything else that is wrong is told. A call's JSON, and words of hexadecimal digits, may hold tabs."""
    explains(gate, 'user a rpc x {"a":\t1}', '"x" is not a number; expected the second of the event, 0 to ' + MOST)
    explains(gate, "user a rpc x [1,  2] ", '"x" is not a number; expected the second of the event, 0 to ' + MOST)
    explains(gate, "user a rpc x {}\r", '"x" is not a number; expected the second of the event, 0 to ' + MOST)
    explains(gate, "user a rpc 5\t {}", "has a tab; words are separated by single spaces")
    explains(gate, "user a\tb  rpc 5 {}", "has two spaces in a row")
    explains(gate, "user a\tb rcp 5 {}", '"rcp" is unknown; is it rpc?')
    explains(gate, "user a rpc 5 ", "ends with a space")
    explains(gate, "user a rpc 5", "ends before a call in JSON")
    explains(gate, "peer x  leave", '"x" is not a number; expected the number of a peer, 0 to ' + MOST)
    explains(gate, "peer x leave\r", '"x" is not a number; expected the number of a peer, 0 to ' + MOST)
    explains(gate, "peer\t1 leave ", "has a tab; words are separated by single spaces")
    explains(gate, "peer 1 tx 0 0\t0 11", '"11" is one word too many')
    explains(gate, "chain 0 5 0\t0  00", "has two spaces in a row")
    explains(gate, "chain 0 5 00 ", "ends with a space")
    explains(gate, "--- ", "ends with a space")
    explains(gate, "===\r", "ends with a carriage return")
    gate.answers([TIMES[:-1], "bloom 1"], [
        (ENTER[:-1], "entered none"),
        ("peer 1 tx 0 0\t0", "denied A1 keep tx-decode"),
        ("chain 0 5 0\t0\r", "refused C1 block-decode"),
        ('user a rpc 5  {"method":"getmempoolinfo",\t"id":1}\r', 'rpc 200 {"error":null,"id":1,"result":{"bytes":0,"maxmempool":300000000,"mempoolminfee":1000,"minrelaytxfee":1000,"size":0}}'),
    ])


@heavy
def test_lines_past_their_number(gate):
    """A line past the 1,000,000th is told as that, and once, whatever it is and whatever the line before it is."""
    most = OPENED + "# a comment\n" * 999999
    for before in ("nonsense", "# a comment"):
        for past in ("\n", "# a comment", "nonsense\n", "peer 1 leave"):
            done = gate.run("run --explain", most + before + "\n" + past)
            said = ["gate: line 1000002: " + '"nonsense" is unknown; expected %s' % CALLERS] * (before == "nonsense") + ["gate: line 1000003: 1,000,000 lines are the most"]
            told = done.stderr.decode().splitlines()
            same("of %r behind %r" % (past, before), told[:-1], said)
            true("the summary: " + told[-1], (", %s refused;" % ("1 line" if before[0] == "#" else "2 lines")) in told[-1])
            same("status", (done.status, done.stdout.splitlines()[-1]), (0, b"refused L3 too-many-lines"))


def test_a_last_line_of_the_most_bytes(gate):
    """A last line without a newline is told of like any other, if it has as many bytes as a line may have."""
    for longer in (False, True):
        text = "nonsense " + "x" * (16777216 - len("nonsense ") + longer)
        done = gate.run("run --explain", OPENED + text)
        said = ["gate: line 3: " + ("more than 16,777,216 bytes" if longer else '"nonsense" is unknown; expected %s' % CALLERS)]
        same("standard error", done.stderr.decode().splitlines()[:-1], said)
        same("standard output", done.stdout, b"refused L2 line-too-long\n" if longer else b"refused L1 bad-line\n")


def test_entries_of_a_journal(gate):
    """A line that can't stand where it does: a base of another number, or a reply or an event that is missing. A reply that is
    missing is told."""
    entered, listed = "> peer 1 enter 192.0.2.1\n< entered none\n", "> peer 1 mempool\n< denied P6 close mempool-no-bloom\n"
    for text, line, cause, wrong in (
        ("base 1\n", 3, '"1" is not the number of entries before the line, which is 0', 1),
        (entered + "base 1\n# a comment\n\n" + listed + "base 1\n", 10, '"1" is not the number of entries before the line, which is 2', 3),
        (entered + "base 01\n", 5, '"01" is not the number of entries before the line, which is 1', 2),
        (entered + "base \n", 5, '"" is not the number of entries before the line, which is 1', 2),
        ("> peer 1 enter 192.0.2.1\nbase 0\n", 4, "stands between an event and its reply", 1),
        ("> peer 1 enter 192.0.2.1\n> peer 1 leave\n", 4, "the reply to the event before it is missing", 1),
        (entered + "< entered none\n", 5, "a reply with no event before it", 2),
        ("base\n", 3, 'begins with none of "> ", "< " and "base "', 1),
    ):
        said = ["line %d: %s" % (line, cause)]
        if text.startswith("> peer 1 enter 192.0.2.1\n") and not text.startswith(entered):
            said.append('line %d: entry 1: the reply to "peer 1 enter 192.0.2.1" is "entered none"' % line)
        tells(gate, "audit --explain", OPENED + text, said, "illegal %d\n" % wrong, 1)
    tells(gate, "audit --explain", OPENED + "base 0\n" + entered + "base 1\nbase 1\n" + listed, [], "legal 2\n")


def test_journals(gate):
    """`gate run` on a journal, and `gate audit` on events."""
    journal = example("journal.txt").decode().splitlines()
    behind = journal.index("---")
    said = ["line %d: a line of a journal, which gate audit reads" % number for number, line in enumerate(journal, 1)
            if number > behind + 1 and line[:2] in ("> ", "< ")]
    tells(gate, "run --explain", example("journal.txt"), said, "refused L1 bad-line\n" * len(said))
    tells(gate, "audit --explain", OPENED + ENTER, ['line 3: begins with none of "> ", "< " and "base "'], "illegal 1\n", 1)
    tells(gate, "audit --explain", OPENED + "> peer 1 enter\n< entered none\n", ["line 3: ends before an address without a port, brackets or a host name"], "illegal 1\n", 1)


def test_lanes(gate):
    """A line of a lane that has no form, and one of another caller than the lane's."""
    tells(gate, "lanes --explain", OPENED + "Peer 1 leave\n", ['line 3: "Peer" is unknown; is it peer?'], "lane 1\nrefused L1 bad-line\nsettled 0\n")
    mixed = OPENED + ENTER + "operator bloom on\n# a comment\npeer 1 leave\n"
    answered = "lane 1\nentered none\nfault wrong-caller\nleft\n"
    tells(gate, "lanes --explain", mixed, ["line 4: " + STRANGE], answered + "settled 2\n")
    tells(gate, "lanes --explain", mixed + "---\noperator bloom on\n", ["line 4: " + STRANGE], answered + "lane 2\nset\nsettled 3\n")
    done = gate.run("lanes --explain", example("permissions.txt"))
    same("of a run's input", done.stderr.count(STRANGE.encode()), done.stdout.count(b"fault wrong-caller"))
    true("no lines of other callers", STRANGE.encode() in done.stderr)


def test_lanes_past_their_number(gate):
    tells(gate, "lanes", OPENED + "---\n" * 64, ["line 66: a 65th lane; 64 are the most"], "", 1)


def test_checks(gate):
    """A word that is no text of digits, and one that is."""
    odd, reads = "the transaction has an odd number of hexadecimal digits", "; gate check - reads standard input"
    for word, said in (("0x00", "the transaction is not hexadecimal: character 2 is 'x'" + reads), ("payment.hex", odd + reads), ("0", odd)):
        tells(gate, "check " + word, "", [said], "denied A1 tx-decode\n", 1)
    done = gate.run_words(["check", "01 000"])
    same("of a space", done.stderr, b"gate: the transaction is not hexadecimal: character 3 is ' '; gate check - reads standard input\n")


def test_lines_with_a_form(gate):
    """Nothing is told of lines that have a form, of comments and of empty lines."""
    for name in ("first-path.txt", "permissions.txt", "policies.txt", "rpc.txt", "replacement.txt", "reorganisation.txt", "living-chain.txt", "package.txt"):
        done = gate.run("run --explain", example(name))
        said = [line for line in done.stderr.decode().splitlines() if not any(it.match(line) for it in (SUMMARY, DENIED, MOVED))]
        same("standard error of " + name, said, [])
        same("standard output of " + name, done.stdout, gate.run("run", example(name)).stdout)
    for words, name in (("lanes --explain", "lanes.txt"), ("audit --explain", "journal.txt"), ("audit --explain", "rounds-journal.txt")):
        same("standard error of " + name, gate.run(words, example(name)).stderr, b"")
