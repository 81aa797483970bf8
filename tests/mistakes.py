"""The mistakes that are made when lines are written by hand, each with the words that its message has to have."""

import re
from dataclasses import dataclass

from bitcoin import number_hash, printed
from gate import Gate, same, true
from kinds import heavy

TIMES = "times 101 1000 600\n"
OPENED = TIMES + "---\n"
ID = printed(number_hash(1))
SCRIPT = "0014" + "22" * 20
# a transaction of one input and one output, without witnesses
SIMPLE = "02000000" + "01" + "11" * 32 + "00000000" + "00" + "ffffffff" + "01" + "e803000000000000" + "16" + SCRIPT + "00000000"
# the same with one witness of one item of one byte
WITNESSED = SIMPLE[:8] + "0001" + SIMPLE[8:-8] + "0101aa" + SIMPLE[-8:]
EXPECTED = re.compile(r"expected .*, ([\d,]+) to ([\d,]+)$")


@dataclass(frozen=True)
class Mistake:
    """A line, and the words that the message on it has to have."""

    line: str
    words: tuple[str, ...]


def mistake(line: str, *words: str) -> Mistake:
    return Mistake(line, words)


IN_OPENINGS = (
    # closed sets of words
    mistake("bloom yes", '"yes"', "0 or 1"),
    mistake("bloom on", '"on"', "0 or 1"),
    mistake("bloom 2", '"2"', "0 or 1"),
    mistake("blocksonly true", '"true"', "0 or 1"),
    mistake("mempoolfullrbf 2", '"2"', "0 or 1"),
    mistake("permitbaremultisig x", '"x"', "0 or 1"),
    mistake("feesroundup 2", '"2"', "0 or 1"),
    mistake("relayfeefirst yes", '"yes"', "0 or 1"),
    mistake("whitelistrelay relay", '"relay"', "0 or 1"),
    mistake("verdict * yes", '"yes"', "ok, soft or hard"),
    mistake("verdict * valid", '"valid"', "ok, soft or hard"),
    mistake("verdict %s 0 fail" % ID, '"fail"', "ok, soft or hard"),
    mistake("coin %s 0 1000 1 0014" % ID, '"0014"', "plain or cb"),
    mistake("coin %s 0 1000 1 coinbase %s" % (ID, SCRIPT), '"coinbase"', "plain or cb"),
    mistake("frobnicate 1", '"frobnicate"', "budget, policy, from, times,", "permitbaremultisig"),
    mistake("whitelist mempol@10.0.0.0/8", '"mempol"', "is it mempool?"),
    mistake("whitelist relay,everything@10.0.0.0/8", '"everything"', "bloomfilter, bloom, noban, forcerelay, relay, mempool, download, addr or all"),
    # words that are near
    mistake("bugdet 1", "is it budget?"),
    mistake("Bloom 1", "is it bloom?"),
    mistake("limitancestorcounts 1", "is it limitancestorcount?"),
    mistake("----", "is it ---?"),
    mistake("--", "is it ---?"),
    # lines of a node's settings
    mistake("minrelaytxfee=100", "is it minrelaytxfee 100?"),
    mistake("-minrelaytxfee=100", "is it minrelaytxfee 100?"),
    mistake("--bloom=1", "is it bloom 1?"),
    mistake("whitelist=127.0.0.1", "is it whitelist 127.0.0.1?"),
    mistake("maxmempool 300", "is it budget, in virtual bytes?"),
    mistake("-maxmempool=300", "is it budget, in virtual bytes?"),
    mistake("peerbloomfilters=1", "is it bloom?"),
    # bounds
    mistake("limitancestorsize 0", '"0" is too small', "101 to 10,000"),
    mistake("limitancestorcount 0", '"0" is too small', "the most ancestors", "1 to 1,000"),
    mistake("limitdescendantcount 1001", '"1001" is too large', "the most descendants", "1 to 1,000"),
    mistake("minrelaytxfee 99999999999", '"99999999999" is too large', "satoshi per 1,000 virtual bytes", "0 to 100,000,000"),
    mistake("minrelaytxfee 0.00001", "is not a whole number", "satoshi per 1,000 virtual bytes"),
    mistake("mempoolexpiry 0", "is too small", "how many hours an entry stays", "1 to 100,000"),
    mistake("budget 300MB", "is not a number", "the budget in virtual bytes", "0 to 1,000,000,000"),
    mistake("budget -1", "is not a number", "0 to 1,000,000,000"),
    mistake("budget 1e6", "is not a number", "0 to 1,000,000,000"),
    mistake("budget +1", "is not a number"),
    mistake("budget 010", "has a leading zero"),
    mistake("budget", "ends before the budget in virtual bytes, 0 to 1,000,000,000"),
    mistake("from 10000001", "is too large", "the height of the first block time", "0 to 10,000,000"),
    mistake("times 101 1000", "ends before the seconds from each to the next"),
    mistake("times 101 4294967296 600", "is too large", "the first block time", "0 to 4,294,967,295"),
    mistake("mintxsize 100", "is too large", "60 to 82"),
    # coins and verdicts
    mistake("coin %s:0 1000 1 plain %s" % (ID, SCRIPT), "has an index, which is a word of its own", "a txid of 64 hexadecimal digits"),
    mistake("coin %s 0 1000 1 plain" % ID[:-1], "is not an id", "a txid of 64 hexadecimal digits"),
    mistake("coin %s 0 0.001 1 plain %s" % (ID, SCRIPT), "is not a whole number", "a value in satoshi"),
    mistake("coin %s -1 1000 1 plain %s" % (ID, SCRIPT), "is not a number", "the index of an output", "0 to 4,294,967,295"),
    mistake("coin %s 0 1000 1 plain bc1qw508d6qejxtdg4y5r3zarvary0c5xw7kv8f3t4" % ID, "not an address"),
    mistake("coin %s 0 1000 1 plain 00140" % ID, "even number of hexadecimal digits"),
    mistake("coin %s 0 1000 1" % ID, "ends before plain or cb"),
    mistake("verdict %s ok" % ID, "is not a number", "the index of an input"),
    mistake("verdict all ok", "is not an id", "* or a wtxid of 64 hexadecimal digits"),
    # other lines
    mistake("peer 1 enter 192.0.2.1", "an event in the opening", "---"),
    mistake("chain 0 5000", "an event in the opening", "---"),
    mistake("> peer 1 leave", "a line of a journal", "gate audit"),
    mistake("--- ", "ends with a space"),
    mistake("bloom\t1", "has a tab"),
    mistake("bloom  1", "two spaces"),
    mistake("bloom 1\r", "carriage return"),
    mistake("bloom 1 # on", '"#" is one word too many'),
)

IN_EVENTS = (
    # closed sets of words
    mistake("tx 02000000", '"tx"', "peer, user, chain or operator"),
    mistake("getmempoolinfo", '"getmempoolinfo"', "peer, user, chain or operator"),
    mistake("peer 1", "ends before enter, leave, tx, package, mempool, getblock, headers or feefilter"),
    mistake("peer 1 submit 5000 00", '"submit"', "enter, leave, tx, package, mempool, getblock, headers or feefilter"),
    mistake("peer enter 192.0.2.1", "is not a number", "the number of a peer"),
    mistake("chain connect 1 5000", '"connect"', "coin, verdict, forget or how many blocks are disconnected"),
    mistake("chain 01 5000", "has a leading zero", "how many blocks are disconnected"),
    mistake("chain", "ends before coin, verdict, forget or how many blocks are disconnected"),
    mistake("operator minfee 1", '"minfee"', "floor, bloom, upload, historic or ibd"),
    mistake("operator bloom 1", '"1"', "on or off"),
    mistake("operator", "ends before floor, bloom, upload, historic or ibd"),
    mistake("chain verdict %s 0 yes" % ID, '"yes"', "ok, soft or hard"),
    mistake("chain coin %s 0 1000 1 0014" % ID, '"0014"', "plain or cb"),
    # words that are near
    mistake("Peer 1 leave", "is it peer?"),
    mistake("peer 1 leaves", "is it leave?"),
    mistake("user a rcp 5000 {}", "is it rpc?"),
    mistake("operator blom on", "is it bloom?"),
    mistake("chain coins 1", "is it coin?"),
    # values
    mistake("peer 1 enter", "ends before an address"),
    mistake("peer 1 enter 192.0.2.1:8333", "is not an IP address", "without a port"),
    mistake("peer 1 enter example.com", "is not an IP address", "host name"),
    mistake("peer 1 enter [::1]", "is not an IP address", "brackets"),
    mistake("peer 1 tx 5000", "ends before a transaction in hexadecimal digits"),
    mistake("peer 1 tx %s" % SIMPLE, "is not a number", "the second of the event"),
    mistake("peer 1 package 5000 00", "ends before a transaction in hexadecimal digits"),
    mistake("peer 1 package 5000 00 00 00", '"00" is one word too many'),
    mistake("peer 1 getblock 4294967296", "is too large", "a height, 0 to 4,294,967,295"),
    mistake("peer 1 feefilter 0.00001", "is not a whole number", "satoshi per 1,000 virtual bytes"),
    mistake('user a {"method":"getmempoolinfo"}', "expected rpc"),
    mistake('user a rpc {"method":"getmempoolinfo"}', "is not a number", "the second of the event"),
    mistake("user a rpc 5000", "ends before a call in JSON"),
    mistake("chain verdict * ok", "is not an id", "a wtxid of 64 hexadecimal digits"),
    mistake("chain coin %s:0 1000 1 plain -" % ID, "has an index, which is a word of its own"),
    # other lines
    mistake("---", "lane", "gate lanes"),
    mistake("===", "lane", "gate lanes"),
    mistake("bloom 1", "a line of an opening behind the line ---"),
    mistake("coin %s 0 1000 1 plain -" % ID, "the event begins with the word chain"),
    mistake("> peer 1 leave", "a line of a journal", "gate audit"),
    mistake("peer 1 leave\r", "carriage return"),
    mistake("peer 1 leave now", '"now" is one word too many'),
)

NO_TRANSACTIONS = (
    mistake("zz", "not hexadecimal", "character 1 is 'z'"),
    mistake("0x" + SIMPLE, "not hexadecimal", "character 2 is 'x'"),
    mistake(SIMPLE[:-1], "an odd number of hexadecimal digits"),
    mistake(SIMPLE[:6], "is cut behind byte 3, in the version"),
    mistake(SIMPLE[:60], "is cut behind byte 30, in input 0"),
    mistake(SIMPLE[:100], "is cut behind byte 50, in output 0"),
    mistake(SIMPLE[:-2], "is cut behind byte 81, in the locktime"),
    mistake(WITNESSED[:-10], "is cut behind byte 82, in the witness of input 0"),
    mistake(SIMPLE + "00", "bytes are left over behind the transaction: 1 of 83"),
    mistake(SIMPLE + SIMPLE, "bytes are left over behind the transaction: 82 of 164"),
    mistake(ID, "32 bytes, as a txid has"),
    mistake("70736274ff0100520200", "a PSBT"),
    mistake("cHNidP8BAHUCAAAAASaBcTce3/KF6Tet7qSze3gADAVmy7OtZGQXE8pCFxv2", "a PSBT"),
    mistake(SIMPLE[:8] + "0002" + SIMPLE[8:], "does not decode: an unknown flag"),
)

# lines with one number that is not there yet: each behind an opening's times
NUMBERS_OF_OPENINGS = (
    "budget %s", "from %s", "times %s 1000 600", "times 1 %s 600", "times 1 1000 %s", "coin " + ID + " %s 1000 1 plain -", "coin " + ID + " 0 %s 1 plain -",
    "coin " + ID + " 0 1000 %s plain -", "verdict " + ID + " %s ok",
)
NUMBERS_OF_EVENTS = (
    "peer %s leave", "peer 1 tx %s 00", "peer 1 package %s 00 00", "peer 1 getblock %s", "peer 1 headers %s", "peer 1 feefilter %s", "user a rpc %s {}", "chain %s 5000", "chain 0 %s",
    "chain forget %s", "chain coin " + ID + " %s 1000 1 plain -", "chain coin " + ID + " 0 %s 1 plain -", "chain coin " + ID + " 0 1000 %s plain -",
    "chain verdict " + ID + " %s ok", "operator floor %s",
)


def message(gate: Gate, words: str, text: str, line: int) -> str:
    """What standard error says of a line, which is one message."""
    start = "gate: line %d: " % line
    said = [it[len(start):] for it in gate.run(words, text).stderr.decode().splitlines() if it.startswith(start)]
    true("a message on line %d of %r" % (line, text[-80:]), bool(said))
    return said[0]


def has_words(made: Mistake, said: str) -> None:
    for words in made.words:
        true("%r of %r has %r" % (said, made.line[:80], words), words in said)


def test_mistakes_in_openings(gate: Gate) -> None:
    for made in IN_OPENINGS:
        has_words(made, message(gate, "run", TIMES + made.line + "\n", 2))


def test_mistakes_in_events(gate: Gate) -> None:
    """Each is refused as a line, whatever the message says."""
    for made in IN_EVENTS:
        text = OPENED + made.line + "\n"
        has_words(made, message(gate, "run --explain", text, 3))
        same("reply to %r" % made.line, gate.run("run", text).stdout, b"refused L1 bad-line\n")


def test_no_transactions(gate: Gate) -> None:
    """Each is denied by A1, from a peer and by a call."""
    for made in NO_TRANSACTIONS:
        entered = OPENED + "peer 1 enter 192.0.2.1\n"
        peer = entered + "peer 1 tx 5000 %s\n" % made.line
        has_words(made, message(gate, "run --explain", peer, 4))
        same("reply to %r" % made.line, gate.run("run", peer).stdout, b"entered none\ndenied A1 keep tx-decode\n")
        call = OPENED + 'user a rpc 5000 {"method":"sendrawtransaction","params":["%s"]}\n' % made.line
        has_words(made, message(gate, "run --explain", call, 3))
    whole = OPENED + "peer 1 enter 192.0.2.1\npeer 1 tx 5000 %s\npeer 1 tx 5000 %s\n" % (SIMPLE, WITNESSED)
    said = gate.run("run --explain", whole).stderr.decode()
    true("nothing is said of the bytes of a transaction", "the transaction is" not in said and "left over" not in said)


def bounds(said: str) -> tuple[int, int]:
    found = EXPECTED.search(said)
    true("bounds in %r" % said, found is not None)
    assert found
    least, most = (int(it.replace(",", "")) for it in found.groups())
    return least, most


def parses_in_opening(gate: Gate, line: str) -> bool:
    return b"bad-line" not in gate.run("run", TIMES + line + "\n").stdout


def parses_as_event(gate: Gate, line: str) -> bool:
    return b"bad-line" not in gate.run("run", OPENED + line + "\n").stdout


@heavy
def test_the_bounds_that_are_said(gate: Gate) -> None:
    """Each number that a message says is the least or the greatest one is taken, and the one beyond it is not."""
    settings = tuple(word + " %s" for word, it in gate.settings().items() if it.most > 1)
    for words, lines, opening, line, parses in (
        ("run", NUMBERS_OF_OPENINGS + settings, TIMES, 2, parses_in_opening),
        ("run --explain", NUMBERS_OF_EVENTS, OPENED, 3, parses_as_event),
    ):
        for form in lines:
            least, most = bounds(message(gate, words, opening + form % "x" + "\n", line))
            for number, fits in ((least - 1, False), (least, True), (most, True), (most + 1, False)):
                same("whether %r parses" % (form % number), parses(gate, form % number), fits)
