"""What `gate audit` takes for a journal, and what it prints."""

import json

from bitcoin import coin, payment
from gate import lines, same
from streams import TOO_LONG, TOO_MANY, past

OPENING = lines(["times 101 1000 600", "verdict * ok", "bloom 1", coin(1)]) + "---\n"
LONGEST = 16777216
LISTED = '> user a rpc 0 {"method":"getrawmempool","id":1}\n< rpc 200 {"error":null,"id":1,"result":[]}\n'
ENTERED = "> peer 1 enter 192.0.2.1\n< entered none\n"
PARSE_ERROR = '< rpc 500 {"error":{"code":-32700,"message":"Parse error"},"id":null,"result":null}\n'


def says(gate, journal, answer):
    """The audit prints this line, with status 0 for a legal journal and 1 for one that is not."""
    text = OPENING.encode() + (journal.encode() if isinstance(journal, str) else journal)
    done = gate.run("audit", text)
    same("standard output for %r" % text[-200:], done.stdout.decode(), answer + "\n")
    same("standard error", done.stderr, b"")
    same("status", done.status, 0 if answer.startswith("legal") else 1)


def is_unread(gate, journal, line, limit):
    """The journal passes a limit at this line of it: nothing is printed, and standard error says why."""
    done = gate.run("audit", OPENING + journal)
    same("standard output", done.stdout, b"")
    same("standard error", done.stderr, past(OPENING.count("\n") + line, limit))
    same("status", done.status, 1)


def test_legal_journals(gate):
    """Each reply is that of its event after those before. Empty lines and comments are skipped; the last line needs no newline."""
    tx = payment(1, 99000)
    submitted = "> peer 1 tx 5000 %s\n< admitted %s fee 1000 vsize %d replaced 0\n" % (tx.hex(), tx.txid(), tx.virtual_size(1))
    says(gate, "", "legal 0")
    says(gate, "\n# nothing\n#", "legal 0")
    says(gate, ENTERED, "legal 1")
    says(gate, ENTERED[:-1], "legal 1")
    says(gate, LISTED + ENTERED + submitted + "> peer 1 mempool\n< listing 1 %s\n" % tx.txid(), "legal 4")
    says(gate, "\n# one\n" + ENTERED.replace("\n", "\n\n# between\n") + "\n" + LISTED, "legal 2")
    says(gate, b"# \xff\n" + ENTERED.encode(), "legal 1")


def test_what_was_due(gate):
    """`--explain` says the reply that is due where there is another one or none, and changes nothing else."""
    entered, asked, due = ENTERED, "> peer 1 mempool\n", "listing 0"
    for journal, answer, line, entry, event, reply in (
        (entered, "legal 1", 0, 0, "", ""),
        (entered + asked + "< listing 1\n", "illegal 2", 4, 2, "peer 1 mempool", due),
        (entered + asked + "# none\n\n< \n" + entered, "illegal 2", 6, 2, "peer 1 mempool", due),
        (entered + asked, "illegal 2", 3, 2, "peer 1 mempool", due),
        (entered + asked + "\n", "illegal 2", 4, 2, "peer 1 mempool", due),
        (entered + asked + "< listing 0\n" + "base 2\n> peer 1 enter ::1\n< entered\n", "illegal 3", 7, 3, "peer 1 enter ::1", "denied P3 keep peer-known"),
        ("> peer 1 mempool\n< listing 0\n", "illegal 1", 2, 1, "peer 1 mempool", "denied P1 keep peer-unknown"),
    ):
        at = OPENING.count("\n") + line
        words = 'gate: line %d: entry %d: the reply to "%s" is "%s"\n' % (at, entry, event, reply) if line else ""
        why = {"line": at, "entry": entry, "event": event, "due": reply}
        for word in ("--explain", "--explain=json"):
            done = gate.run("audit " + word, OPENING + journal)
            same("standard output for %r" % journal, done.stdout.decode(), answer + "\n")
            same("status for %r" % journal, done.status, 0 if answer.startswith("legal") else 1)
            if word == "--explain":
                same("standard error for %r" % journal, done.stderr.decode(), words)
            else:
                same("objects for %r" % journal, [json.loads(it) for it in done.stderr.splitlines()], [why] if line else [])


def test_other_spellings(gate):
    """An event may be spelled in any way that a lane takes."""
    tx = payment(1, 99000)
    says(gate, "> peer 1 enter ::ffff:c000:201\n< entered none\n> peer 1 tx 5000 %s\n< admitted %s fee 1000 vsize %d replaced 0\n"
         % (tx.hex().upper(), tx.txid(), tx.virtual_size(1)), "legal 2")
    for digits in ("-", "0", "zz", "00"):
        says(gate, ENTERED + "> peer 1 tx 5000 %s\n< denied A1 keep tx-decode\n> chain 0 5000 %s\n< refused C1 block-decode\n" % (digits, digits), "legal 3")


def test_illegal_journals(gate):
    """The first pair that is none, or whose reply is another, is named."""
    for pair in (
        "> peer 1 enter 192.0.2.1\n< entered noban\n", "> peer 1 enter 192.0.2.1\n< entered none \n", "> peer 1 enter 192.0.2.1\n<  entered none\n",
        "> peer 1 enter 192.0.2.1\n< entered none\r\n", "> peer 1 enter 192.0.2.1\r\n< entered none\n", "> peer 1 enter 192.0.2.1\n<entered none\n",
        ">peer 1 enter 192.0.2.1\n< entered none\n", ">  peer 1 enter 192.0.2.1\n< entered none\n", " > peer 1 enter 192.0.2.1\n< entered none\n",
        "peer 1 enter 192.0.2.1\nentered none\n", "< entered none\n> peer 1 enter 192.0.2.1\n", "> peer 1 enter 192.0.2.1\n", "> peer 1 enter 192.0.2.1",
        "> peer 1 enter 192.0.2.1\n> peer 1 enter 192.0.2.1\n< entered none\n", "> peer 1 enter 192.0.2.1\n< \n", "> peer 1 enter 192.0.2.1\n<\n",
        "> nonsense\n< refused L1 bad-line\n", "> \n< refused L1 bad-line\n", ">\n< refused L1 bad-line\n", "> # a comment\n< refused L1 bad-line\n",
        "> peer 1 enter 192.0.2.1\n< fault memory\n", "---\n", "===\n", "lane 1\n", "settled 0\n", "base 3\n", "base 01\n", "base\n", "base \n", "base x\n", "base 1 \n", "base +1\n", "Base 0\n", "> base 0\n< base 0\n", "> peer 1 enter 192.0.2.1\nbase 0\n< entered none\n", "> peer 1 enter 192.0.2.1\n< denied P3 keep peer-known\n",
    ):
        says(gate, pair, "illegal 1")
        says(gate, LISTED + pair + LISTED, "illegal 2")
        says(gate, LISTED * 500 + pair, "illegal 501")
    says(gate, ENTERED * 2, "illegal 2")
    says(gate, b"> \xff\n< refused L1 bad-line\n", "illegal 1")
    says(gate, b"> peer 1 enter 192.0.2.1\n< entered \xff\n", "illegal 1")


def test_rounds(gate):
    """A line `base M` stands anywhere but behind the line of an event, any number of times, M the number of entries before it."""
    says(gate, "base 0", "legal 0")
    says(gate, "base 0\n# none\n\nbase 0\n" + ENTERED + "base 1\nbase 1\n" + LISTED + "base 2\n", "legal 2")
    says(gate, LISTED * 10 + "base 10\n" + LISTED * 2 + "base 12\n" + ENTERED, "legal 13")
    says(gate, "base 0\n" * 999998 + ENTERED, "legal 1")
    is_unread(gate, "base 0\n" * 999999 + ENTERED, 1000001, TOO_MANY)
    for wrong in ("0", "2", "01", "1 ", " 1", "1\r", "", "-1", "1.0", "18446744073709551617", "9007199254740993", "x"):
        says(gate, ENTERED + "base %s\n" % wrong + LISTED, "illegal 2")
        says(gate, ENTERED + "base 1\n" + LISTED + "base 2\n" + LISTED * 9 + "base %s" % wrong, "illegal 12")
    says(gate, ENTERED + "base 1\n" + ENTERED, "illegal 2")
    says(gate, LISTED + "> peer 1 enter 192.0.2.1\nbase 1\n< entered none\n", "illegal 2")
    says(gate, LISTED + "base 2\n" + "#" * (LONGEST + 1), "illegal 2")
    is_unread(gate, LISTED + "base " + "1" * (LONGEST - 4), 3, TOO_LONG)


def test_the_bound_is_that_of_a_round(gate):
    """Each round has at most 100,000 entries, and their number is that of all rounds."""
    pairs = "> peer 1 leave\n< denied P1 keep peer-unknown\n" * 100000
    says(gate, pairs + "base 100000\n" + pairs + "base 200000\n", "legal 200000")
    says(gate, pairs + "base 100000\n" + pairs + ENTERED, "illegal 200001")
    says(gate, ENTERED + "base 1\n" + pairs.replace("peer 1", "peer 2") + LISTED, "illegal 100002")
    says(gate, pairs + "base 99999\n", "illegal 100001")
    most = "".join(pairs + "base %d\n" % (100000 * number) for number in (1, 2, 3, 4)) + pairs[:len(pairs) // 100000 * 99998]
    says(gate, most, "legal 499998")
    is_unread(gate, most + ENTERED, 1000001, TOO_MANY)


def test_a_journal_of_the_most_entries(gate):
    """100,000 entries are legal, and any pair after them is not."""
    pairs = "> peer 1 leave\n< denied P1 keep peer-unknown\n" * 100000
    says(gate, pairs, "legal 100000")
    says(gate, pairs + "# no more\n\n", "legal 100000")
    says(gate, pairs + ENTERED, "illegal 100001")
    says(gate, pairs + "x", "illegal 100001")


def test_lines_at_the_limits(gate):
    """A mark is not counted among a line's 16,777,216 bytes. What is wrong before a limit is told first."""
    longest = "> " + "user a rpc 0 ".ljust(LONGEST, "x") + "\n"
    says(gate, longest + PARSE_ERROR, "legal 1")
    says(gate, longest + PARSE_ERROR.replace("Parse", "parse"), "illegal 1")
    is_unread(gate, longest.replace("x\n", "xx\n") + PARSE_ERROR, 1, TOO_LONG)
    is_unread(gate, ENTERED + "> peer 1 leave\n< " + "x" * (LONGEST + 1), 4, TOO_LONG)
    says(gate, "> nonsense\n< refused L1 bad-line\n" + "#" * (LONGEST + 9), "illegal 1")


def test_too_many_lines(gate):
    """1,000,000 lines are read."""
    says(gate, "\n" * 999998 + ENTERED, "legal 1")
    is_unread(gate, "\n" * 1000000 + "\n", 1000001, TOO_MANY)
    is_unread(gate, "\n" * 999999 + ENTERED, 1000001, TOO_MANY)
    says(gate, "x\n" + "\n" * 1000000, "illegal 1")


def test_openings_of_audits(gate):
    """A fault of the opening is told as for a run. Without its last line the journal is empty."""
    for opening, printed, status in (
        ("", "opening 0 no-times\n", 2), ("x\n", "opening 1 bad-line\n", 2), ("times 1 0 0\n> peer 1 leave\n", "opening 2 bad-line\n", 2),
        ("times 1 0 0\n", "legal 0\n", 0), ("times 1 0 0\n---", "legal 0\n", 0),
    ):
        done = gate.run("audit", opening)
        same("%r" % opening, (done.stdout.decode(), done.status), (printed, status))
        same("lines on standard error", len(done.stderr.splitlines()), 1 if status == 2 else 0)
