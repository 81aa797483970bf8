"""Openings: their first fault, with its line, ends the program with status 2."""

from bitcoin import coin, number_hash, payment, printed
from gate import lines, same, true
from kinds import heavy
from model import releases

LIMIT = 16777216
TIMES = "times 101 1000 600"
EVENTS = "---\npeer 1 enter 192.0.2.1\n"
COIN = coin(1)
SCRIPT = "00142222222222222222222222222222222222222222"


def fails(gate, opening, line, token):
    """The opening, lines or bytes, is refused at this line."""
    text = opening if isinstance(opening, bytes) else lines(opening).encode()
    done = gate.run("run", text + EVENTS.encode())
    about = repr(text[-200:])
    same("standard output for " + about, done.stdout, b"opening %d %s\n" % (line, token.encode()))
    same("status", done.status, 2)
    said = done.stderr.decode().splitlines()
    if not gate.says_causes:
        same("standard error for " + about, said, [])
        return
    true("one line on standard error: %r" % said, len(said) == 1 and said[0].startswith("gate: "))
    true("no line %d in %r" % (line, said), ("gate: line %d: " % line if line else "gate: the opening: ") in said[0])


def opens(gate, opening):
    text = opening if isinstance(opening, bytes) else lines(opening).encode()
    done = gate.run("run", text + EVENTS.encode())
    same("standard output for " + repr(text[-200:]), done.stdout, b"entered none\n")
    same("status", done.status, 0)


def test_a_line_that_is_no_text(gate):
    """A line that is not UTF-8 has no form, and a comment that is not is skipped."""
    head = lines([TIMES]).encode()
    fails(gate, head + b"bloom 1\xff\n", 2, "bad-line")
    fails(gate, head + b"\xc0\x80\n", 2, "bad-line")
    fails(gate, head + COIN.encode() + b"\xff\n", 2, "bad-line")
    opens(gate, head + b"# \xff\n")


def test_digits_of_a_coin(gate):
    """Odd or other digits in a script, and ids of another length, have no form."""
    txid = printed(number_hash(1))
    for line in (
        "coin %s 0 1 0 plain %s" % (txid, SCRIPT[:-1]),
        "coin %s 0 1 0 plain %s" % (txid, SCRIPT + "0"),
        "coin %s 0 1 0 plain %s" % (txid, SCRIPT[:-1] + "g"),
        "coin %s 0 1 0 plain 0x%s" % (txid, SCRIPT),
        "coin %s 0 1 0 plain" % txid,
        "coin %s 0 1 0 plain " % txid,
        "coin %s 0 1 0 coinbase %s" % (txid, SCRIPT),
        "coin %s 0 1 0 plain %s 1" % (txid, SCRIPT),
        "coin %s 0 1 0 plain %s" % (txid[:-1], SCRIPT),
        "coin %s 0 1 0 plain %s" % (txid + "0", SCRIPT),
        "coin %s 0 1 0 plain %s" % (txid + "00", SCRIPT),
        "coin %s 0 1 0 plain %s" % (txid[:-2] + "zz", SCRIPT),
        "coin %s 4294967296 1 0 plain %s" % (txid, SCRIPT),
        "coin %s 0 1 4294967296 plain %s" % (txid, SCRIPT),
        "coin %s 0 9007199254740992 0 plain %s" % (txid, SCRIPT),
        "coin %s 0 01 0 plain %s" % (txid, SCRIPT),
    ):
        fails(gate, [TIMES, line], 2, "bad-line")
    opens(gate, [TIMES, "coin %s 4294967295 1 0 plain %s" % (txid.upper(), SCRIPT.upper()), "coin %s 0 0 0 cb -" % txid])


def test_forms_of_lines(gate):
    """Other lines have no form, and a setting or a verdict pair stands once."""
    wtxid = "11" * 32
    for line in ("budget", "budget 1000000001", "budget -1", "budget 01", "times 1 1", "times 1 4294967296 0", "bloom 2", "bloom", "bloom  1", " bloom 1", "bloom 1 ",
                 "verdict * maybe", "verdict * OK", "verdict %s ok" % wtxid, "verdict %s 4294967296 ok" % wtxid, "verdict %s 0 ok" % wtxid[:-1],
                 "peer 1 leave", "----", "--- ", "---\r", " ", "coins", "COIN"):
        fails(gate, [TIMES, "", "# a comment", line], 4, "bad-line")
    for first, second in (("budget 1", "budget 1"), ("bloom 0", "bloom 1"), ("verdict * ok", "verdict * soft"),
                          ("verdict %s 1 ok" % wtxid, "verdict %s 1 hard" % wtxid), ("verdict %s 0 ok" % ("ab" * 32), "verdict %s 0 ok" % ("AB" * 32))):
        fails(gate, [TIMES, first, second], 3, "bad-line")
    opens(gate, [TIMES, "budget 1000000000", "bloom 0", "verdict * hard", "verdict %s 0 ok" % wtxid, "verdict %s 1 soft" % wtxid, "times 0 0 0", "times 1 4294967295 1"])


def test_each_fault(gate):
    """Each token of docs/FORMATS.md, and lines before coins, and coins in their order."""
    script = "6a" + "00" * 9
    high, unspendable = coin(2, 2100000000000001), "coin %s 0 1 0 plain %s" % (printed(number_hash(3)), script)
    above = coin(4, height=101)
    fails(gate, [], 0, "no-times")
    fails(gate, [COIN], 0, "no-times")
    fails(gate, [TIMES, "times 999900 0 0"], 2, "times-limit")
    fails(gate, ["times 2 4294967295 1"], 1, "times-limit")
    fails(gate, [TIMES, COIN, "", high], 4, "coin-value")
    fails(gate, [TIMES, unspendable], 2, "coin-unspendable")
    fails(gate, [TIMES, "coin %s 0 1 0 plain %s" % (printed(number_hash(3)), "00" * 10001)], 2, "coin-unspendable")
    fails(gate, [above, TIMES], 1, "coin-above-tip")
    fails(gate, [TIMES, COIN, coin(1, 5)], 3, "coin-twice")
    fails(gate, [TIMES, high, unspendable, above, "x"], 5, "bad-line")
    fails(gate, [TIMES, above, high], 2, "coin-above-tip")
    fails(gate, ["bloom 1", high], 0, "no-times")
    opens(gate, ["times 1000000 0 4294"])
    opens(gate, [TIMES, coin(1, 2100000000000000, 100), coin(1, index=1), "coin %s 0 1 0 plain %s" % (printed(number_hash(3)), "00" * 10000)])


def test_the_first_height(gate):
    """From 0 to 10,000,000, at most once. The line that leads the tip past 10,000,000 is at fault, whichever it is."""
    for number in ("0", "1", "900000", "9999900"):
        opens(gate, ["from " + number, TIMES.replace("101", "1")])
        opens(gate, [TIMES.replace("101", "1"), "from " + number])
    for number in ("10000001", "01", "-1", "9007199254740992", "4294967296", "", "1 1", "x"):
        fails(gate, [TIMES, "from " + number], 2, "bad-line")
    fails(gate, ["from 5", TIMES, "from 5"], 3, "bad-line")
    fails(gate, ["from 0", "from 0", TIMES], 2, "bad-line")
    fails(gate, ["from 5"], 0, "no-times")
    opens(gate, ["from 9999900", TIMES])
    opens(gate, [TIMES, "from 9999900"])
    fails(gate, ["from 9999901", "", TIMES], 3, "times-limit")
    fails(gate, [TIMES, "", "from 9999901"], 3, "times-limit")
    fails(gate, ["times 100 1000 600", "from 9999901", "bloom 1", "times 1 1000 0"], 4, "times-limit")
    fails(gate, ["times 100 1000 600", "from 9999900", "times 1 0 0", "times 1 0 0"], 4, "times-limit")
    fails(gate, ["from 10000000", TIMES.replace("101", "2")], 2, "times-limit")
    opens(gate, ["from 10000000", "times 1 5 0", "times 0 0 0"])
    opens(gate, ["from 9000001", "times 1000000 0 4294"])
    fails(gate, ["from 9000002", "times 1000000 0 4294"], 2, "times-limit")
    fails(gate, ["from 9000000", "times 1000001 0 4294"], 2, "times-limit")


def test_coins_above_a_first_height(gate):
    """A coin may have any height up to the tip, and any below the first that has a time."""
    first = ["from 900000", TIMES]
    opens(gate, first + [coin(1, height=0), coin(2, height=899999), coin(3, height=900000), coin(4, height=900100)])
    opens(gate, [coin(4, height=900100)] + first)
    fails(gate, first + [coin(1, height=900101)], 3, "coin-above-tip")
    fails(gate, [coin(1, height=101), "from 0", TIMES], 1, "coin-above-tip")
    opens(gate, [coin(1, height=101), "from 1", TIMES])


def test_settings(gate):
    """Each setting opens by its least and by its greatest number, and by nothing past them or that is no number; and once."""
    for word, (least, most, _) in gate.settings().items():
        for number in (least, most):
            opens(gate, [TIMES, "%s %d" % (word, number)])
        for rest in ("", " ", " x", " 01", " %d %d" % (most, most), " %d" % (least - 1), " %d" % (most + 1), " 9007199254740992"):
            fails(gate, [TIMES, word + rest], 2, "bad-line")
        fails(gate, [TIMES] + ["%s %d" % (word, most)] * 2, 3, "bad-line")


def test_releases(gate):
    """Each release opens by its name, wherever it stands and once, and nothing else does."""
    for name in releases():
        opens(gate, [TIMES, "policy " + name])
        opens(gate, ["policy " + name, TIMES])
        for rest in ("", " ", " " + name[:-1], " " + name + "0", " " + name.upper(), " %s %s" % (name, name), " " + name[-2:]):
            fails(gate, [TIMES, "policy" + rest], 2, "bad-line")
    fails(gate, [TIMES, "policy core-26", "mintxsize 65", "policy core-27"], 4, "bad-line")


def test_an_opening_alone(gate):
    """An opening without a line `---` ends at the end of the input."""
    for text in (TIMES, TIMES + "\n", TIMES + "\n---", TIMES + "\n---\n"):
        done = gate.run("run", text)
        same("standard output for %r" % text, (done.stdout, done.status), (b"", 0))


@heavy
def test_a_line_past_the_limit(gate):
    """A line of 16,777,216 bytes is read or skipped; one byte more is `bad-line`, also in a comment and without a newline."""
    head = lines([TIMES]).encode()
    opens(gate, head + b"#".ljust(LIMIT, b"x") + b"\n")
    fails(gate, head + b"#".ljust(LIMIT + 1, b"x") + b"\n", 2, "bad-line")
    fails(gate, head + b"x" * LIMIT + b"\n", 2, "bad-line")
    fails(gate, head + b"x" * (LIMIT + 1) + b"\n", 2, "bad-line")
    done = gate.run("run", head + b"x" * (2 * LIMIT))
    same("standard output", (done.stdout, done.status), (b"opening 2 bad-line\n", 2))


@heavy
def test_too_many_lines(gate):
    """1,000,000 lines are read; the next is `bad-line`, whatever it is."""
    head = TIMES + "\n" + "\n" * 999998
    done = gate.run("run", head + "---\npeer 1 enter 192.0.2.1\n")
    same("standard output", (done.stdout, done.status), (b"entered none\n", 0))
    for line in ("\n", "---\n", "#"):
        done = gate.run("run", head + "\n" + line)
        same("standard output", (done.stdout, done.status), (b"opening 1000001 bad-line\n", 2))


@heavy
def test_many_coins(gate):
    """An opening of 100,000 coins, of which the last is spent."""
    count = 100000
    tx = payment(count, 99000)
    text = [TIMES, "verdict * ok"] + [coin(number) for number in range(1, count + 1)]
    gate.answers(text, [
        ("peer 1 enter 192.0.2.1", "entered none"),
        ("peer 1 tx 5000 " + tx.hex(), "admitted %s fee 1000 vsize %d replaced 0" % (tx.txid(), tx.virtual_size(1))),
    ])
