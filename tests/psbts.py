"""`gate try --psbt`: coins and transaction of a PSBT, by BIP 174, are those of the text that is run."""

import base64
import os
import tempfile
from contextlib import contextmanager

from bitcoin import Input, Output, Transaction, counted, number_hash, payment, printed, with_length
from gate import ROOT, lines, same, true

MAGIC = b"psbt\xff"
SAID = b"gate: scripts are not run, and count as good; --verdict says otherwise\n"
PLACE = ["--tip", "100", "--time", "1600000000", "--height", "90"]


def vectors():
    """The vectors of BIP 174 by their names."""
    with open(os.path.join(ROOT, "tests", "data", "bip174.txt"), encoding="ascii") as file:
        return dict(line.split() for line in file)


def pair(key, value):
    return with_length(key) + with_length(value)


def made(transaction, inputs, outputs=None, before=b""):
    """A PSBT of a transaction in its form without witnesses, and of the pairs of each input and output."""
    ends = [[] for _ in transaction.outputs] if outputs is None else outputs
    maps = [b"".join(one) + b"\x00" for one in [[before + pair(b"\x00", transaction.stripped())]] + inputs + ends]
    return MAGIC + b"".join(maps)


def witness_of(items):
    return counted([with_length(item) for item in items])


@contextmanager
def kept(content):
    """The path of a file with this content."""
    with tempfile.TemporaryDirectory() as folder:
        path = os.path.join(folder, "a psbt")
        with open(path, "wb") as file:
            file.write(content)
        yield path


def coin_line(point, output, height=90):
    return "coin %s %d %d %d plain %s" % (printed(point[0]), point[1], output.value, height, output.script.hex() or "-")


def text_of(transactions, coins, is_json=False, tip=100, time=1600000000):
    """The text of a trial, as docs/FORMATS.md has it."""
    if is_json:
        events = ['user try rpc %d {"id":1,"method":"testmempoolaccept","params":[["%s"]]}' % (time, tx) for tx in transactions]
    else:
        events = ["peer 1 enter 127.0.0.1"] + ["peer 1 tx %d %s" % (time, tx) for tx in transactions]
    return lines(["from %d" % (tip - 10), "times 11 %d 600" % (time - 6000)] + coins + ["verdict * ok", "---"] + events)


def tries(gate, content, text, words=(), status=0):
    """A trial of this PSBT prints what a run of the text prints."""
    with kept(content) as path:
        done = gate.run_words(["try", "--psbt", path] + PLACE + list(words))
    ran = gate.run("run --explain", text)
    same("standard output", done.stdout, ran.stdout)
    same("standard error", done.stderr, SAID + ran.stderr)
    same("status", done.status, status)
    return done


def refused(gate, content, cause, words=()):
    """No trial is made of this PSBT, and standard error says why."""
    with kept(content) as path:
        done = gate.run_words(["try", "--psbt", path] + PLACE + list(words))
        same("standard error", done.stderr.decode(), "gate: %s: %s\n" % (path, cause))
    same("status and standard output", (done.status, done.stdout), (2, b""))


def final_coins():
    """The lines of the coins of the final PSBT of BIP 174: its first input has the transaction that made the coin, the second one the coin."""
    first = bytes.fromhex("58e87a21b56daf0c23be8e7070456c336f7cbaa5c8757924f545887bb2abdd75")
    second = bytes.fromhex("838d0427d0ec650a68aa46bb0b098aea4422c071b2ca78352a077959d07cea1d")
    return [
        coin_line((first, 0), Output(50000000, bytes.fromhex("a9140fb9463421696b82c833af241c78c17ddbde493487"))),
        coin_line((second, 1), Output(200000000, bytes.fromhex("a914b7f5faf40e3d40a5a459b1db3535f2b72fa921e887"))),
    ]


def test_the_final_psbt_of_bip_174(gate):
    """In each form its transaction is the one that the page extracts."""
    said = vectors()
    text = text_of([said["transaction"]], final_coins())
    in_base64 = said["final"].encode()
    binary = base64.b64decode(in_base64)
    done = tries(gate, binary, text)
    true("admitted: %r" % done.stdout, done.stdout.splitlines()[-1].startswith(b"admitted c001dff12b319c432360072394690d2e9ef1a28a5d77e3f5346ecc46dff966cd fee 10000 "))
    tries(gate, in_base64, text)
    tries(gate, base64.encodebytes(binary).replace(b"\n", b"\r\n"), text)
    for content in (binary, in_base64 + b"\n"):
        done = gate.run("try --psbt - " + " ".join(PLACE), content)
        same("standard output of a PSBT on standard input", done.stdout, gate.run("run", text).stdout)
    with kept(binary) as path:
        done = gate.run_words(["try", "--json", "--psbt", path] + PLACE)
    same("standard output in JSON", done.stdout, gate.run("run", text_of([said["transaction"]], final_coins(), is_json=True)).stdout)


def test_psbts_of_bip_174_that_are_not_final(gate):
    """What isn't final is named, unless the transaction is given."""
    said = vectors()
    asked = "it is not final: finalise the PSBT, or give its transaction in hexadecimal digits"
    refused(gate, said["unsigned"].encode(), "input 0 of the PSBT: " + asked)
    refused(gate, said["first-final"].encode(), "input 1 of the PSBT: " + asked)
    # the coins are taken all the same
    made_by = bytes.fromhex("268171371edff285e937adeea4b37b78000c0566cbb3ad64641713ca42171bf6")
    coin = coin_line((made_by, 0), Output(200000000, bytes.fromhex("76a91485cff1097fd9e008bb34af709c62197b38978a4888ac")))
    tx = Transaction([Input(made_by)], [Output(199990000)])
    tries(gate, said["unsigned"].encode(), text_of([tx.hex()], [coin]), [tx.hex()])


def parts():
    """A transaction of two inputs, the transaction that made the coin of the first, and the coin of the second."""
    parent = Transaction([Input(number_hash(7))], [Output(1), Output(60000), Output(2, b"")])
    own = Transaction([Input(parent.hash(), 1), Input(number_hash(8), 3)], [Output(90000)])
    return own, parent, Output(40000)


def signed(transaction, scripts, witnesses):
    inputs = [Input(it.hash, it.index, script, it.sequence, witness) for it, script, witness in zip(transaction.inputs, scripts, witnesses)]
    return Transaction(inputs, transaction.outputs, transaction.version, transaction.locktime)


def coins_of(own, parent, coin):
    return [coin_line((it.hash, it.index), output) for it, output in zip(own.inputs, (parent.outputs[1], coin))]


def test_fields(gate):
    """Fields that are not read are passed over, a coin may stand in both ways, and a script or a witness may be empty."""
    own, parent, coin = parts()
    key = b"\x02" + b"\x03" * 33
    one = [pair(b"\x01", parent.outputs[1].text()), pair(b"\x00", parent.text()), pair(key, b"sig"), pair(b"\x08", witness_of([b"\x01" * 64, key[1:]])), pair(b"\xfc\x02go\x01", b"")]
    two = [pair(b"\x03", b"\x01\x00\x00\x00"), pair(b"\x01", coin.text()), pair(b"\x08", witness_of([b""] * 300)), pair(b"\x07", b"")]
    content = made(own, [one, two], [[pair(b"\x00", b"\x51"), pair(key, b"path")]], pair(b"\x01" + b"x" * 78, b"path") + pair(b"\xfb", b"\x00" * 4))
    final = signed(own, [b"", b""], [[b"\x01" * 64, key[1:]], [b""] * 300])
    tries(gate, content, text_of([final.hex()], coins_of(own, parent, coin)))
    bare = made(own, [one, [it for it in two if it != pair(b"\x01", coin.text())]])
    done = tries(gate, bare, text_of([final.hex()], coins_of(own, parent, coin)[:1]), status=1)
    true("the coin that is lacking: %r" % done.stderr, b"A25 input 1: no coin" in done.stderr)


def test_an_empty_script(gate):
    own = Transaction([Input(number_hash(8), 3)], [Output(90000)])
    content = made(own, [[pair(b"\x01", Output(91000, b"").text()), pair(b"\x07", b"\x51")]])
    final = signed(own, [b"\x51"], [[]])
    tries(gate, content, text_of([final.hex()], [coin_line((number_hash(8), 3), Output(91000, b""))]), status=1)


def test_coins_that_are_said(gate):
    """`--coin` stands in place of the PSBT's coin, and beside it; a coin that two inputs spend stands once."""
    own, parent, coin = parts()
    content = made(own, [[pair(b"\x00", parent.text()), pair(b"\x07", b"")], [pair(b"\x01", coin.text()), pair(b"\x07", b"")]])
    final = signed(own, [b"", b""], [[], []])
    named = printed(number_hash(8))
    word = "%s:3,41000,80,%s,cb" % (named.upper(), Output(0).script.hex())
    lines_of_coins = ["coin %s 3 41000 80 cb %s" % (named.upper(), Output(0).script.hex()), coins_of(own, parent, coin)[0]]
    tries(gate, content, text_of([final.hex()], lines_of_coins), ["--coin", word], 1)
    twice = Transaction([Input(number_hash(8), 3), Input(number_hash(8), 3)], [Output(1000)])
    content = made(twice, [[pair(b"\x01", coin.text()), pair(b"\x07", b"")]] * 2)
    tries(gate, content, text_of([twice.hex()], coins_of(own, parent, coin)[1:]), status=1)
    other = payment(1, 99000)
    word = "%s:0,100000,1,%s" % (printed(number_hash(1)), Output(0).script.hex())
    all_coins = ["coin %s 0 100000 1 plain %s" % (printed(number_hash(1)), Output(0).script.hex())] + coins_of(own, parent, coin)
    content = made(own, [[pair(b"\x00", parent.text())], [pair(b"\x01", coin.text())]])
    tries(gate, content, text_of([other.hex()], all_coins), ["--coin", word, other.hex()])


def test_what_is_no_psbt(gate):
    """Each fault is named, with the part that has it."""
    own, parent, coin = parts()
    good = [[pair(b"\x00", parent.text())], [pair(b"\x01", coin.text())]]
    whole = made(own, good)
    other = Transaction([Input(number_hash(9))], [Output(1), Output(60000), Output(2, b"")])
    short = Transaction([Input(number_hash(7))], [Output(60000)])
    first, second = "input 0 of the PSBT: ", "input 1 of the PSBT: "
    everything, globally = "the PSBT: ", "the PSBT's global map: "

    def with_input(*pairs):
        return made(own, [list(pairs), good[1]])

    def with_global(*pairs):
        return MAGIC + b"".join(pairs) + b"\x00" + b"".join(b"".join(one) + b"\x00" for one in good) + b"\x00"

    unsigned = pair(b"\x00", own.stripped())
    behind = Transaction([Input(short.hash(), 1)], [Output(5)])
    for content, cause in (
        (b"", everything + "it does not begin with the magic bytes"),
        (b"psbt", everything + "it does not begin with the magic bytes"),
        (base64.b64encode(own.text()), everything + "it does not begin with the magic bytes"),
        (own.text(), everything + "it is neither in binary nor in base64"),
        (b"cHNidP8B!", everything + "it is neither in binary nor in base64"),
        (MAGIC, globally + "the bytes end within a field"),
        (MAGIC + unsigned, globally + "the bytes end within a field"),
        (MAGIC + b"\x00", globally + "the unsigned transaction is missing"),
        (with_global(), globally + "the unsigned transaction is missing"),
        (with_global(unsigned, unsigned), globally + "a key stands twice"),
        (with_global(pair(b"\x00\x00", own.stripped())), globally + "a key is longer or shorter than its type allows"),
        (with_global(pair(b"\xfb", b"\x02\x00\x00\x00"), pair(b"\x02", b"\x02\x00\x00\x00")), globally + "its version is not 0, which alone is read"),
        (with_global(unsigned, pair(b"\xfb", b"\x00" * 5)), globally + "bytes are left over"),
        (with_global(unsigned, pair(b"\xfb", b"\x00" * 3)), globally + "the bytes end within a field"),
        (with_global(pair(b"\x00", own.stripped()[:-1])), globally + "the transaction in it: the bytes end within a field"),
        (with_global(pair(b"\x00", own.stripped() + b"\x00")), globally + "the transaction in it: bytes are left over"),
        (with_global(pair(b"\x00", signed(own, [b"", b""], [[b"x"], []]).text())), globally + "the unsigned transaction has no inputs, or is in the form with witnesses"),
        (with_global(pair(b"\x00", Transaction([], []).stripped())), globally + "the unsigned transaction has no inputs, or is in the form with witnesses"),
        (with_global(pair(b"\x00", signed(own, [b"", b"\x51"], [[], []]).stripped())), globally + "the unsigned transaction has a script in an input"),
        (MAGIC + b"\xfd\x01\x00\x00", globally + "a count is written longer than it needs"),
        (MAGIC + b"\x01\x00\xfe\x01\x00\x00\x02", globally + "a count is above the limit"),
        (whole + b"\x00", everything + "bytes are left over"),
        (whole[:-1], "output 0 of the PSBT: the bytes end within a field"),
        (made(own, good, [[pair(b"\x02", b"")]]), "output 0 of the PSBT: a key is longer or shorter than its type allows"),
        (with_input(pair(b"\x0a", b"a"), pair(b"\x0a", b"b")), first + "a key stands twice"),
        (with_input(pair(b"\x02" + b"k" * 34, b"a")), first + "a key is longer or shorter than its type allows"),
        (with_input(pair(b"\x00", parent.text()[:-1])), first + "the transaction in it: the bytes end within a field"),
        (with_input(pair(b"\x00", other.text())), first + "its non-witness UTXO is not the transaction that the input spends from"),
        (made(behind, [[pair(b"\x00", short.text())]]), first + "its non-witness UTXO has no output of the number that the input spends"),
        (with_input(pair(b"\x00", parent.text()), pair(b"\x01", Output(60001).text())), first + "its witness UTXO and its non-witness UTXO differ"),
        (with_input(pair(b"\x00", parent.text()), pair(b"\x01", Output(60000, b"\x51").text())), first + "its witness UTXO and its non-witness UTXO differ"),
        (made(own, [good[0], [pair(b"\x01", coin.text() + b"\x00")]]), second + "bytes are left over"),
        (made(own, [good[0], [pair(b"\x01", coin.text()[:-1])]]), second + "the bytes end within a field"),
        (made(own, [good[0], [pair(b"\x08", b"\x02\x00")]]), second + "the bytes end within a field"),
        (made(own, [good[0], [pair(b"\x08", b"\x01\x00\x00")]]), second + "bytes are left over"),
    ):
        refused(gate, content, cause)


def test_cuts(gate):
    """A PSBT that is cut is none."""
    whole = base64.b64decode(vectors()["final"])
    for size in list(range(5)) + list(range(5, len(whole), 61)) + list(range(len(whole) - 3, len(whole))):
        with kept(whole[:size]) as path:
            done = gate.run_words(["try", "--psbt", path] + PLACE)
        same("status and standard output of %d bytes" % size, (done.status, done.stdout), (2, b""))
        true("%r of %d bytes" % (done.stderr, size), done.stderr.startswith(b"gate: ") and b"PSBT" in done.stderr)


def test_usage(gate):
    with kept(base64.b64decode(vectors()["final"])) as path:
        for words, told in (
            (["--tip", "100"], "a transaction is required, in hexadecimal digits, or a PSBT by --psbt"),
            (["--psbt", path, "--height", "90"], "--tip is required"),
            (["--psbt", path, "--tip", "100"], "--height is required with --psbt"),
            (["--height", "90", "--tip", "100", "00"], "--psbt is required with it"),
            (["--psbt", path, "--tip", "100", "--height", "x"], '"x" behind --height is not a height'),
            (["--psbt", path, "--psbt", path, "--tip", "100", "--height", "90"], "--psbt may be given once"),
            (["--tip", "100", "--height", "90", "--psbt"], "a value is required for --psbt"),
        ):
            done = gate.run_words(["try"] + words)
            same("status and standard output of gate try %r" % words, (done.status, done.stdout), (2, b""))
            true("%r of gate try %r" % (done.stderr, words), told.encode() in done.stderr and b"Usage: gate try" in done.stderr)
        missing = gate.run_words(["try", "--psbt", path + ".no", "--tip", "100", "--height", "90"])
        same("status and standard output without the file", (missing.status, missing.stdout), (2, b""))
        true("standard error without the file: %r" % missing.stderr, missing.stderr.startswith(b"gate: " + path.encode() + b".no: "))
        above = gate.run_words(["try", "--psbt", path, "--tip", "80", "--time", "1600000000", "--height", "90"])
        same("coins above the tip", (above.status, above.stdout), (2, b"opening 3 coin-above-tip\n"))

