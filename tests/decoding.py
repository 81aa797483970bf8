"""Bytes that are no transaction's text: each fault is A1, and the lane goes on."""

from bitcoin import Input, Transaction, coin, compact, number_hash, payment
from gate import lines, same_lines, same

OPENING = ["times 101 1000 600", "verdict * ok", coin(1)]
DENIED = "denied A1 keep tx-decode"
WITNESSED = Transaction([Input(number_hash(1), witness=[b"\x30" * 72, b"\x02" * 33])], payment(1, 99000).outputs)


def part(text, old, new):
    """The text with a part replaced, which stands in it once."""
    if text.count(old) != 1:
        raise ValueError("the part does not stand in the text once")
    return text.replace(old, new)


def faults():
    """A name and hexadecimal digits for each way in which bytes are no text of a transaction."""
    plain, witnessed = payment(1, 99000), WITNESSED
    version, first = b"\x02\x00\x00\x00", number_hash(1)
    locktime = bytes(4)
    many = compact(0x02000001)
    yield "cut by a byte", plain.text()[:-1].hex()
    yield "cut by a byte, with witness", witnessed.text()[:-1].hex()
    yield "version alone", version.hex()
    yield "one byte", "02"
    yield "cut in the hash of an input", plain.text()[:20].hex()
    yield "a count of inputs in the form of three bytes", part(plain.text(), version + b"\x01" + first, version + b"\xfd\x01\x00" + first).hex()
    yield "a count of inputs in the form of five bytes", part(plain.text(), version + b"\x01" + first, version + b"\xfe\x01\x00\x00\x00" + first).hex()
    yield "a count of inputs in the form of nine bytes", part(plain.text(), version + b"\x01" + first, version + b"\xff\x01" + bytes(7) + first).hex()
    yield "a script's length in a longer form", part(plain.text(), b"\x16\x00\x14", b"\xfd\x16\x00\x00\x14").hex()
    yield "a count of witness items in a longer form", part(witnessed.text(), b"\x02\x48\x30", b"\xfd\x02\x00\x48\x30").hex()
    yield "a count of inputs that is too large", part(plain.text(), version + b"\x01" + first, version + many + first).hex()
    yield "a script's length that is too large", part(plain.text(), b"\x16\x00\x14", many + b"\x00\x14").hex()
    yield "the greatest count of inputs, and one of them", part(plain.text(), version + b"\x01" + first, version + compact(0x02000000) + first).hex()
    yield "flag 0", part(witnessed.text(), version + b"\x00\x01", version + b"\x00\x00").hex()
    yield "flag 2", part(witnessed.text(), version + b"\x00\x01", version + b"\x00\x02").hex()
    yield "flag 3", part(witnessed.text(), version + b"\x00\x01", version + b"\x00\x03").hex()
    yield "flag 255", part(witnessed.text(), version + b"\x00\x01", version + b"\x00\xff").hex()
    yield "an empty witness", plain.written(b"\x00\x01", b"\x00").hex()
    yield "outputs without inputs", (version + b"\x00\x01" + plain.outputs[0].text() + locktime).hex()
    yield "a byte left over", (plain.text() + b"\x00").hex()
    yield "a byte left over, with witness", (witnessed.text() + b"\x00").hex()
    yield "a whole transaction left over", (plain.text() + plain.text()).hex()
    yield "an odd number of digits", plain.hex()[:-1]
    yield "one digit", "0"
    yield "a character that is no digit", plain.hex()[:-1] + "g"
    yield "a character outside ASCII", plain.hex()[:-2] + "\u00e9"
    yield "a number sign in front", "0x" + plain.hex()
    yield "a tab", plain.hex() + "\t"


def test_faults_in_a_lane(gate):
    """Each fault is denied by A1 and keeps the session, and the next line is answered."""
    events, wanted, names = [], [], []
    for number, (name, digits) in enumerate(faults(), 1):
        events += ["peer %d enter 192.0.2.1" % number, "peer %d tx 5000 %s" % (number, digits), "peer %d leave" % number]
        wanted += [name + ": entered none", name + ": " + DENIED, name + ": left"]
        names += [name] * 3
    found = gate.replies(OPENING, events)
    same_lines([name + ": " + line for name, line in zip(names, found)], wanted)


def test_faults_of_an_unknown_peer(gate):
    """P1 and P2 come before A1."""
    for _, digits in faults():
        gate.answers(OPENING, [
            ("peer 1 tx 5000 " + digits, "denied P1 keep peer-unknown"),
            ("peer 1 enter 192.0.2.1", "entered none"),
            ("peer 1 leave", "left"),
            ("peer 1 tx 5000 " + digits, "denied P2 keep peer-closed"),
        ])
        break


def test_faults_by_check(gate):
    """`gate check -` says A1 of each."""
    for name, digits in faults():
        if name == "a tab":
            continue
        done = gate.run("check -", digits)
        same(name, (done.stdout, done.status), (b"denied A1 tx-decode\n", 1))


def test_every_cut(gate):
    """Each proper part of a transaction's bytes, from its first byte on, is no transaction."""
    text = WITNESSED.text()
    events = ["peer 1 tx 5000 " + text[:end].hex() for end in range(1, len(text))]
    found = gate.replies(OPENING, ["peer 1 enter 192.0.2.1"] + events + ["peer 1 leave"])
    same_lines(found, ["entered none"] + [DENIED] * len(events) + ["left"])


def test_hex_that_is_no_text(gate):
    """A line that is not UTF-8 has no form, whatever it begins with."""
    events = lines(["peer 1 enter 192.0.2.1"]).encode() + b"peer 1 tx 5000 00\xff\n" + lines(["peer 1 leave"]).encode()
    done = gate.run("run", (lines(OPENING) + "---\n").encode() + events)
    same_lines(done.stdout.decode().splitlines(), ["entered none", "refused L1 bad-line", "left"])
