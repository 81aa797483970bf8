"""Events and their reply lines, at sizes and numbers that show whether anything gives up early."""

from bitcoin import Input, Output, Transaction, coin, number_hash, padded, payment
from gate import lines, same, same_lines

GREATEST = 9007199254740991
ENTER = ("peer 1 enter 192.0.2.1", "entered none")
LEAVE = ("peer 1 leave", "left")
BAD = "refused L1 bad-line"


def opening(*coins):
    return ["times 101 1000 600", "verdict * ok", "bloom 1"] + list(coins)


def admitted(tx, fee, cost=0, replaced=0):
    return "admitted %s fee %d vsize %d replaced %d" % (tx.txid(), fee, tx.virtual_size(cost), replaced)


def submitted(tx, peer=1):
    return "peer %d tx 5000 %s" % (peer, tx.hex())


def test_the_greatest_standard_transaction(gate):
    """One transaction of 390,000 and one of 400,000 weight units are admitted; one byte more is not standard."""
    big, greatest, over = padded(97500, 1, 1000), padded(100000, 2, 1000), padded(100001, 3, 1000)
    same("weights", (big.weight(), greatest.weight(), over.weight()), (390000, 400000, 400004))
    value = 100000000
    fees = [value - sum(one.value for one in tx.outputs) for tx in (big, greatest)]
    gate.answers(opening(*[coin(number, value) for number in (1, 2, 3)]), [
        ENTER,
        (submitted(big), admitted(big, fees[0], 1)),
        (submitted(greatest), admitted(greatest, fees[1], 1)),
        (submitted(over), "denied A13 keep tx-size"),
        ("peer 1 mempool", "listing 2 %s %s" % (big.txid(), greatest.txid())),
        LEAVE,
    ])


def test_a_transaction_too_great_for_a_block(gate):
    """A4 stands at a stripped size of 1,000,000 bytes, long before A13."""
    over, most = padded(1000001, 1, 1000), padded(1000000, 1, 1000)
    gate.answers(opening(coin(1)), [
        ENTER,
        (submitted(most), "denied A13 keep tx-size"),
        (submitted(over), "denied A4 close bad-txns-oversize"),
        (submitted(most), "denied P2 keep peer-closed"),
    ])


def test_a_great_witness(gate):
    """A transaction whose weight is nearly all witness."""
    tx = Transaction([Input(number_hash(1), witness=[b"\x01" * 399000])], [Output(1000)])
    coins = opening(coin(1, 1000000))
    gate.answers(coins, [ENTER, (submitted(tx), admitted(tx, 999000, 1)), LEAVE])


def test_numbers_of_peers(gate):
    """Numbers go up to 9,007,199,254,740,991, without sign and without leading zeros."""
    events = []
    for peer in (0, 1, 255, 65536, 4294967295, 4294967296, GREATEST):
        events += [("peer %d enter 192.0.2.1" % peer, "entered none"), ("peer %d leave" % peer, "left")]
        events += [("peer %d leave" % peer, "denied P2 keep peer-closed"), ("peer %d enter 192.0.2.1" % peer, "denied P3 keep peer-known")]
    for peer in (str(GREATEST + 1), "18446744073709551615", "18446744073709551616", "1" * 400, "01", "00", "-1", "+1", "1.0", "0x1", ""):
        events += [("peer %s enter 192.0.2.1" % peer, BAD), ("peer %s leave" % peer, BAD)]
    events.append(("peer %d mempool" % (GREATEST - 1), "denied P1 keep peer-unknown"))
    gate.answers(opening(), events)


def test_times_of_events(gate):
    """NOW has the same bound."""
    tx = payment(1, 99000)
    gate.answers(opening(coin(1)), [
        ENTER,
        ("peer 1 tx %d %s" % (GREATEST + 1, tx.hex()), BAD),
        ("peer 1 tx 05 %s" % tx.hex(), BAD),
        ("peer 1 tx %d %s" % (GREATEST, tx.hex()), admitted(tx, 1000, 1)),
    ])


def test_lines_without_form(gate):
    """Words are parted by single spaces, and nothing stands before or behind them."""
    forms = (" peer 1 leave", "peer 1 leave ", "peer  1 leave", "peer 1  leave", "peer 1", "peer", "peer 1 Leave", "Peer 1 leave",
             "peer 1 leave now", "peer 1 enter", "peer 1 enter 192.0.2", "peer 1 enter 192.0.2.256", "peer 1 enter 192.0.2.01",
             "peer 1 enter 192.0.2.1.1", "peer 1 enter 1::2::3", "peer 1 enter ::192.0.2.1", "peer 1 getblock", "peer 1 getblock 4294967296", "peer 1 headers -1", "peer 1 feefilter", "peer 1 feefilter 01", "peer 1 feefilter 9007199254740992", "peer 1 feefilter 1 2", "peer 1 tx", "peer 1 tx 5000", "peer 1 tx 5000 ", "peer 1 tx 00", "peer 1 tx 5000 00 00",
             "peer 1 mempool ", "peer 1 leave\r", "\tpeer 1 leave", "---", "times 1 1 1", " ", "peer\t1 leave", "\u00a0")
    gate.answers(opening(), [(form, BAD) for form in forms] + [ENTER, LEAVE])


def test_skipped_lines(gate):
    """Empty lines and comments get no reply, also where they are no text; the last line needs no newline."""
    text = (lines(opening()) + "---\n").encode() + b"\n#\n\n# \xff\xfe\n" + b"peer 1 enter 192.0.2.1\n\n#" + b"x" * 100000 + b"\npeer 1 leave"
    done = gate.run("run", text)
    same("standard output", done.stdout, b"entered none\nleft\n")
    same("status", done.status, 0)


def test_a_pool_of_five_thousand(gate):
    """5,000 submissions are admitted, and listed in the order of admission."""
    count = 5000
    payments = [payment(number, 99000) for number in range(count, 0, -1)]
    wanted = ["entered none"] + [admitted(tx, 1000, 1) for tx in payments]
    wanted += ["listing %d %s" % (count, " ".join(tx.txid() for tx in payments)), "denied P5 keep txn-already-in-mempool", "left"]
    events = ["peer 1 enter 192.0.2.1"] + [submitted(tx) for tx in payments] + ["peer 1 mempool", submitted(payments[2500]), "peer 1 leave"]
    found = gate.replies(opening(*[coin(number) for number in range(1, count + 1)]), events)
    same_lines(found, wanted)


def test_many_inputs(gate):
    """One transaction that spends 2,000 coins."""
    count = 2000
    tx = Transaction([Input(number_hash(number)) for number in range(1, count + 1)], [Output(count * 1000 - 100000)])
    gate.answers(opening(*[coin(number, 1000) for number in range(1, count + 1)]), [ENTER, (submitted(tx), admitted(tx, 100000, count)), LEAVE])


def test_many_peers(gate):
    """10,000 sessions at once."""
    count = 10000
    events = [("peer %d enter 192.0.2.%d" % (peer, peer % 256), "entered none") for peer in range(count)]
    events += [("peer %d leave" % peer, "left") for peer in range(count)]
    gate.answers(opening(), events)


def test_a_line_too_long(gate):
    """A line of 16,777,216 bytes is read; one byte more is L2, and the run ends there with status 0."""
    limit = 16777216
    head = lines(opening()) + "---\npeer 1 enter 192.0.2.1\n"
    longest = "peer 1 tx 5000 ".ljust(limit, "0")
    done = gate.run("run", head + longest + "\npeer 1 leave\n")
    same("standard output", done.stdout, b"entered none\ndenied A1 keep tx-decode\nleft\n")
    same("status", done.status, 0)
    for line in (longest + "0", "#" + longest):
        done = gate.run("run", head + line + "\npeer 1 leave\n")
        same("standard output", done.stdout, b"entered none\nrefused L2 line-too-long\n")
        same("status", done.status, 0)


def test_too_many_lines(gate):
    """1,000,000 lines are read behind the opening; the next is L3, also where it would be skipped."""
    head = lines(opening()) + "---\npeer 1 enter 192.0.2.1\n" + "\n" * 999998 + "peer 1 leave\n"
    done = gate.run("run", head)
    same("standard output", done.stdout, b"entered none\nleft\n")
    for more in ("peer 1 leave\n", "\n", "#", "peer 1 leave"):
        done = gate.run("run", head + more)
        same("standard output", done.stdout, b"entered none\nleft\nrefused L3 too-many-lines\n")
        same("status", done.status, 0)


def visits(count):
    """Events whose replies depend on their order, among lines without a reply and lines that do not parse."""
    for number in range(count):
        peer = number + 1
        yield "peer %d enter 192.0.2.1" % peer, "entered none"
        yield "# a comment", None
        yield "peer %d enter 192.0.2.1" % peer, "denied P3 keep peer-known"
        yield "x" * (number % 40 + 1), "refused L1 bad-line"
        yield "peer %d leave" % peer, "left"
        yield "", None
        yield "peer %d leave" % peer, "denied P2 keep peer-closed"


def test_lines_around_the_buffer(gate):
    """Many lines, a few as long as the buffer of standard input or longer among short ones, and a last line without a newline."""
    told = list(visits(3000))
    told[1000:1000] = [("#" + "y" * 70000, None), ("z" * 200000, "refused L1 bad-line")]
    told[20:20] = [("#" + "y" * 65534, None), ("#" + "y" * 65535, None), ("#" + "y" * 65536, None)]
    done = gate.run("run", lines(opening()) + "---\n" + "\n".join(line for line, _ in told))
    same("the end", (done.status, done.stderr), (0, b""))
    same_lines(done.stdout.decode().splitlines(), [reply for _, reply in told if reply is not None])
