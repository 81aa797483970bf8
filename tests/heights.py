"""Heights above those of an opening."""

from bitcoin import Input, Output, Transaction, coin
from chain_model import Block
from model import NULL

MOST_TIMES = 1000000
GREATEST_HEIGHT = 10000000
ENTER = ("peer 1 enter 192.0.2.1", "entered none")
UNKNOWN = "denied P9 keep unknown-block"
WEEK = 604800


def block(number):
    """A coinbase alone, ten minutes behind the block of the number before."""
    script = b"\x04" + number.to_bytes(4, "little")
    return Block(2000000 + 600 * number, [Transaction([Input(NULL[0], NULL[1], script)], [Output(5000000000)])])


def test_blocks_above_the_most_times(gate):
    """An opening has at most 1,000,000 times, but a chain grows above them, up to the height of 10,000,000."""
    blocks = " ".join(block(number).hex() for number in range(3))
    gate.answers(
        ["times %d 1000 1" % MOST_TIMES],
        [
            ("chain 0 5000 " + blocks, "chain 1000002 removed 0 entered 0"),
            ("chain 2 5000 " + block(3).hex(), "chain 1000001 removed 0 entered 0"),
            ("chain 2 5000", "chain 999999 removed 0 entered 0"),
            ("chain 1 5000", "refused C6 no-undo"),
        ],
    )


def test_blocks_above_the_most_times_from_a_height(gate):
    """The same where the times begin at a height: the tip is that of the last time."""
    blocks = " ".join(block(number).hex() for number in range(3))
    gate.answers(
        ["times %d 1000 1" % MOST_TIMES, "from 5000000"],
        [
            ENTER,
            ("peer 1 getblock 4999999", UNKNOWN),
            ("peer 1 getblock 5000000", "block 5000000 1000"),
            ("peer 1 getblock 5999999", "block 5999999 1000999"),
            ("chain 0 5000 " + blocks, "chain 6000002 removed 0 entered 0"),
            ("peer 1 getblock 6000002", "block 6000002 2001200"),
            ("peer 1 headers 5999000", "headers 5999001 1002"),
            ("chain forget 2", "forgotten 2 2 0"),
            ("chain 2 5000", "refused C6 no-undo"),
            ("chain 1 5000", "chain 6000001 removed 0 entered 0"),
            ("chain " + coin(1, height=6000001), "set"),
            ("chain " + coin(2, height=6000002), "refused C10 coin-above-opening"),
        ],
    )


def test_up_to_the_greatest_height(gate):
    """A chain ends at the height of 10,000,000, from wherever it began, and whatever was forgotten."""
    first = GREATEST_HEIGHT - 101
    gate.answers(
        ["from %d" % first, "times 100 1000 600"],
        [
            ("chain 0 5000 %s %s %s" % tuple(block(number).hex() for number in range(3)), "refused C7 chain-full"),
            ("chain 0 5000 %s %s" % tuple(block(number).hex() for number in range(2)), "chain 10000000 removed 0 entered 0"),
            ("chain 0 5000 " + block(2).hex(), "refused C7 chain-full"),
            ("chain forget 1", "forgotten 1 1 0"),
            ("chain 0 5000 " + block(2).hex(), "refused C7 chain-full"),
            ("chain 1 5000 " + block(2).hex(), "chain 10000000 removed 0 entered 0"),
            ("chain forget 1", "forgotten 1 1 0"),
            ("chain 0 5000 " + block(3).hex(), "refused C7 chain-full"),
            ENTER,
            ("peer 1 getblock %d" % (first - 1), UNKNOWN),
            ("peer 1 getblock %d" % first, "block %d 1000" % first),
            ("peer 1 getblock 10000000", "block 10000000 2001200"),
            ("peer 1 getblock 10000001", UNKNOWN),
        ],
    )


def test_historical_blocks_from_a_height(gate):
    """The time of a height is asked for from the first one on; below it there is none, whatever the target for old blocks."""
    gate.answers(
        ["from 900000", "times 1 1000 0", "times 1 1001 0", "times 1 %d 0" % (1001 + WEEK)],
        [
            ENTER,
            ("operator historic on", "set"),
            ("peer 1 getblock 0", UNKNOWN),
            ("peer 1 getblock 899999", UNKNOWN),
            ("peer 1 getblock 900001", "block 900001 1001"),
            ("peer 1 getblock 900002", "block 900002 %d" % (1001 + WEEK)),
            ("peer 1 getblock 900000", "denied P10 close historical-upload-target"),
        ],
    )


def test_times_of_forgotten_blocks(gate):
    """Blocks that are forgotten leave their times: a thousand are connected and forgotten, and the first and the last are asked for."""
    events = [ENTER]
    for at in range(0, 1000, 100):
        events.append(("chain 0 5000 " + " ".join(block(number).hex() for number in range(at, at + 100)), "chain %d removed 0 entered 0" % (at + 100)))
        events.append(("chain forget 100", "forgotten 100 100 0"))
    events += [("peer 1 getblock %d" % (number + 1), "block %d %d" % (number + 1, block(number).time)) for number in (0, 1, 99, 100, 500, 999)]
    gate.answers(["times 1 1000 0"], events + [("peer 1 getblock 1001", UNKNOWN), ("peer 1 headers 0", "headers 1 1000")])
