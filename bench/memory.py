"""Standard transactions of many kinds, and lines of every kind: `bench/run --memory` tells what memory they take."""

from dataclasses import dataclass
from itertools import chain as joined, islice
from typing import Callable

from costliest import WITNESS_SCRIPT_HASH, count, spending
from texts import BREAK, BUDGET, SCRIPT, block, call, coin, coins, output, payment, settings, submission
from workloads import SHORT_SCRIPT, TAPROOT, Stream, opened, repeated

VALUE = 100000000
FEE = 400000
SEQUENCE = "fdffffff"
SIGNED = "02" + "48" + "30" * 72 + "21" + "02" * 33
# how many the longer copy has more: so many small ones, or as many as have so many virtual bytes
SMALL_ONES, MORE = 25000, 2000000
# a line's bytes with its newline, and the calls of a pass, both at most
LONGEST, MOST_CALLS = 16777216, 65536
LIMIT = "12"
# the listings that are measured, and the pool that they list; and those for which a sum is made
FEW, POOL, LISTINGS, LISTED = 1000, 1000, 50000, 10000
NO_EVENT, COMMENT = "words that are no event", "a comment"
INPUT = "11" * 32 + "00000000" + "00" + "ffffffff"


def witness(number, item, *last):
    """A witness of so many items of a kind, and of more. Items have their lengths."""
    return count(number + len(last)) + item * number + "".join(last)


def taproot(number, item="00"):
    """Above a script, of a leaf version that has no rules yet, and its path."""
    return witness(number, item, "0151", "21c2" + "02" * 32)


def by_script(number, item="00"):
    return witness(number, item, "0151")


@dataclass
class Shape:
    """Transactions of so many inputs and outputs, which spend coins of one script."""

    name: str
    script: str
    inputs: int
    witness: str = ""
    unlocking: str = ""
    outputs: int = 1
    paid: str = SCRIPT

    def digits(self, first, witness=True):
        """One that spends the coins from a number on."""
        spent = [(number, self.unlocking, SEQUENCE) for number in range(first, first + self.inputs)]
        paid = [output((self.inputs * VALUE - FEE) // self.outputs, self.paid)] * self.outputs
        return spending(spent, paid, [self.witness] * self.inputs if witness and self.witness else None)

    def virtual_size(self):
        stripped, whole = (len(self.digits(1, witness)) // 2 for witness in (False, True))
        return (3 * stripped + whole + 3) // 4

    def stream(self):
        def make(events):
            numbers = range(1, 1 + events * self.inputs)
            coins = (coin(number, VALUE, self.script) for number in numbers)
            return opened(coins), (submission(self.digits(first)) for first in numbers[:: self.inputs])

        size = self.virtual_size()
        return Stream(self.name, make, SMALL_ONES if size < 1000 else MORE // size, 0, "admitted")


def shapes():
    """What a pool may hold: few parts, and many of each kind of part."""
    return [
        Shape("1 input, 1 output", SCRIPT, 1, SIGNED),
        Shape("the same without witness", SCRIPT, 1),
        Shape("10 inputs, 10 outputs", SCRIPT, 10, SIGNED, outputs=10),
        Shape("1,400 inputs", SCRIPT, 1400, SIGNED),
        Shape("2,400 inputs without witness", SCRIPT, 2400),
        Shape("58 inputs with scripts of 1,650 bytes", SCRIPT, 58, "", "51" * 1650),
        Shape("3,000 outputs", SCRIPT, 1, SIGNED, outputs=3000),
        Shape("7,000 outputs of 13 bytes", SCRIPT, 1, SIGNED, outputs=7000, paid=SHORT_SCRIPT),
        *(Shape("Taproot, %s empty items" % format(number, ","), TAPROOT, 1, taproot(number)) for number in (0, 100, 1000, 390000)),
        *(Shape("Taproot, %s items of a byte" % format(number, ","), TAPROOT, 1, taproot(number, "0101")) for number in (100, 1000, 195000)),
        Shape("500 Taproot inputs of 450 empty items", TAPROOT, 500, taproot(450)),
        Shape("P2WSH, 100 empty items", WITNESS_SCRIPT_HASH, 1, by_script(100)),
        Shape("P2WSH, 100 items of a byte", WITNESS_SCRIPT_HASH, 1, by_script(100, "0101")),
        Shape("P2WSH, 100 items of 80 bytes", WITNESS_SCRIPT_HASH, 1, by_script(100, "50" + "01" * 80)),
        Shape("2,300 P2WSH inputs of one item", WITNESS_SCRIPT_HASH, 2300, by_script(0)),
        Shape("1,300 P2WSH inputs of 100 empty items", WITNESS_SCRIPT_HASH, 1300, by_script(100)),
    ]


@dataclass
class Text:
    """Lines of one kind. What `many` of them take more than `few` is shared out over the bytes that they have more.

    `make` gives, for a number of lines, what stands before them, the lines, and what stands behind.
    """

    name: str
    make: Callable
    few: int = 0
    many: int = 1
    word: str = "run"
    limit: str = LIMIT

    def write(self, path, count):
        """Writes a file with so many of the lines, and gives the bytes of these lines."""
        before, lines, after = self.make(self.many)
        with open(path, "w", encoding="ascii") as file:
            file.writelines(before)
            length = sum(file.write(line) for line in islice(lines, count))
            file.writelines(after)
        return length


def in_opening(line):
    """Lines of an opening, by their numbers."""
    return lambda count: ([settings(BUDGET)], map(line, range(1, count + 1)), [BREAK])


def events(line, by_peer=True):
    """Events, by their numbers. Those of a peer come after it has entered, and those of another caller come first."""
    return lambda count: (opened([]) if by_peer else [settings(BUDGET), BREAK], map(line, range(1, count + 1)), [])


def submissions(line):
    """Events, by their numbers, of which each spends the coin of its number."""
    return lambda count: (opened(coins(count)), map(line, range(1, count + 1)), [])


def alone(line):
    """One event."""
    return events(lambda number: line, line.startswith("peer 1 "))


def journaled(line):
    """The first event of a journal, without its reply."""
    return events(lambda number: "> " + line, by_peer=False)


def filled(begins, part, ends):
    """A line with as many parts as fit."""
    return begins + part * ((LONGEST - len(begins) - len(ends)) // len(part)) + ends


def filled_list(part):
    """A call with as many values in a list as fit."""
    return filled("user a rpc 5 {\"method\":\"none\",\"id\":1,\"x\":[0", "," + part, "]}\n")


def filled_transaction(part, inputs=False):
    """A submission with as many inputs, or outputs, as fit."""
    number = LONGEST // len(part) - 10
    spent, paid = ([part] * number, [output(1000)]) if inputs else ([INPUT], [part] * number)
    return submission("02000000" + count(len(spent)) + "".join(spent) + count(len(paid)) + "".join(paid) + "00000000")


def filled_block():
    """A block with as many small transactions as fit."""
    small = "02000000" + "01" + INPUT + "01" + output(1000, "") + "00000000"
    number = LONGEST // len(small) - 10
    return "chain 0 5000 %s\n" % ("00" * 80 + count(number) + small * number)


def with_items(number):
    """A witness of so many empty items."""
    return submission(spending([(1, "", SEQUENCE)], [output(1000)], [witness(number, "00")]))


def longest():
    """Lines of each kind that are as long as one may be, or nearly."""
    deep = '{"":' * 8 + "0" + "}" * 8
    whole = [
        ("a transaction of empty witness items", with_items(8300000)),
        ("a transaction of inputs", filled_transaction(INPUT, inputs=True)),
        ("a transaction of inputs with scripts of a byte", filled_transaction(INPUT[:72] + "0151" + INPUT[74:], inputs=True)),
        ("a transaction of empty outputs", filled_transaction(output(0, ""))),
        ("a transaction of outputs of a byte", filled_transaction(output(0, "51"))),
        ("hexadecimal that does not read", filled("peer 1 tx 5 ", "z", "\n")),
        ("blocks that do not read", filled("chain 0 0", " -", "\n")),
        ("empty blocks", filled("chain 0 0", " " + "00" * 81, "\n")),
        ("a block of small transactions", filled_block()),
        ("a user's name", filled("user ", "a", ' rpc 0 {"method":"getmempoolinfo","id":1}\n')),
        (NO_EVENT, filled("x", " x", "\n")),
        (COMMENT, filled("#", "#", "\n")),
    ]
    values = [
        ("JSON, a method's name", filled('user a rpc 0 {"method":"', "a", '","id":1}\n')),
        ("JSON, an id", filled('user a rpc 0 {"method":"getmempoolinfo","id":"', "a", '"}\n')),
        ("JSON, zeros in one list", filled_list("0")),
        ("JSON, objects, eight deep", filled_list(deep)),
    ]
    return [
        *(Text(name, alone(line)) for name, line in whole),
        *(Text(name, alone(line), limit="") for name, line in values),
        *(Text("in a lane, " + name, alone(line), word="lanes") for name, line in whole),
        *(Text("in a journal, " + name, journaled(line), word="audit") for name, line in whole if name not in (NO_EVENT, COMMENT)),
        Text("rpcwhitelist of empty words", in_opening(lambda number: filled("rpcwhitelist a:", ",", "\n"))),
        Text("whitelist of permissions", in_opening(lambda number: filled("whitelist noban", ",noban", "@192.0.2.1\n"))),
    ]


def kept():
    """Lines of which something stays: in the state, and in lanes in their journal, receipts and replies."""
    entering = "peer %d enter 192.0.2.1\n"
    short = [
        ("a leave that is denied", "peer 7 leave\n"),
        ("an operator's floor", "operator floor 5000\n"),
        ("getmempoolinfo", call("getmempoolinfo")),
        ("getrawmempool of an empty pool", call("getrawmempool")),
    ]
    confirmed = lambda number: "chain 0 5000 %s\n" % block(number, [])
    paid = lambda number: submission(payment(number))
    calls = {"few": MOST_CALLS // 2, "many": MOST_CALLS - 1, "word": "lanes", "limit": ""}
    return [
        Text("coin", in_opening(coin), 100000, 200000),
        Text("coin of an empty script", in_opening(lambda number: coin(number, VALUE, "-")), 100000, 200000),
        Text("coin of 10,000 bytes", in_opening(lambda number: coin(number, VALUE, "51" * 10000)), 1000, 2000),
        Text("verdict", in_opening(lambda number: "verdict %064x 0 ok\n" % number), 100000, 200000),
        Text("whitelist", in_opening(lambda number: "whitelist 10.%d.%d.%d\n" % (number >> 16, number >> 8 & 255, number & 255)), 100000, 200000),
        Text("rpcwhitelist", in_opening(lambda number: "rpcwhitelist a%d:getmempoolinfo\n" % number), 100000, 200000),
        Text("a peer that enters", events(lambda number: entering % (number + 1)), 100000, 200000),
        Text("a submission", submissions(paid), 25000, 50000),
        Text("a block of its coinbase", events(confirmed), 10000, 20000),
        Text("a coin that is learnt", events(lambda number: "chain " + coin(number)), 100000, 200000),
        Text("a verdict that is learnt", events(lambda number: "chain verdict %064x 0 ok\n" % number), 100000, 200000),
        Text("a block of its coinbase that is forgotten", events(lambda number: confirmed(number) + "chain forget 1\n"), 10000, 20000),
        *(Text("in a lane, " + name, events(lambda number, line=line: line, by_peer=False), **calls) for name, line in short),
        Text("in a lane, a submission", submissions(paid), **calls),
    ]


def listings():
    """Listings of a pool of so many entries, in a lane behind that of the peer who submits them."""

    def make(count):
        before = joined(opened(coins(POOL)), (submission(payment(number)) for number in range(1, POOL + 1)))
        # a user's listing comes in a round of its own, so that it finds all of them
        return joined(before, ["===\n", BREAK]), repeated(call("getrawmempool"), count), []

    return Text("getrawmempool, of %s entries" % format(POOL, ","), make, FEW, 2 * FEW, "lanes")
