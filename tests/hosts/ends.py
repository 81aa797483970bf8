#!/usr/bin/env python3
"""The ends of the package for Python: its exceptions, a gate that is closed, and what the shared library shows."""

import ctypes
import os
import sys
from concurrent.futures import ThreadPoolExecutor

sys.dont_write_bytecode = True
sys.path.insert(0, os.path.join(os.path.dirname(os.path.abspath(__file__)), "..", "..", "lib", "python"))

import gate

OPENING = "times 101 1000 600\nverdict * ok\nbloom 1\n"
LIMIT = 16777216


COIN = "coin 0100000000000000010000000000000001000000000000000100000000000000 0 100000 0 plain 0014%s\n" % (20 * "22")
# a payment of that coin, and one that replaces it, by what they pay out, with their txids
PAYMENT = "peer 1 tx 5000 0200000001%s0000000000fdffffff01%s0000000000160014%s00000000"
PAYMENTS = {
    "b88201": "9a79b51068b9f1590818e911ed23344ec9d7856eec805212b3646aa6d2ed52f1",
    "d07e01": "9f1367d4d60d678f1d5680a17f36c4d3ad36f6cd59c4a4df872365f28f7e0862",
}


def moves():
    """What a line moved is told until the next one, and not by a copy."""
    first, second = PAYMENTS.values()
    lines = [PAYMENT % (4 * "0000000000000001", value, 20 * "22") for value in PAYMENTS]
    with gate.Gate(OPENING + COIN) as one:
        assert one.answer("peer 1 enter 192.0.2.1") == "entered none\n" and one.changes() == gate.Changes()
        assert one.ask(lines[0]).txid == first and one.changes() == gate.Changes((), (first,))
        with one.copy() as copy:
            assert copy.changes() == gate.Changes()
            assert copy.ask(gate.Event(lines[1])).replaced == 1
            assert one.changes() == gate.Changes((), (first,)) and copy.changes() == gate.Changes((first,), (second,))
        assert one.ask("peer 1 mempool").txids == (first,) and one.changes() == gate.Changes()
        assert one.ask(lines[1]).txid == second and one.changes() == one.changes() == gate.Changes((first,), (second,))
        raised(gate.LineTooLong, one.answer, "x" * (LIMIT + 1))
        assert one.changes() == gate.Changes()
    assert raised(gate.NotOpen, one.changes).status == gate.Status.NOT_OPEN


def explanations():
    """What is said of a reply, once it is asked for; by a copy of its own lines alone."""
    line = PAYMENT % (4 * "0000000000000001", "6e8601", 20 * "22")
    with gate.Gate(OPENING + COIN) as one:
        assert one.answer("peer 1 enter 192.0.2.1") == "entered none\n" and one.explanation() is None
        assert one.ask(line).rule == "A35" and one.explanation() is None
        one.explain()
        assert one.explanation() is None and one.ask(line).rule == "A35"
        said = one.explanation()
        assert said == dict(line=1, rule="A35", token="min relay fee not met", pays=50, needs=82, least_fee=82) == one.explanation()
        with one.copy() as copy:
            assert copy.explanation() is None and copy.ask(gate.Event(line)).rule == "A35"
            assert copy.explanation() == dict(said, line=2)
        raised(gate.LineTooLong, one.answer, "x" * (LIMIT + 1))
        assert one.explanation() is None and one.answer("peer 1 mempool") == "listing 0\n" and one.explanation() is None
        assert one.answer("user a rpc 0 {").startswith("rpc ") and sorted(one.explanation()) == ["error", "line"]
        one.explain(0)
        assert one.ask(line).rule == "A35" and one.explanation() is None
    assert raised(gate.NotOpen, one.explanation).status == raised(gate.NotOpen, one.explain).status == gate.Status.NOT_OPEN


def raised(kind, call, *given):
    try:
        call(*given)
    except kind as error:
        return error
    raise AssertionError("%s was not raised" % kind.__name__)


def main():
    refused = raised(gate.OpeningRefused, gate.Gate, "nonsense\n")
    assert str(refused) == "opening 1 bad-line" and refused.status == gate.Status.OPENING_REFUSED
    assert (refused.line, refused.token) == (1, "bad-line")
    with gate.Gate(OPENING.encode(), keys=(1, 2)) as one, gate.Gate(OPENING) as other:
        assert one.is_open and one.reply() == ""
        assert one.answer("peer 1 enter 192.0.2.1") == "entered none\n"
        assert one.answer("") == "" and one.answer("# a comment") == "" and one.reply() == ""
        assert one.answer(b"\xff") == "refused L1 bad-line\n"
        assert one.answer("peer 1 enter 192.0.2.1") == "denied P3 keep peer-known\n"
        denied = one.ask("peer 1 mempool extra")
        assert (denied.kind, denied.rule, denied.token) == (gate.Kind.REFUSED, "L1", "bad-line")
        assert one.ask("peer 1 mempool").kind is gate.Kind.LISTING and one.ask("# a comment") is None
        assert one.answer("peer 1 enter 192.0.2.1") == "denied P3 keep peer-known\n"
        assert raised(gate.LineTooLong, one.answer, "x" * (LIMIT + 1)).status == gate.Status.LINE_TOO_LONG
        assert one.reply() == "denied P3 keep peer-known\n"
        assert other.answer("peer 1 enter 192.0.2.1") == "entered none\n"
    assert not one.is_open and not other.is_open
    assert raised(gate.NotOpen, one.answer, "peer 1 mempool").status == gate.Status.NOT_OPEN
    assert isinstance(raised(gate.GateError, one.reply), gate.NotOpen)
    one.close()
    moves()
    explanations()
    with gate.Gate(OPENING) as shared, ThreadPoolExecutor(8) as threads:
        replies = threads.map(lambda peer: shared.answer("peer %d enter 192.0.2.1" % peer), range(1000))
        assert list(replies) == ["entered none\n"] * 1000
    assert gate.check("zz") == gate.Check(False, "denied A1 tx-decode\n")
    library = ctypes.CDLL(os.environ["GATE_LIBRARY"])
    assert hasattr(library, "gate_answer") and not hasattr(library, "rattle_alloc")


if __name__ == "__main__":
    main()
