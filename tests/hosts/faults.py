#!/usr/bin/env python3
"""The package for Python on the library of fake_library.c: exceptions, replies in their parts, gates that are closed."""

import ctypes
import os
import sys

sys.dont_write_bytecode = True

import gate


def fault_of(kind, call, *given):
    try:
        call(*given)
    except kind as error:
        return error
    raise AssertionError("%s was not raised" % kind.__name__)


def moves():
    one, other, third = (64 * digit for digit in "abc")
    with gate.Gate("") as opened:
        assert opened.changes() == gate.Changes() == ((), ())
        opened.answer("- %s;- %s;+ %s" % (one, other, third))
        for _ in range(2):
            moved = opened.changes()
            assert (moved.departed, moved.arrived) == ((one, other), (third,))
        with opened.copy() as copy:
            assert copy.changes() == gate.Changes()
        assert opened.changes() == moved
        assert fault_of(gate.LineTooLong, opened.answer, "end 7") and opened.changes() == gate.Changes()
        opened.answer("+ %s;+ %s" % (one, other))
        assert opened.changes() == gate.Changes((), (one, other))
        opened.answer("# a comment")
        assert opened.changes() == gate.Changes()
        for lines in ("+ %s", "+ %s\n- %s\n", "* %s\n", "+%s\n", "+ %s \n", "+ %s0\n", "+ %s\n\n", "\n%s", "set\n%s"):
            fault_of(gate.NotAReply, gate.Changes.parse, lines.replace("%s", one))
        opened.answer("set")
        fault_of(gate.NotAReply, opened.changes)
        opened.answer("fail 3")
        assert isinstance(fault_of(gate.OutOfMemory, opened.changes), MemoryError)
    fault_of(gate.NotOpen, opened.changes)


def explanations():
    with gate.Gate("") as opened:
        assert opened.explanation() is None and opened.answer("denied") == "denied\n" and opened.explanation() is None
        opened.explain()
        opened.answer("set")
        assert opened.explanation() is None
        opened.answer("denied A1 keep tx-decode")
        said = opened.explanation()
        assert (said["line"], said["size"], len(said["padding"])) == (2, 25, 500) and opened.explanation() == said
        with opened.copy() as copy:
            assert copy.explanation() is None
            copy.answer(gate.Event("denied"))
            assert copy.explanation()["line"] == 3
        assert fault_of(gate.LineTooLong, opened.answer, "end 7") and opened.explanation() is None
        opened.explain(2**64 - 1)
        opened.answer("denied")
        assert opened.explanation()["line"] == 2**64 - 1
        opened.explain(0)
        opened.answer("denied")
        assert opened.explanation() is None
        opened.answer("fail 3")
        assert isinstance(fault_of(gate.OutOfMemory, opened.explanation), MemoryError)
    fault_of(gate.NotOpen, opened.explanation)
    fault_of(gate.NotOpen, opened.explain)


def main():
    open_handles = ctypes.CDLL(os.environ["GATE_LIBRARY"]).fake_open_handles
    open_handles.restype = ctypes.c_size_t
    with gate.Gate("") as one:
        assert one.is_open and open_handles() == 1
        assert one.answer("") == "" and one.ask("# a comment") is None
        assert one.answer(b"set") == "set\n"
        assert isinstance(fault_of(gate.OutOfMemory, one.answer, "end 3"), MemoryError)
        assert fault_of(gate.LineTooLong, one.answer, "end 7").status == gate.Status.LINE_TOO_LONG
        assert fault_of(gate.GateError, one.answer, "end 5").status == gate.Status.ALREADY_OPEN
        assert fault_of(gate.GateError, one.answer, "end 77").status == 77
        assert one.reply() == "set\n"
        assert isinstance(fault_of(gate.ReplyKept, one.answer, "keep left"), MemoryError) and one.reply() == "left\n"
        assert isinstance(fault_of(gate.NotAReply, one.ask, "no such reply"), ValueError)
        for text in ("", "\n", "set\n\n", "set\nset", "denied A1 keep two\nlines", "rpc 200 {\n}", b"\xff"):
            fault_of(gate.NotAReply, gate.Reply.parse, text)
        assert one.answer("x" * 1000) == one.reply() == "x" * 1000 + "\n"
        denied = one.ask("denied A7 close bad-txns-txouttotal-toolarge")
        assert (denied.kind, denied.rule, denied.then) == (gate.Kind.DENIED, "A7", gate.Then.CLOSE)
        assert denied.token == "bad-txns-txouttotal-toolarge" and denied.txid == "" and denied.fee == 0
        refused = fault_of(gate.OpeningRefused, gate.Gate, "refuse")
        assert (str(refused), refused.line, refused.token) == ("opening 1 bad-line", 1, "bad-line")
        assert fault_of(gate.OutOfMemory, gate.Gate, "end 3").status == gate.Status.OUT_OF_MEMORY
        assert open_handles() == 1
        event = gate.Event("left")
        assert one.answer(event) == "left\n" and one.ask(event).kind is gate.Kind.LEFT and open_handles() == 2
        assert one.ask(gate.Event(b"# a comment")) is None and open_handles() == 2
        assert fault_of(gate.LineTooLong, gate.Event, "fail 7").status == gate.Status.LINE_TOO_LONG
        assert isinstance(fault_of(gate.OutOfMemory, gate.Event, "fail 3"), MemoryError)
        assert one.answer(event) == "left\n"
        with one.copy() as copy:
            assert copy.reply() == "left\n" and copy.answer("set") == "set\n" and open_handles() == 3
        assert one.reply() == "left\n" and one.answer("fail 3") == "fail 3\n"
        assert isinstance(fault_of(gate.OutOfMemory, one.copy), MemoryError)
        del event
    assert not one.is_open and open_handles() == 0
    assert isinstance(fault_of(gate.NotOpen, one.copy), gate.GateError)
    assert fault_of(gate.NotOpen, one.answer, "set").status == gate.Status.NOT_OPEN
    one.close()
    moves()
    explanations()
    gate.Gate("")
    assert open_handles() == 0, "a gate that nobody names is closed"
    assert gate.check("00" + "x" * 1000) == gate.Check(True, "00" + "x" * 1000)
    assert gate.check("zz") == gate.Check(False, "denied A1 tx-decode\n")
    fault_of(gate.OutOfMemory, gate.check, "end 3")
    assert gate.version() == "0.0.0"


if __name__ == "__main__":
    main()
