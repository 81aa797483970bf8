#!/usr/bin/env python3
"""Prints the parts of each line of standard input that are not empty, by the package for Python: see tests/replies.py."""

import dataclasses
import enum
import sys

sys.dont_write_bytecode = True

import gate


def text_of(value):
    if isinstance(value, enum.Enum):
        return value.value
    if isinstance(value, gate.Member):
        return member_text(value)
    return ",".join(map(text_of, value)) if isinstance(value, tuple) else str(value)


def member_text(member):
    """A member as it stands in its reply."""
    if member.fate is gate.Fate.DENIED:
        return "denied %s %s" % (member.rule, member.token)
    paid = " fee %d vsize %d replaced %d" % (member.fee, member.vsize, member.replaced)
    return "%s %s" % (member.fate.value, member.txid) + (paid if member.fate is gate.Fate.ADMITTED else "")


def parts_of(line):
    try:
        reply = gate.Reply.parse(line)
    except gate.NotAReply:
        return ["none"]
    assert str(reply) == reply.line == line.decode()[:-1]
    parts = {name: text_of(value) for name, value in vars(reply).items() if name != "line"}
    return ["%s=%s" % (name, text) for name, text in sorted(parts.items()) if text not in ("", "0", "keep")]


def main():
    assert len(dataclasses.fields(gate.Reply)) == 24
    for line in sys.stdin.buffer:
        sys.stdout.buffer.write(("\t".join(parts_of(line)) + "\n").encode())


if __name__ == "__main__":
    main()
