#!/usr/bin/env python3
"""`gate run`, `gate check -` and `gate --version`, as `version`, by the package for Python. Other words go to the program that
the variable GATE names. If the variable CHANGES is set, what stands behind the reply to a line is what the line moved, and a line `=`.
If EXPLAIN is set, what is said of each reply goes to standard error, by the numbers of the lines in the input.
"""

import json
import os
import sys

sys.dont_write_bytecode = True
sys.path.insert(0, os.path.join(os.path.dirname(os.path.abspath(__file__)), "..", "..", "lib", "python"))

import gate

LINES = 1000000


def parted(text):
    """The opening with its line `---`, and the lines behind it, without their newlines."""
    lines = text.split(b"\n")
    if lines[-1] == b"":
        lines.pop()
    end = lines.index(b"---") + 1 if b"---" in lines else len(lines)
    return b"".join(line + b"\n" for line in lines[:end]), lines[end:]


def changes_of(opened):
    moved = opened.changes()
    told = ["- " + txid for txid in moved.departed] + ["+ " + txid for txid in moved.arrived] + ["="]
    return "".join(line + "\n" for line in told)


def run(out):
    opening, lines = parted(sys.stdin.buffer.read())
    try:
        with gate.Gate(opening) as opened:
            if "EXPLAIN" in os.environ:
                opened.explain(opening.count(b"\n") + 1)
            for number, line in enumerate(lines):
                if number == LINES:
                    out.write(b"refused L3 too-many-lines\n")
                    break
                reply = opened.answer(line)
                assert opened.reply() == reply
                assert not reply or gate.Reply.parse(reply).line + "\n" == reply
                out.write(reply.encode())
                if "CHANGES" in os.environ:
                    out.write(changes_of(opened).encode())
                said = opened.explanation()
                if said is not None:
                    print(json.dumps(said), file=sys.stderr)
        assert not opened.is_open
    except gate.OpeningRefused as refused:
        out.write(b"%s\n" % str(refused).encode())
        return 2
    except gate.LineTooLong:
        out.write(b"refused L2 line-too-long\n")
    return 0


def main(*words):
    out = sys.stdout.buffer
    if words == ("run",):
        return run(out)
    if words == ("check", "-"):
        checked = gate.check(sys.stdin.buffer.read())
        out.write(checked.lines.encode())
        return 0 if checked.is_standard else 1
    if words == ("version",):
        out.write(b"gate %s\n" % gate.version().encode())
        return 0
    os.execv(os.environ["GATE"], [os.environ["GATE"], *words])


if __name__ == "__main__":
    sys.exit(main(*sys.argv[1:]))
