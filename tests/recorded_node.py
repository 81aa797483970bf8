#!/usr/bin/env python3
"""Stands for bitcoin-cli: `recorded_node.py RECORDING -stdin METHOD` answers as the node did that was recorded."""

import json
import os
import sys

sys.dont_write_bytecode = True
sys.path.insert(0, os.path.join(os.path.dirname(os.path.abspath(__file__)), "..", "gated"))

from gated import node


def parameter(line):
    """What a line stands for: an id, or JSON."""
    return line if len(line) == 64 else json.loads(line)


def main(recording, stdin, method):
    params = [parameter(line) for line in sys.stdin.read().splitlines()]
    try:
        answer = node.RecordedNode(recording).ask(method, *params)
    except node.Refused as error:
        sys.stderr.write("error code: -5\nerror message:\n%s\n" % error)
        return 5
    if answer is not None:
        print(answer if isinstance(answer, str) else json.dumps(answer, default=float))
    return 0


if __name__ == "__main__":
    sys.exit(main(*sys.argv[1:]))
