"""A caller's own bound on what a transaction burns (`maxburnamount`). A node looks at it as a transaction is sent, before anything
else, and in no other call. So it is asked with a transaction of the same outputs whose coin is nowhere: whatever else the node
finds wrong with that one, it can't take it."""

from __future__ import annotations

from typing import Sequence

from .node import Paid

HEAD = (2).to_bytes(4, "little")
# one input: its outpoint is the first of a txid that no transaction has, and its script is empty
NOWHERE = b"\x01" + b"\xff" * 32 + bytes(4) + b"\x00" + b"\xff" * 4
LOCKTIME = bytes(4)
# below which number a count takes so many bytes, and the byte before them
COUNTS = ((0xFD, 1, b""), (0x1_0000, 2, b"\xfd"), (0x1_0000_0000, 4, b"\xfe"))


def without_coins(outputs: Sequence[Paid]) -> str:
    """The text of a transaction with these outputs, which spends a coin that is nowhere."""
    each = (it.value.to_bytes(8, "little") + _count(len(it.script)) + it.script for it in outputs)
    return b"".join((HEAD, NOWHERE, _count(len(outputs)), *each, LOCKTIME)).hex()


def _count(number: int) -> bytes:
    """A count as a transaction has it."""
    _, size, mark = next(it for it in COUNTS if number < it[0])
    return mark + number.to_bytes(size, "little")
