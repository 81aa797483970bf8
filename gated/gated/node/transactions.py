"""A transaction as its text has it: what it spends, and its ids."""

from __future__ import annotations

import hashlib
from dataclasses import dataclass, field
from typing import Callable, TypeVar

Item = TypeVar("Item")


@dataclass
class Spent:
    """An outpoint that an input spends, and the input's sequence, script and witness."""

    txid: str
    index: int
    sequence: int
    script: bytes
    witness: list[bytes] = field(default_factory=list)


@dataclass
class Paid:
    """An output: its value in satoshi, and its script."""

    value: int
    script: bytes


@dataclass
class Transaction:
    """A transaction as its text has it."""

    digits: str
    version: int
    spent: list[Spent]
    paid: list[Paid]
    txid: str
    wtxid: str


class Reader:
    """Takes numbers and counted texts from bytes, from the left."""

    def __init__(self, text: bytes) -> None:
        self.text, self.at = text, 0

    def take(self, count: int) -> bytes:
        self.at += count
        if self.at > len(self.text):
            raise ValueError("the text ends too early")
        return self.text[self.at - count : self.at]

    def number(self, size: int) -> int:
        return int.from_bytes(self.take(size), "little")

    def count(self) -> int:
        first = self.number(1)
        return first if first < 0xFD else self.number({0xFD: 2, 0xFE: 4, 0xFF: 8}[first])

    def each(self, read: Callable[[], Item]) -> list[Item]:
        return [read() for _ in range(self.count())]

    def counted(self) -> bytes:
        return self.take(self.count())


def printed_hash(text: bytes) -> str:
    return hashlib.sha256(hashlib.sha256(text).digest()).digest()[::-1].hex()


def read_transaction(digits: str) -> Transaction:
    """The transaction that hexadecimal parses as (BIP 144), or ValueError."""
    text = bytes.fromhex(digits)
    reader = Reader(text)
    version = reader.number(4)
    has_witness = text[4:6] == b"\0\1"
    body_at = reader.at = 6 if has_witness else 4

    def spent() -> Spent:
        hash, index, script = reader.take(32), reader.number(4), reader.counted()
        return Spent(hash[::-1].hex(), index, reader.number(4), script)

    def paid() -> Paid:
        return Paid(reader.number(8), reader.counted())

    inputs = reader.each(spent)
    outputs = reader.each(paid)
    body = text[body_at : reader.at]
    if has_witness:
        for it in inputs:
            it.witness = reader.each(reader.counted)
    stripped = text[:4] + body + reader.take(4)
    return Transaction(digits, version, inputs, outputs, printed_hash(stripped), printed_hash(text))
