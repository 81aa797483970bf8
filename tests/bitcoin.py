"""Transactions by docs/FORMATS.md: their texts, ids and sizes. Amounts are in satoshi."""

import hashlib
from dataclasses import dataclass, field
from typing import List

WITNESS_KEY_HASH = bytes.fromhex("0014" + "22" * 20)


def compact(number):
    """A CompactSize count in its shortest form."""
    if number < 0xFD:
        return number.to_bytes(1, "little")
    if number < 0x10000:
        return b"\xfd" + number.to_bytes(2, "little")
    if number < 0x100000000:
        return b"\xfe" + number.to_bytes(4, "little")
    return b"\xff" + number.to_bytes(8, "little")


def counted(parts):
    return compact(len(parts)) + b"".join(parts)


def with_length(text):
    return compact(len(text)) + text


def printed(hash_bytes):
    """An id as it is printed: in reversed byte order."""
    return hash_bytes[::-1].hex()


def hashed(text):
    return hashlib.sha256(hashlib.sha256(text).digest()).digest()


@dataclass
class Input:
    hash: bytes
    index: int = 0
    script: bytes = b""
    sequence: int = 0xFFFFFFFD
    witness: List[bytes] = field(default_factory=list)

    def text(self):
        return self.hash + self.index.to_bytes(4, "little") + with_length(self.script) + self.sequence.to_bytes(4, "little")


@dataclass
class Output:
    value: int
    script: bytes = WITNESS_KEY_HASH

    def text(self):
        return self.value.to_bytes(8, "little", signed=True) + with_length(self.script)


@dataclass
class Transaction:
    inputs: List[Input]
    outputs: List[Output]
    version: int = 2
    locktime: int = 0

    def written(self, flag, witnesses):
        head = self.version.to_bytes(4, "little", signed=True) + flag
        body = counted([one.text() for one in self.inputs]) + counted([one.text() for one in self.outputs])
        return head + body + witnesses + self.locktime.to_bytes(4, "little")

    def stripped(self):
        return self.written(b"", b"")

    def text(self):
        if not any(one.witness for one in self.inputs):
            return self.stripped()
        witnesses = [counted([with_length(item) for item in one.witness]) for one in self.inputs]
        return self.written(b"\x00\x01", b"".join(witnesses))

    def hex(self):
        return self.text().hex()

    def hash(self):
        return hashed(self.stripped())

    def txid(self):
        return printed(self.hash())

    def wtxid(self):
        return printed(hashed(self.text()))

    def weight(self):
        return 3 * len(self.stripped()) + len(self.text())

    def virtual_size(self, cost=0, sigop_size=20):
        """A quarter of the weight, or of the signature-operation cost by the bytes that each counts for, rounded up."""
        return (max(self.weight(), sigop_size * cost) + 3) // 4


def number_hash(number):
    """A transaction hash of our own for a coin of this number."""
    return number.to_bytes(8, "big") * 4


def coin(number, value=100000, height=0, kind="plain", script=WITNESS_KEY_HASH, index=0):
    """The line of a coin."""
    return "coin %s %d %d %d %s %s" % (printed(number_hash(number)), index, value, height, kind, script.hex() or "-")


def payment(number, value, **more):
    """One input, which spends the coin of this number, and one output."""
    return Transaction([Input(number_hash(number))], [Output(value)], **more)


def padded(size, number, value):
    """A standard transaction without witness of exactly this many bytes, some 100,000 at most.

    It spends the coin of this number to outputs of one value, and to one that carries data.
    """
    data = Output(0, b"\x6a")
    bare = Transaction([Input(number_hash(number))], [data])
    count = (size - len(bare.stripped()) - 4) // len(Output(value).text())
    bare.outputs = [Output(value)] * count + [data]
    missing = size - len(bare.stripped())
    data.script += bytes([missing - 1]) + bytes(missing - 1)
    return bare
