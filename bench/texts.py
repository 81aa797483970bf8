"""The lines and the transactions of the streams that bench/run measures.

A coin is named by its number, an output of a transaction by that transaction's hash and an index. Each input has a
witness of a signature's and a key's length, so a transaction of one input and one output has 192 bytes, 110 virtual
bytes.
"""

import hashlib
import json

SCRIPT = "0014" + "22" * 20
WITNESS = "02" + "48" + "30" * 72 + "21" + "02" * 33
VALUE = 100000
FEE = 110
SIZE = 110
BUDGET = 1000000000
BREAK = "---\n"
ENTER = "peer 1 enter 192.0.2.1\n"


def settings(budget):
    """An opening but for its coins, with a budget of virtual bytes."""
    return "budget %d\ntimes 101 1000 600\nverdict * ok\nbloom 1\n" % budget


def coin(number, value=VALUE, script=SCRIPT):
    return "coin %s 0 %d 1 plain %s\n" % (reversed_bytes(coin_hash(number)), value, script)


def coins(count, value=VALUE):
    return (coin(number, value) for number in range(1, count + 1))


def submission(digits):
    return "peer 1 tx 5000 %s\n" % digits


def paying(spent, outputs):
    return submission(transaction(spent, outputs))


def call(method, *params):
    text = {"method": method, "params": list(params), "id": 1}
    return "user a rpc 5000 %s\n" % json.dumps(text, separators=(",", ":"))


def coin_hash(number):
    """A transaction hash of our own for the coin of this number, in hash order."""
    return number.to_bytes(8, "big").hex() * 4


def reversed_bytes(digits):
    return bytes.fromhex(digits)[::-1].hex()


def count_of(number):
    """A CompactSize count."""
    return number.to_bytes(1, "little").hex() if number < 253 else "fd" + number.to_bytes(2, "little").hex()


def outpoint(spent):
    hash, index = spent if isinstance(spent, tuple) else (coin_hash(spent), 0)
    return hash + index.to_bytes(4, "little").hex()


def output(value, script=SCRIPT):
    return value.to_bytes(8, "little").hex() + count_of(len(script) // 2) + script


def transaction(spent, outputs, witness=True):
    """A transaction in hexadecimal that spends coins and outputs to outputs: values, or their whole texts."""
    inputs = "".join(outpoint(one) + "00" + "fdffffff" for one in spent)
    paid = "".join(one if isinstance(one, str) else output(one) for one in outputs)
    flag, witnesses = ("0001", WITNESS * len(spent)) if witness else ("", "")
    return "02000000" + flag + count_of(len(spent)) + inputs + count_of(len(outputs)) + paid + witnesses + "00000000"


def hash_of(spent, outputs):
    """The hash of such a transaction, in hash order."""
    stripped = bytes.fromhex(transaction(spent, outputs, witness=False))
    return hashlib.sha256(hashlib.sha256(stripped).digest()).hexdigest()


def virtual_size(spent, outputs):
    stripped, whole = (len(transaction(spent, outputs, witness)) // 2 for witness in (False, True))
    return (3 * stripped + whole + 3) // 4


def payment(number, fee=FEE):
    """A transaction that spends the coin of a number to one output."""
    return transaction([number], [VALUE - fee])


def chain(number, length):
    """Transactions of which each but the first spends the one before it, from the coin of a number: what each spends,
    and the value of its output."""
    spent = number
    for link in range(1, length + 1):
        value = VALUE - link * FEE
        yield spent, value
        spent = (hash_of([spent], [value]), 0)


def block(number, transactions):
    """A block of which the header says the time alone. No other number has its coinbase."""
    header = "00" * 68 + (100000 + 600 * number).to_bytes(4, "little").hex() + "00" * 8
    script = "08" + number.to_bytes(8, "little").hex()
    coinbase = "01000000" + "01" + "00" * 32 + "ffffffff" + "09" + script + "ffffffff" + "01" + output(5000000000) + "00000000"
    return header + count_of(len(transactions) + 1) + coinbase + "".join(transactions)
