"""What a node says of the scripts of a package's members. It can't be asked whether it would take these: one may pay too little by
itself, or spend what another one makes. Asked to sign a transaction without any key, it runs the scripts as for its pool, changes
nothing, and gives back the same transaction as complete if all of them are met."""

from __future__ import annotations

from typing import Any, Sequence, Union

from . import forms
from .node import Refused, Spent, Transaction, Unusable
from .node.transactions import Reader

METHOD = "signrawtransactionwithkey"
# scripts that pay to a hash of another one: what stands before the hash, behind it, and how long all is
TO_SCRIPT, TO_WITNESS_SCRIPT = (b"\xa9\x14", b"\x87", 23), (b"\x00\x20", b"", 34)
# opcodes behind which the size of an item stands, and the bytes of that
SIZED = {76: 1, 77: 2, 78: 4}
NOT_MET = "the scripts are not met"


def question(one: Transaction, members: Sequence[Transaction]) -> list[Any]:
    """The parameters by which a node is asked about a member of a package, with the outputs of other members that it spends."""
    paid = {it.txid: it.paid for it in members}
    spent = [it for it in one.spent if it.index < len(paid.get(it.txid, ()))]
    return [one.digits, [], [_output(it, paid[it.txid][it.index].value, paid[it.txid][it.index].script) for it in spent]]


def why_not(one: Transaction, told: Union[dict[str, Any], Refused]) -> str:
    """What a node says against the scripts of a transaction; nothing if all of them are met by the transaction as it is: a node
    may put together another one that meets them."""
    if isinstance(told, Refused):
        return str(told)
    if not isinstance(told, dict):
        raise Unusable("the node answers %s by %r" % (METHOD, told))
    if told.get("complete") is True and told.get("hex") == one.digits.lower():
        return ""
    errors = told.get("errors")
    return str(errors[0]["error"]) if errors else NOT_MET


def _output(spent: Spent, value: int, script: bytes) -> dict[str, Any]:
    """An output as a node takes it that doesn't know it. It asks for the script whose hash is paid."""
    found = {"txid": spent.txid, "vout": spent.index, "scriptPubKey": script.hex(), "amount": forms.amount(value)}
    if _has_form(script, TO_SCRIPT):
        found["redeemScript"] = last_push(spent.script).hex()
    if _has_form(script, TO_WITNESS_SCRIPT):
        found["witnessScript"] = b"".join(spent.witness[-1:]).hex()
    return found


def _has_form(script: bytes, form: tuple[bytes, bytes, int]) -> bool:
    return script.startswith(form[0]) and script.endswith(form[1]) and len(script) == form[2]


def last_push(script: bytes) -> bytes:
    """The last item that an input's script pushes; nothing if it pushes none."""
    reader, found = Reader(script), b""
    try:
        while reader.at < len(script):
            code = reader.number(1)
            found = reader.take(reader.number(SIZED[code]) if code in SIZED else code if code < min(SIZED) else 0)
    except ValueError:
        return b""
    return found
