"""What callers ask as lines of the gate, and its replies as results or errors."""

from __future__ import annotations

import time
from typing import Any, Optional, Sequence

from . import forms
from .forms import Fault
from .keeper import Turn
from .opening import OWN_USER

# parameters that no method takes: the answer to them is U1, or else that they are wrong
OF_NO_METHOD: list[Any] = [{}]
DENIED = "denied"


def line_of(user: str, method: str, params: Sequence[Any], now: Optional[int] = None) -> str:
    """A call as a line of the gate, at this second or at that of the clock. A ValueError if its parameters are nested too deep."""
    return "user %s rpc %d %s" % (user, time.time() if now is None else now, forms.text_of({"method": method, "params": params, "id": 0}))


def result_of(reply: str) -> Any:
    """The result that a reply has; a Fault if it is an error."""
    word, _, rest = reply.partition(" ")
    status, _, text = rest.partition(" ")
    if word != "rpc":
        raise Fault(forms.MISC_ERROR, "the gate answers %s" % reply)
    if text.startswith(DENIED):
        # denied U1 rpc-whitelist
        _, rule, token = text.split(" ")
        raise Fault(forms.FORBIDDEN, token, rule, int(status))
    told = forms.read_json(text)
    error = told["error"]
    if error is None:
        return told["result"]
    message, rule = forms.UNREADABLE if error["code"] == forms.DECODE_ERROR else error["message"], error.get("rule")
    raise Fault(error["code"], forms.SAID_OF_PACKAGE.get(rule, message), rule, int(status))


def asked(turn: Turn, user: str, method: str, params: Sequence[Any]) -> Any:
    """What the gate gives a user for a call; a Fault if it is an error."""
    return result_of(turn.ask(line_of(user, method, params)))


def looked(turn: Turn, method: str, params: Sequence[Any]) -> Any:
    """What the gate gives gated itself, without an entry in the journal; None for an error."""
    try:
        return result_of(turn.look(line_of(OWN_USER, method, params)))
    except Fault:
        return None


def has(turn: Turn, method: str) -> bool:
    """Whether the gate has a method, for gated itself."""
    try:
        result_of(turn.look(line_of(OWN_USER, method, OF_NO_METHOD)))
    except Fault as fault:
        return bool(fault.error["code"] == forms.INVALID_PARAMS)
    return True


def permit(turn: Turn, user: str, method: str) -> None:
    """A Fault unless the gate permits a user this method, and has it, if it is one that it may have. A denial is in the journal;
    where it permits, nothing is written."""
    try:
        result_of(turn.look(line_of(user, method, OF_NO_METHOD)))
    except Fault as fault:
        code = fault.error["code"]
        if code == forms.INVALID_PARAMS or code == forms.METHOD_NOT_FOUND and method not in forms.METHODS:
            # what is wrong is the parameters, or that the method is the node's: the user may call it
            return
        if code in (forms.FORBIDDEN, forms.METHOD_NOT_FOUND):
            asked(turn, user, method, [])
        raise
