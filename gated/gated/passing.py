"""Calls that only look, and that the gate has not: they are passed to the node, if the gate lets the user call them."""

from __future__ import annotations

from typing import Any, Iterable

from .client import NodeClient
from .forms import METHODS, MISC_ERROR, Call, Fault
from .node import Refused

# what wallets, indexers and Lightning nodes ask of a node beside its pool; none of these changes anything
PASSED = frozenset((
    "estimatesmartfee", "getbestblockhash", "getblock", "getblockchaininfo", "getblockcount", "getblockhash", "getblockheader",
    "getindexinfo", "getnetworkinfo", "getrawtransaction", "gettxout", "getzmqnotifications", "help", "uptime",
))  # fmt: skip


class NotPassed(ValueError):
    """A call that the gate answers can't be passed to the node."""


class Passing:
    """Passes calls to the node, and its answers back as they are."""

    def __init__(self, client: NodeClient, more: Iterable[str] = ()) -> None:
        self._client, self._methods = client, PASSED.union(more)
        own = sorted(set(more) & METHODS.keys() - PASSED)
        if own:
            raise NotPassed("%s is a call that the gate answers" % own[0])

    def has(self, method: str) -> bool:
        return method in self._methods

    async def result(self, call: Call) -> Any:
        """What the node gives for a call; a Fault in its words if that is an error."""
        try:
            return await self._client.passed(call.method, call.given)
        except Refused as error:
            raise Fault(error.code or MISC_ERROR, str(error)) from error

    async def help(self, method: str) -> str:
        """The node's help for a method, which is the message of a call with too few or too many parameters."""
        return str(await self._client.ask("help", method))
