"""The calls of callers: each is the gate's to answer, or to permit before anybody else is asked."""

from __future__ import annotations

import functools
from dataclasses import dataclass
from typing import Any, Awaitable, Callable, Optional, TypeVar

from . import asking, forms
from .client import LONG_TEXT, off_loop
from .following import Following
from .forms import Call, Fault, GateEntry, GateInfo
from .keeper import Keeper, Turn
from .node import Refused, Unusable
from .passing import Passing
from .trying import Trying

# a family's entries are looked up one by one
MOST_VERBOSE = 1_000
# an answer of so many entries is made beside the loop
MANY_ENTRIES = 200
NO_SEQUENCE = "mempool_sequence is a number of the node's: ask the node"
NOT_BOTH = "Verbose results cannot contain mempool sequence values."
NOT_FORWARDED = "%s is off: gated was started without --forward"

Result = TypeVar("Result")


@dataclass(frozen=True)
class Answer:
    """An answer to one call: its result, or its error with the status of a single answer."""

    result: Any = None
    error: Optional[dict[str, Any]] = None
    status: int = 200
    # whether it may be long, and is printed beside the loop
    is_long: bool = False


def failed(fault: Fault) -> Answer:
    return Answer(None, fault.error, fault.status)


@dataclass(frozen=True)
class Options:
    """Whether what the gate takes is handed to the node, and whether answers have the gate's own forms."""

    forwards: bool = False
    in_satoshi: bool = False


class Calls:
    """Answers calls."""

    def __init__(self, keeper: Keeper, following: Following, trying: Trying, passing: Passing, options: Options) -> None:
        self._keeper, self._following, self._trying, self._passing, self._options = keeper, following, trying, passing, options
        # what the gate has permitted: a user and a method
        self._permits: set[tuple[str, str]] = set()

    async def answer(self, user: str, call: Call) -> Answer:
        """An answer; a Fault if it is an error."""
        if call.method not in forms.METHODS:
            if not self._passing.has(call.method):
                # the gate says whether the user may not call it, or nobody can
                return Answer(await self._asked(user, call.method, []))
            return await self._passed(user, call)
        given = await self._arguments(user, call)
        await self._following.caught_up()
        if call.method == "testmempoolaccept":
            return await self._tried(user, *given)
        if call.method == "sendrawtransaction":
            return await self._sent(user, *given)
        if call.method == "submitpackage":
            return await self._submitted(user, *given)
        if call.method == "getrawtransaction":
            return await self._transaction(user, call, *given)
        if call.method == "getrawmempool":
            return await self._pool(user, *given)
        if call.method in ("getmempoolancestors", "getmempooldescendants"):
            return await self._family(user, call.method, *given)
        if call.method == "getmempoolentry":
            return await self._entry(user, *given)
        if call.method == "getmempoolinfo":
            info: GateInfo = await self._asked(user, call.method, [])
            return Answer(info if self._options.in_satoshi else forms.pool_info(info, self._following.pool_info))
        return await self._spending(user, *given)

    async def _arguments(self, user: str, call: Call) -> list[Any]:
        """The parameters in their places. What is wrong with them is said only to a user who may call the method."""
        try:
            return forms.arguments(call)
        except (Fault, forms.WrongCount) as error:
            await self._permitted(user, call.method)
            if isinstance(error, Fault):
                raise
        raise Fault(forms.MISC_ERROR, await self._help(call.method))

    async def _help(self, method: str) -> str:
        try:
            return await self._passing.help(method)
        except (Refused, Unusable):
            return " ".join([method, *(it.name if it.is_needed else "( %s )" % it.name for it in forms.METHODS[method])])

    async def _permitted(self, user: str, method: str) -> None:
        """A Fault unless the gate permits a user this method, and has it. Lines of each opening say both, the same ones as long as
        gated runs, so what it has permitted stays so."""
        if (user, method) not in self._permits:
            await self._keeper.offered(functools.partial(asking.permit, user=user, method=method))
            self._permits.add((user, method))

    async def _asked(self, user: str, method: str, params: list[Any]) -> Any:
        """What the gate gives for a call. A long reply is read beside the loop, and beside the gate's own thread."""
        line = asking.line_of(user, method, params)
        reply = await self._keeper.offered(lambda turn: turn.ask(line))
        return await off_loop(len(reply) > LONG_TEXT, asking.result_of, reply)

    async def _passed(self, user: str, call: Call) -> Answer:
        await self._permitted(user, call.method)
        return Answer(await self._passing.result(call), is_long=True)

    # the pool

    async def _pool(self, user: str, verbose: Optional[bool], sequence: Optional[bool]) -> Answer:
        """A listing, or with `verbose` its entries, by the gate's own call."""
        if sequence:
            await self._permitted(user, "getrawmempool")
            raise Fault(forms.INVALID_PARAMETER, NOT_BOTH if verbose else NO_SEQUENCE)
        if not verbose:
            listing: list[str] = await self._asked(user, "getrawmempool", [])
            return Answer(listing, is_long=len(listing) > MANY_ENTRIES)
        return await self._entries(await self._asked(user, "getrawmempool", [True]))

    async def _entries(self, told: dict[str, GateEntry]) -> Answer:
        """Entries in the form of a node's."""
        height_of, is_long = self._following.height_of, len(told) > MANY_ENTRIES
        if self._options.in_satoshi:
            return Answer(told, is_long=is_long)
        made = await off_loop(is_long, lambda them: {txid: forms.entry(it, height_of(txid)) for txid, it in them.items()}, told)
        return Answer(made, is_long=is_long)

    async def _family(self, user: str, method: str, txid: str, verbose: Optional[bool]) -> Answer:
        if not verbose:
            return Answer(await self._of_the_pool(txid, lambda: self._asked(user, method, [txid])))
        job = functools.partial(_family_entries, user=user, method=method, txid=txid)
        return await self._entries(await self._of_the_pool(txid, lambda: self._keeper.offered(job)))

    async def _entry(self, user: str, txid: str) -> Answer:
        told: GateEntry = await self._of_the_pool(txid, lambda: self._asked(user, "getmempoolentry", [txid]))
        return Answer(told if self._options.in_satoshi else forms.entry(told, self._following.height_of(txid.lower())))

    async def _transaction(self, user: str, call: Call, txid: str, verbosity: Any, block: Optional[str]) -> Answer:
        """The text of an entry; the node is asked for more of it, and for any other transaction."""
        if verbosity or block is not None:
            return await self._passed(user, call)
        try:
            return Answer(await self._asked(user, "getrawtransaction", [txid]))
        except Fault as fault:
            if fault.error["code"] != forms.NO_SUCH_ENTRY:
                raise
        return Answer(await self._passing.result(call))

    async def _spending(self, user: str, outputs: list[Any]) -> Answer:
        try:
            forms.check_outputs(outputs)
        except Fault:
            await self._permitted(user, "gettxspendingprevout")
            raise
        return Answer(await self._asked(user, "gettxspendingprevout", [outputs]))

    async def _of_the_pool(self, txid: str, ask: Callable[[], Awaitable[Result]]) -> Result:
        """What the gate gives for an entry. If it has none and the node has, it is given what it lacks, and asked again."""
        try:
            return await ask()
        except Fault as fault:
            if fault.error["code"] != forms.NO_SUCH_ENTRY or not await self._trying.has_been_given([txid.lower()]):
                raise
        return await ask()

    # transactions

    async def _tried(self, user: str, listed: list[Any], rate: Any) -> Answer:
        await self._permitted(user, "testmempoolaccept")
        forms.check_listed(listed)
        _check_amount(rate)
        told = await self._trying.tried(user, listed, rate)
        return Answer([it if self._options.in_satoshi else forms.trial(it) for it in told])

    async def _sent(self, user: str, digits: str, rate: Any, burn: Any) -> Answer:
        await self._permitted_to_send(user, "sendrawtransaction")
        _check_amount(rate)
        _check_amount(burn)
        return Answer(await self._trying.sent(user, digits, rate, burn))

    async def _submitted(self, user: str, listed: list[Any], rate: Any, burn: Any) -> Answer:
        await self._permitted_to_send(user, "submitpackage")
        forms.check_listed(listed)
        in_satoshi = [forms.USUAL_RATE if rate is None else forms.rate_of(rate), 0 if burn is None else forms.satoshi_of(burn)]
        told = await self._trying.submitted(user, listed, in_satoshi, rate, burn)
        return Answer(told if self._options.in_satoshi else forms.package(told))

    async def _permitted_to_send(self, user: str, method: str) -> None:
        await self._permitted(user, method)
        if not self._options.forwards:
            raise Fault(forms.MISC_ERROR, NOT_FORWARDED % method)


def _check_amount(value: Any) -> None:
    if value is not None:
        forms.satoshi_of(value)


def _family_entries(turn: Turn, user: str, method: str, txid: str) -> dict[str, GateEntry]:
    """The entries of a family, looked up one by one."""
    listing: list[str] = asking.asked(turn, user, method, [txid])
    if len(listing) > MOST_VERBOSE:
        raise Fault(forms.MISC_ERROR, "a verbose listing has at most %d transactions, and this one %d" % (MOST_VERBOSE, len(listing)))
    return {it: asking.looked(turn, "getmempoolentry", [it]) for it in listing}
