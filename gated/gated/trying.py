"""Transactions that callers try or send. Every decision is the gate's; what it may not know, coins and what a script interpreter
says, is asked of the node before. What only the node can say, its own verdict and a caller's bounds, it says."""

from __future__ import annotations

import asyncio
import functools
import logging
from dataclasses import dataclass, field
from typing import Any, Awaitable, Callable, Optional, Sequence

from . import asking, burning, forms, scripts
from .client import NodeClient, NotThere
from .families import NO_COIN, TOO_POOR
from .following import ChainMoved, CoinsShown, Following
from .forms import Fault, GateMember, GatePackage, GateTrial
from .keeper import Closed, Keeper, Turn
from .node import SCRIPT_REASONS, Refused, Transaction, Unusable, read_transaction, satoshi
from .node.answers import MemberInfo, PackageInfo, TrialInfo
from .node.differences import Answer
from .node.releases import SAID_OF_BURN
from .once_for_all import OnceForAll
from .opening import verdict_lines
from .shadow import Shadow

log = logging.getLogger("gated")

# the rules of the gate that are answered by what the node says
KNOWN_ALREADY = ("A21", "A22")
VERDICT_MISSING = "A43"
# the rules that a member of a package may fail by itself and pass with the others
MENDED = (NO_COIN, *TOO_POOR)
# how a node names what pays more than its caller wants, and a transaction without coins
FEE_PAST, MISSING_INPUTS = "max-fee-exceeded", "missing-inputs"
SAID_OF_FEE = "Fee exceeds maximum configured by user (e.g. -maxtxfee, maxfeerate)"
SAID_OF_COINS = "bad-txns-inputs-missingorspent"
# how a node says that it has a whole package, and that it doesn't have some of it
PACKAGE_TAKEN, PACKAGE_FAILED = "success", "transaction failed"
IN_CHAIN_ALREADY = -27
# the codes by which a node says that parameters are wrong, or that it doesn't know so many
OF_THE_PARAMETERS = (forms.MISC_ERROR, forms.TYPE_ERROR, forms.INVALID_PARAMETER)
# inputs for whose coins the node is asked whatever the gate says of the rest
FEW_INPUTS = 100
# how often coins are asked for if the chain moves meanwhile
ROUNDS = 8
# seconds between two listings of the node's pool, at the least, and seconds that a caller waits for what one shows
LISTED_PAUSE, LISTED_SECONDS = 1.0, 15.0
# the pauses before a node whose answer got lost is asked again whether it takes a transaction
PAUSES = (0.2, 0.5, 1.0)


@dataclass
class Judged:
    """What both sides say of transactions, none by the node if it was not asked; their coins; what the node says of scripts, as far
    as the gate may not know it, and all of it; whether the node refuses what the gate wouldn't."""

    ours: list[GateTrial]
    theirs: list[TrialInfo]
    shown: CoinsShown
    verdicts: list[str] = field(default_factory=list)
    all_verdicts: list[str] = field(default_factory=list)
    differ: bool = False


def read(digits: str) -> Optional[Transaction]:
    """A caller's transaction, or None if the gate will say what is wrong with it."""
    try:
        return read_transaction(digits)
    except (ValueError, KeyError):
        return None


class PackageRefused(Refused):
    """The node takes not all of a package."""

    def __init__(self, reason: str, members: list[Transaction]) -> None:
        super().__init__(reason)
        self.code, self.members = forms.VERIFY_REJECTED, members


class Trying:
    """Answers `testmempoolaccept`, `sendrawtransaction` and `submitpackage`."""

    def __init__(self, keeper: Keeper, following: Following, client: NodeClient, shadow: Shadow) -> None:
        self._keeper, self._following, self._client, self._shadow = keeper, following, client, shadow
        # what is sent reaches the node in the order in which the gate took it
        self._sending = asyncio.Lock()
        self._all_given = OnceForAll(self._give_all, LISTED_PAUSE)

    # testmempoolaccept

    async def tried(self, user: str, listed: list[str], rate: Any) -> list[dict[str, Any]]:
        """What the gate says of these transactions, and of those that pay more than the caller wants, what the node says."""
        self._keeper.has_to_be_open()
        transactions = [it for it in map(read, listed) if it is not None]
        ask = functools.partial(asking.asked, user=user, method="testmempoolaccept", params=[listed])
        if len(transactions) < len(listed):
            # the gate says which of them does not parse, and nothing of the others
            return list(await self._keeper.offered(ask))
        judged = await self._judged(transactions, rate, ask)
        if judged.differ:
            await self._has_been_given_all()
            judged = await self._judged(transactions, rate, ask)
        told: list[GateTrial] = await self._over_coins(transactions, judged, ask) if judged.verdicts else judged.ours
        if self._shadow.is_on and len(told) == 1:
            await self._compare(listed[0], told[0], judged.theirs)
        theirs = judged.theirs or [TrialInfo()] * len(told)
        return [_with_what_the_node_says(it, of_node) for it, of_node in zip(told, theirs)]

    async def _compare(self, digits: str, ours: GateTrial, theirs: list[TrialInfo]) -> None:
        """Compares what the two say of a transaction, before the caller goes on."""
        try:
            if not theirs or theirs[0].get("reject-reason") == FEE_PAST:
                theirs = await self._client.ask("testmempoolaccept", [digits], 0)
            self._shadow.tried(ours["txid"], _said_by_gate(ours), _said_by_node(theirs[0]))
        except (Unusable, Refused, KeyError, TypeError, ValueError, IndexError) as error:
            log.warning("%s is not compared: %s", ours["txid"], error)

    # sendrawtransaction

    async def sent(self, user: str, digits: str, rate: Any, burn: Any) -> str:
        """The txid of a transaction that the gate takes and the node, too."""
        self._keeper.has_to_be_open()
        one = read(digits)
        if one is None:
            return str(await self._keeper.offered(functools.partial(asking.asked, user=user, method="sendrawtransaction", params=[digits])))
        await self._has_to_burn_no_more(one, rate, burn)
        if not await self._is_sent(user, one, rate, burn, is_last=False):
            # nobody else's payment waits meanwhile
            await self._has_been_given_all()
            await self._is_sent(user, one, rate, burn, is_last=True)
        return one.txid

    async def _is_sent(self, user: str, one: Transaction, rate: Any, burn: Any, is_last: bool) -> bool:
        """Whether both sides have a payment; False if they differ on it, and it isn't the last try: then neither does."""
        async with self._sending:
            # it may have been closed while others were before this one
            self._keeper.has_to_be_open()
            judged = await self._judged([one], rate, functools.partial(_tried_by_gate, listed=[one]))
            if judged.differ and not is_last:
                return False
            await self._handed_on([one], lambda: self._sent_to_node(one, rate, burn), await self._taken(user, one, judged))
            return True

    async def _has_to_burn_no_more(self, one: Transaction, rate: Any, burn: Any) -> None:
        """A Fault in the node's words if it says that a transaction burns more than its caller allows, or that a bound of the
        caller's is none. The gate isn't given such a one."""
        try:
            told = await self._client.ask("sendrawtransaction", burning.without_coins(one.paid), *_bounds(rate, burn))
        except Refused as error:
            if error.code in OF_THE_PARAMETERS or SAID_OF_BURN in str(error):
                raise Fault(error.code or forms.VERIFY_ERROR, str(error)) from error
            return
        raise Unusable("the node answers a transaction without coins by %r" % (told,))

    async def _taken(self, user: str, one: Transaction, judged: Judged) -> bool:
        """Gives the gate a transaction that it takes, or has already; whether it took it now."""
        theirs = judged.theirs[0] if judged.theirs else TrialInfo(allowed=True)
        is_ours = bool(judged.ours) and judged.ours[0]["allowed"]
        if not theirs.get("allowed") and (is_ours or theirs.get("reject-reason") == FEE_PAST):
            # the gate isn't given what the node would refuse, since it has no event that takes an entry back
            raise self._refused_before(one, theirs)
        try:
            await self._over_coins([one], judged, functools.partial(asking.asked, user=user, method="sendrawtransaction", params=[one.digits]))
        except Fault as fault:
            if fault.error.get("rule") in KNOWN_ALREADY:
                return False
            raise _with_reason(fault, theirs) from fault
        self._following.heights[one.txid] = self._following.chain.tip.height
        return True

    def _refused_before(self, one: Transaction, theirs: TrialInfo) -> Fault:
        """What a caller is told whose transaction the gate would take, and the node not."""
        reason = theirs.get("reject-reason", "")
        if reason == FEE_PAST:
            return Fault(forms.VERIFY_ERROR, SAID_OF_FEE)
        self._shadow.differs("node", one.txid, "would be taken", reason)
        if reason == MISSING_INPUTS:
            return Fault(forms.VERIFY_ERROR, SAID_OF_COINS)
        return Fault(forms.VERIFY_REJECTED, reason or "the node doesn't say whether it takes the transaction")

    async def _handed_on(self, them: list[Transaction], send: Callable[[], Awaitable[None]], is_new: bool) -> None:
        """Hands the node what the gate has. If the answer is lost, the node is asked again: a node that has the transaction
        answers by its txid. If it stays unknown, a gate that took it just now is opened anew, since it may be wrong."""
        what = "transaction" if len(them) == 1 else "package"
        for pause in (*PAUSES, None):
            try:
                await send()
                return
            except Refused as error:
                code = error.code or forms.VERIFY_ERROR
                if code != IN_CHAIN_ALREADY:
                    await self._refused(error.members if isinstance(error, PackageRefused) else them, str(error))
                raise Fault(code, str(error)) from error
            except Unusable as error:
                log.warning("whether the node has %s is not known: %s", " ".join(it.txid for it in them), error)
            if pause is not None:
                await asyncio.sleep(pause)
        if is_new:
            self._following.open_anew("whether the node has a %s that was handed on to it is not known" % what)
        raise Fault(forms.IN_WARMUP, "whether the node has the %s is not known: send it again" % what)

    async def _sent_to_node(self, one: Transaction, rate: Any, burn: Any) -> None:
        told = await self._client.ask("sendrawtransaction", one.digits, *_bounds(rate, burn))
        if told != one.txid:
            raise Unusable("the node answers by %r" % (told,))

    async def _refused(self, them: list[Transaction], reason: str) -> None:
        """A gate that has what the node refuses is opened anew, since it has no event that takes an entry back."""
        for one in them:
            self._shadow.differs("node", one.txid, "taken and handed on", reason)
        try:
            has_some = await self._keeper.made(lambda turn: any(self._following.has(turn, one.txid) for one in them))
        except Closed:
            return
        if has_some:
            self._following.open_anew("the node refuses a transaction that the gate took")

    # submitpackage

    async def submitted(self, user: str, listed: list[str], in_satoshi: list[int], rate: Any, burn: Any) -> GatePackage:
        """What becomes of a package at the gate, which has the caller's bounds in satoshi. What it takes the node has, too."""
        self._keeper.has_to_be_open()
        told: GatePackage
        members = [it for it in map(read, listed) if it is not None]
        ask = functools.partial(asking.asked, user=user, method="submitpackage", params=[listed, *in_satoshi])
        if len(members) < len(listed):
            # the gate says what is wrong
            told = await self._keeper.offered(ask)
            return told
        await self._has_to_take_packages()
        async with self._sending:
            # it may have been closed while others were before this one
            self._keeper.has_to_be_open()
            judged, reasons = await self._members_judged(members)
            told = await self._over_coins(members, judged, ask)
            await self._package_handed_on(members, told, rate, burn)
        for wtxid, it in told["tx-results"].items():
            if it.get("rule") == VERDICT_MISSING and reasons.get(wtxid):
                it["error"] = "%s, the node says: %s" % (it["error"], reasons[wtxid])
        return told

    async def _has_to_take_packages(self) -> None:
        """A Fault in the node's words if it has no packages. It refuses one without members, and says why."""
        try:
            told = await self._client.ask("submitpackage", [])
        except Refused as error:
            if error.code == forms.INVALID_PARAMETER:
                return
            log.warning("the node takes no packages: %s", error)
            raise Fault(error.code or forms.MISC_ERROR, str(error)) from error
        raise Unusable("the node answers a package without members by %r" % (told,))

    async def _members_judged(self, members: list[Transaction]) -> tuple[Judged, dict[str, str]]:
        """The coins of a package's members, and what the node says of the scripts of those that the gate may take; by wtxid what
        it says against them. Nobody asks the node whether it would take them, which it can't say."""
        ask = functools.partial(_each_tried_by_gate, listed=members)
        ours, shown = await self._by_gate(members, ask)
        if await self._lack_what_the_node_has(members, ours):
            ours, shown = await self._by_gate(members, ask)
        asked = [(one, told) for one, told in zip(members, ours) if _is_for_node(told) or told.get("rule") in MENDED]
        answers = await self._client.ask_all(scripts.METHOD, [scripts.question(one, members) for one, _ in asked])
        reasons = {one.wtxid: scripts.why_not(one, answer) for (one, _), answer in zip(asked, answers)}
        lines = [(told, verdict_lines(one.wtxid, len(one.spent))) for one, told in asked if not reasons[one.wtxid]]
        unknown = [them for told, them in lines if not told["allowed"]]
        return Judged(ours, [], shown, sum(unknown, []), sum((them for _, them in lines), [])), reasons

    async def _package_handed_on(self, members: list[Transaction], told: GatePackage, rate: Any, burn: Any) -> None:
        """Hands the node a package that the gate has, or those of its members that the gate took by themselves."""
        results = told["tx-results"]
        taken = [one for one in members if "effective-feerate" in results.get(one.wtxid, {}).get("fees", {})]
        self._following.heights.update({one.txid: self._following.chain.tip.height for one in taken})
        if told["package_msg"] == PACKAGE_TAKEN:
            await self._handed_on(members, lambda: self._package_sent_to_node(members, told, rate, burn), bool(taken))
            return
        faults = []
        for one in taken:
            try:
                await self._handed_on([one], functools.partial(self._sent_to_node, one, rate, burn), is_new=True)
            except Fault as fault:
                # the others are handed on, too
                faults.append(fault)
        if faults:
            raise faults[0]

    async def _package_sent_to_node(self, members: list[Transaction], ours: GatePackage, rate: Any, burn: Any) -> None:
        theirs: PackageInfo = await self._client.ask("submitpackage", [it.digits for it in members], *_bounds(rate, burn))
        try:
            message, results = theirs["package_msg"], [theirs["tx-results"].get(it.wtxid, {}) for it in members]
            errors = [it.get("error", "") for it in results]
            is_whole = not any(errors) and [it.get("txid") for it in results] == [it.txid for it in members]
        except (KeyError, TypeError, AttributeError) as error:
            raise Unusable("the node answers a package by %r" % (theirs,)) from error
        if message != PACKAGE_TAKEN:
            reason = message if message != PACKAGE_FAILED else next(filter(None, errors), message)
            raise PackageRefused(reason, [it for it, one in zip(members, results) if one.get("error") or not one] or members)
        if not is_whole:
            raise Unusable("the node answers a package by %r" % (theirs,))
        for one, told in zip(members, results):
            self._compare_member(one, ours["tx-results"][one.wtxid], told)

    def _compare_member(self, one: Transaction, ours: GateMember, theirs: MemberInfo) -> None:
        """Compares the fee and the virtual size of a member that both have."""
        if "fees" not in ours or "fees" not in theirs:
            return
        try:
            here = Answer(fee=ours["fees"]["base"], vsize=ours["vsize"])
            there = Answer(fee=satoshi(theirs["fees"]["base"]), vsize=theirs["vsize"])
        except (Unusable, KeyError, TypeError) as error:
            log.warning("%s is not compared: %s", one.txid, error)
            return
        if here != there:
            self._shadow.differs("fee", one.txid, here.text(), there.text())

    # what both say

    async def _judged(self, listed: list[Transaction], rate: Any, ask: Callable[[Turn], Any]) -> Judged:
        """What both sides say of these transactions, once the gate knows their coins, and the parents that the node's pool has."""
        ours, shown = await self._by_gate(listed, ask)
        if await self._lack_what_the_node_has(listed, ours):
            ours, shown = await self._by_gate(listed, ask)
        theirs = await self._by_node(listed, ours, rate)
        lines = [_verdicts_of(one, told) for one, told in zip(listed, theirs)]
        unknown = [them for own, them in zip(ours, lines) if not own.get("allowed")]
        return Judged(ours, theirs, shown, sum(unknown, []), sum(lines, []), any(map(_differ, listed, ours, theirs)))

    async def _has_been_given_all(self) -> None:
        """Waits a little until the gate has been given what the node's pool has by now, which may be why they differ. Whoever may
        call can have them differ; so the node lists its pool seldom."""
        try:
            await asyncio.wait_for(self._all_given.done(), LISTED_SECONDS)
        except asyncio.TimeoutError:
            raise NotThere("the gate is behind its node") from None

    async def _give_all(self) -> None:
        await self._following.given(await self._client.ask("getrawmempool"))

    async def _by_gate(self, listed: Sequence[Transaction], ask: Callable[[Turn], Any]) -> tuple[list[GateTrial], CoinsShown]:
        """What the gate says with the coins that it lacks. If there are many, the node is asked for them only once nothing else
        is amiss."""
        if sum(len(it.spent) for it in listed) > FEW_INPUTS:
            shown = self._following.nothing_shown()
            ours: list[GateTrial] = await self._keeper.offered(ask)
            if not any(it.get("rule") == NO_COIN for it in ours):
                return ours, shown
        judged = Judged([], [], await self._following.coins_for_callers(listed))
        return await self._over_coins(listed, judged, ask), judged.shown

    async def _over_coins(self, listed: Sequence[Transaction], judged: Judged, ask: Callable[[Turn], Any]) -> Any:
        """What the gate gives for a question, once it was told these coins and verdicts. If its chain has moved since they were
        asked for, they are asked for again, and what it knew of scripts may be forgotten."""
        for _ in range(ROUNDS):
            try:
                return await self._keeper.offered(functools.partial(self._over, shown=judged.shown, verdicts=judged.verdicts, ask=ask))
            except ChainMoved:
                judged.shown, judged.verdicts = await self._following.coins_for_callers(listed), judged.all_verdicts
        raise NotThere("the chain moves faster than it can be asked")

    def _over(self, turn: Turn, shown: CoinsShown, verdicts: Sequence[str], ask: Callable[[Turn], Any]) -> Any:
        self._following.learn_for_callers(turn, shown, verdicts)
        return ask(turn)

    async def _lack_what_the_node_has(self, listed: Sequence[Transaction], ours: Sequence[GateTrial]) -> bool:
        """Whether one of these transactions lacked a parent that the node's pool has; the gate has been given it by now."""
        own = {it.txid for it in listed}
        lacking = [one for one, told in zip(listed, ours) if told.get("rule") == NO_COIN]
        if lacking:
            # of those that it says nothing of it may lack them, too
            lacking += [one for one, told in zip(listed, ours) if "allowed" not in told]
        return await self.has_been_given(sorted({it.txid for one in lacking for it in one.spent} - own))

    async def has_been_given(self, txids: Sequence[str]) -> bool:
        """Whether the node's pool has some of these, all of which the gate has been given by now."""
        entries = await self._client.ask_all("getmempoolentry", [[it] for it in txids])
        there = [txid for txid, it in zip(txids, entries) if not isinstance(it, Refused)]
        await self._following.given(there)
        return bool(there)

    async def _by_node(self, listed: Sequence[Transaction], ours: Sequence[GateTrial], rate: Any) -> list[TrialInfo]:
        """What the node says of each of these: of all together, and of what it doesn't reach then, or can't take together, of
        each by itself. Nothing if its word on none of them is needed."""
        if not any(map(_is_for_node, ours)):
            return []
        bounds = _bounds(rate, None)
        digits = [it.digits for it in listed]
        try:
            told: list[TrialInfo] = await self._client.ask("testmempoolaccept", digits, *bounds)
        except Refused as error:
            told = [_not_asked(listed[0], error)] if len(listed) == 1 else [TrialInfo() for _ in listed]
        if len(told) != len(listed):
            raise Unusable("the node answers %d transactions by %d" % (len(listed), len(told)))
        alone = [index for index, it in enumerate(told) if "allowed" not in it] if len(listed) > 1 else []
        answers = await self._client.ask_all("testmempoolaccept", [[[digits[index]], *bounds] for index in alone])
        for index, answer in zip(alone, answers):
            told[index] = _not_asked(listed[index], answer) if isinstance(answer, Refused) else answer[0]
        if any(it.get("txid", one.txid) != one.txid for one, it in zip(listed, told)):
            raise Unusable("the node answers by another transaction")
        return told


def _tried_by_gate(turn: Turn, listed: Sequence[Transaction]) -> list[GateTrial]:
    """What the gate says of these transactions, without an entry in the journal; nothing if it doesn't judge them."""
    found: Optional[list[GateTrial]] = asking.looked(turn, "testmempoolaccept", [[it.digits for it in listed]])
    return found or []


def _each_tried_by_gate(turn: Turn, listed: Sequence[Transaction]) -> list[GateTrial]:
    """What the gate says of each of these by itself, without an entry in the journal; nothing if it judges not all of them."""
    found = [it for one in listed for it in _tried_by_gate(turn, [one])]
    return found if len(found) == len(listed) else []


def _bounds(rate: Any, burn: Any) -> list[Optional[str]]:
    """A caller's bounds as parameters of the node."""
    if burn is not None:
        return [None if rate is None else str(rate), str(burn)]
    return [] if rate is None else [str(rate)]


def _not_asked(one: Transaction, error: Refused) -> TrialInfo:
    """A node that doesn't try a transaction says nothing of it; but what is wrong with a caller's bound is the caller's to know."""
    if error.code in (forms.TYPE_ERROR, forms.INVALID_PARAMETER):
        raise Fault(error.code, str(error)) from error
    log.warning("the scripts of %s are not judged: %s", one.txid, error)
    return {"reject-reason": str(error)}


def _is_for_node(ours: GateTrial) -> bool:
    """Whether the node's word is needed: the gate would take a transaction, or lacks nothing but a verdict on its scripts."""
    return bool(ours.get("allowed")) or ours.get("rule") == VERDICT_MISSING


def _differ(one: Transaction, ours: GateTrial, theirs: TrialInfo) -> bool:
    """Whether the node refuses a transaction, not for its scripts or for the caller's bound, and the gate wouldn't."""
    is_judged = theirs.get("allowed") or theirs.get("reject-reason") == FEE_PAST or not ours.get("allowed") and _verdicts_of(one, theirs)
    return _is_for_node(ours) and not is_judged


def _verdicts_of(one: Transaction, theirs: TrialInfo) -> list[str]:
    """What the node says of a transaction's scripts; nothing if it refuses it for another reason, before it runs them."""
    reason = theirs.get("reject-reason", "")
    if theirs.get("allowed") or reason == FEE_PAST:
        return verdict_lines(one.wtxid, len(one.spent))
    verdict = SCRIPT_REASONS.get(reason.partition(" ")[0])
    return ["verdict %s 0 %s" % (one.wtxid, verdict)] if verdict else []


def _with_what_the_node_says(ours: GateTrial, theirs: TrialInfo) -> dict[str, Any]:
    """An answer on a transaction, with what the node says of the caller's bound, or why it didn't run the scripts."""
    reason = theirs.get("reject-reason", "")
    if ours.get("allowed") and reason == FEE_PAST:
        return {"txid": ours["txid"], "wtxid": ours["wtxid"], "allowed": False, "reject-reason": FEE_PAST}
    if ours.get("rule") == VERDICT_MISSING and reason:
        return {**ours, "reject-details": "%s, the node says: %s" % (ours["reject-reason"], reason)}
    return dict(ours)


def _with_reason(fault: Fault, theirs: TrialInfo) -> Fault:
    """The gate's denial, with what the node says if no script was judged."""
    reason = theirs.get("reject-reason", "")
    if fault.error.get("rule") != VERDICT_MISSING or not reason:
        return fault
    return Fault(fault.error["code"], "%s, the node says: %s" % (fault, reason), VERDICT_MISSING, fault.status)


def _said_by_gate(told: GateTrial) -> Answer:
    """What the gate says of a transaction that was tried."""
    if told["allowed"]:
        return Answer(fee=told["fees"]["base"], vsize=told["vsize"])
    return Answer(told["rule"], told["reject-reason"])


def _said_by_node(told: TrialInfo) -> Answer:
    """The same of the node."""
    if told["allowed"]:
        return Answer(fee=satoshi(told["fees"]["base"]), vsize=told["vsize"])
    return Answer(reason=told["reject-reason"])
