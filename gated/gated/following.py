"""Following a node: its blocks as events of the chain, its transactions as submissions, and nothing in between that is only
believed. What can't be followed is said, and the gate is opened anew."""

from __future__ import annotations

import asyncio
import functools
import json
import logging
import time
from dataclasses import dataclass
from typing import Any, Callable, Iterable, Mapping, Optional, Sequence

from . import asking
from .announcements import Announcement, Announcements, Came, Gone, Lost, Moved
from .patient import PatientClient
from .chain import Chain, ChainMoved, CoinsShown, listing, tell
from .client import NotThere
from .families import METHOD, NO_COIN, Families, is_poor
from .faults import CannotFollow
from .keeper import SEGMENT_FULL, Keeper, Turn
from .logs import quoted
from .node import Entry, Refused, Transaction, Unusable, entry_of, floor_of, parents_first, read_transaction
from .node.answers import EntryInfo, PoolInfo, PoolListing
from .node.releases import also_of_the_gate
from .opening import OWN_USER, PEER_ENTERS, Opening, snapshot, verdict_lines
from .pool import LOOKED_AFTER, PoolWatch
from .watcher import Outpoint, Submitted, Tip, Watcher

__all__ = ["ChainMoved", "CoinsShown", "Following", "Settings", "Submitted", "Tip", "Watcher"]

log = logging.getLogger("gated")

# how often transactions and their coins are asked for, if the node's tip moves in between
TRIES = 5
# seconds that a caller's question waits for the gate to reach the node's tip
BEHIND_SECONDS = 5.0
# openings for entries that only the gate has take one part of the time in so many
SELDOM = 10
# how many transactions a line of the log names
SAID = 10
# what an answer of another form than the node's leads to where it is read
MALFORMED = (KeyError, TypeError, ValueError, IndexError, AttributeError)


@dataclass(frozen=True)
class Settings:
    """How a node is followed."""

    # further lines of the opening
    lines: tuple[str, ...] = ()
    times: int = 2016
    keep: int = 20
    # seconds between two looks at the node's tip, floor and pool that no message asked for
    check: float = 30.0
    # seconds that the gate may have what its node has not, if no rule explains it
    apart: float = 300.0
    # seconds before a node that can't be used is asked again
    again: float = 2.0
    clock: Callable[[], float] = time.time


class Following:
    """Follows one node with one gate."""

    def __init__(self, client: PatientClient, keeper: Keeper, announcements: Announcements, settings: Settings, watcher: Watcher) -> None:
        self._client, self._keeper, self._announcements = client, keeper, announcements
        self._settings, self._watcher = settings, watcher
        self.chain = Chain(client, keeper, watcher, settings.keep, settings.clock)
        self.heights: dict[str, int] = {}
        # what the node says of its pool that holds of the gate's too, when it was looked at last
        self.pool_info: dict[str, Any] = {}
        self._overridden: list[str] = []
        self._pool = PoolWatch()
        # whether gate and node both take packages
        self._takes_packages = False
        self._floor = 0
        self._anew: Optional[str] = None
        # seconds that the last opening took, and when the pools are compared next
        self._opening_seconds = 0.0
        self._next_check = 0.0
        # what was said of announcements that may not arrive
        self._fault = ""

    def open_anew(self, why: str) -> None:
        """Asks for a gate that is opened anew, as soon as what is at work is done."""
        self._anew = why

    async def run(self) -> None:
        """Follows until it is cancelled. Whatever can't be followed ends in a gate that is opened anew."""
        why = said = "gated begins"
        while True:
            began = time.monotonic()
            try:
                await self._open(why)
                said = ""
                why = await self._follow()
            except (CannotFollow, Unusable, Refused) as error:
                if isinstance(error, NotThere):
                    self._announcements.expect_another()
                why = str(error)
            except MALFORMED as error:
                log.debug("an answer of the node can't be used", exc_info=True)
                why = "an answer of the node can't be used: %s: %s" % (type(error).__name__, error)
            except Exception as error:
                log.exception("a fault of gated")
                why = "a fault of gated: %s: %s" % (type(error).__name__, error)
            self._watcher.lost(why)
            if why != said:
                log.warning("opening the gate anew: %s", why)
            said = why
            await self._keeper.closed(why)
            await asyncio.sleep(max(0.0, self._settings.again - (time.monotonic() - began)))

    async def _open(self, why: str) -> None:
        began = time.monotonic()
        opening = await snapshot(self._client, self._settings.lines, self._settings.times)
        # what is announced while the snapshot is put to the gate is waiting, with the numbers that follow it
        self._announcements.began(opening.sequence, opening.pool)
        about = quoted("gated: chain %s, tip %d, %d transactions; %s" % (opening.chain, opening.tip, len(opening.entries), why))

        def first(turn: Turn) -> tuple[bool, list[Submitted]]:
            turn.ask(PEER_ENTERS)
            families = Families(turn, turn.ask, opening.has_packages and asking.has(turn, METHOD), {})
            for it in opening.entries:
                families.put(it)
            if opening.floor:
                turn.ask("operator floor %d" % opening.floor)
            return families.takes_packages, list(families.found.values())

        self.heights, self._floor, self._anew = dict(opening.heights), opening.floor, None
        self._overridden = list(opening.overridden.values())
        self.pool_info = also_of_the_gate(opening.pool_info, self._overridden)
        self.chain.opened(opening)
        self._pool = PoolWatch.of(opening)
        self._takes_packages, found = await self._keeper.opened(opening.text(), about, first)
        self._watcher.opened(opening, why)
        self._pool.submitted(found)
        self._watcher.submitted(found)
        self._opening_seconds = time.monotonic() - began
        self._next_check = 0.0
        log.info("the gate is open: tip %d, %d transactions", opening.tip, len(opening.entries))
        fault = await self._announcements.fault()
        if fault and fault != self._fault:
            log.error("announcements may not arrive%s", fault)
        self._fault = fault

    async def _follow(self) -> str:
        """Follows until a gate has to be opened anew, and says why."""
        while self._anew is None:
            if self._keeper.is_full:
                return SEGMENT_FULL
            if not self._keeper.is_open:
                return self._keeper.why
            announced = await self._announcements.next(min(self._settings.check, 1.0))
            for group in _groups(announced):
                await self._take(group)
            await self._look_at_gone()
            if time.monotonic() >= self._next_check:
                await self._catch_up()
                await self._check()
        return self._anew

    async def _take(self, group: list[Announcement]) -> None:
        """Takes announcements of one kind."""
        first = group[0]
        if isinstance(first, Moved):
            await self._catch_up()
        elif isinstance(first, Came):
            await self._came([it.txid for it in group if isinstance(it, Came)])
        else:
            self._pool.left(it.txid for it in group if isinstance(it, Gone))

    async def _catch_up(self) -> None:
        """Leads the gate to the node's tip. What it loses as blocks go shows in the pools."""
        if await self.chain.catch_up():
            self._next_check = 0.0

    # transactions

    async def _came(self, txids: list[str]) -> None:
        """Hands in what the node took, with what of its families follows from that."""
        new = self._pool.came(txids)
        await self._hand_in(new if self._takes_packages else txids)
        self._pool.given.update(txids)

    async def _hand_in(self, txids: list[str]) -> None:
        """Hands in these transactions, and then what of their families follows from what the gate says."""
        found: dict[str, Submitted] = {}
        while txids:
            entries, replies = await self._handed_in(txids)
            self._pool.submitted(replies)
            found.update({it.txid: it for it in replies})
            txids = self._next_of(entries, {it.txid: it for it in replies}) if self._takes_packages else []
        self._watcher.submitted(list(found.values()))

    async def _handed_in(self, txids: list[str]) -> tuple[list[Entry], list[Submitted]]:
        """Hands in these transactions, with the parents in the node's pool that were not announced so far. One that has left its
        pool meanwhile is passed over."""
        for _ in range(TRIES):
            entries = await self._listed(txids)
            coins = await self.chain.coins_of([it.transaction for it in entries])
            # what comes back from a block that went is in the pool only at the new tip: handed in before the gate is there, it
            # would be denied as known already
            if coins is not None and await self._client.ask("getbestblockhash") == self.chain.tip.hash:
                try:
                    return entries, await self._keeper.made(functools.partial(self._submit, entries, set(txids), coins))
                except ChainMoved:
                    pass
            await self._catch_up()
        raise Unusable("the node's tip moves faster than it can be asked")

    async def _listed(self, txids: Sequence[str]) -> list[Entry]:
        """Those of these transactions that are in the node's pool, and their parents that were not announced, or that the gate
        denies for what they pay, parents first."""
        texts: dict[str, str] = {}
        listed: dict[str, EntryInfo] = {}
        wanted = list(txids)
        while wanted:
            each = [(it,) for it in wanted]
            found = zip(wanted, await self._client.ask_all("getrawtransaction", each), await self._client.ask_all("getmempoolentry", each))
            here = {txid: (text, told) for txid, text, told in found if not isinstance(text, Refused) and not isinstance(told, Refused)}
            texts.update({txid: text for txid, (text, _) in here.items()})
            listed.update({txid: told for txid, (_, told) in here.items()})
            asked = {*wanted, *texts}
            parents = dict.fromkeys(it for _, told in here.values() for it in told["depends"])
            wanted = [it for it in parents if it not in asked and (it not in self._pool.announced or self._is_poor(it))]
        self.heights.update({txid: told["height"] for txid, told in listed.items() if "height" in told})
        order = parents_first(list(texts), {it: listed[it]["depends"] for it in texts})
        return [entry_of(texts[it], listed[it]) for it in order]

    def _is_poor(self, txid: str) -> bool:
        """Whether the gate denies a transaction for what it pays, and a child may pay for it."""
        return self._takes_packages and txid in self._pool.denied and is_poor(self._pool.denied[txid])

    def _lacks_a_parent(self, txid: str) -> bool:
        """Whether the gate denies a transaction because it lacks a parent."""
        return txid in self._pool.denied and self._pool.denied[txid].rule == NO_COIN

    def _submit(self, entries: Sequence[Entry], txids: set[str], coins: CoinsShown, turn: Turn) -> list[Submitted]:
        """The gate's replies. Of the parents of these, one that it denied before is not put to it again by itself."""
        self.chain.has_to_stand(turn, coins)
        denied = self._pool.denied if self._takes_packages else {}
        families = Families(turn, functools.partial(tell, turn), self._takes_packages, denied)
        for it in entries:
            one = it.transaction
            self.chain.learn(turn, coins.of(one), verdict_lines(one.wtxid, len(one.spent)))
            if one.txid in txids or one.txid not in denied:
                families.put(it)
            else:
                families.meet(it)
        return list(families.found.values())

    def _next_of(self, entries: Sequence[Entry], found: Mapping[str, Submitted]) -> list[str]:
        """What has to be handed in next: children, not yet given to the gate, of what it denies for what they pay; and children that
        it denied before because they lacked what has come in now."""
        wanted: list[str] = []
        for it in entries:
            txid = it.transaction.txid
            if self._is_poor(txid):
                wanted += [child for child in it.children if child not in self._pool.given]
            elif txid in found and found[txid].has_come:
                wanted += [child for child in it.children if child not in found and self._lacks_a_parent(child)]
        return list(dict.fromkeys(wanted))

    async def _look_at_gone(self) -> None:
        """Asks the gate for what the node dropped a little while ago and has not taken again."""
        txids = self._pool.gone_a_while()
        if not txids:
            return
        await self._catch_up()
        listed = await self._client.ask_all("getmempoolentry", [(it,) for it in txids])
        gone = [txid for txid, it in zip(txids, listed) if isinstance(it, Refused)]
        here = await self._keeper.made(lambda turn: {it for it in gone if self.has(turn, it)})
        once = self._pool.found_once(here)
        self._watcher.left([it for it in gone if it not in once], here - once)

    # what callers ask

    def has(self, turn: Turn, txid: str) -> bool:
        """Whether the gate's pool has a transaction."""
        return bool(_looked(turn, "getmempoolentry", txid))

    def height_of(self, txid: str) -> int:
        """The height of the tip when an entry came, as the node says; for one that came back just now, and that the node hasn't
        announced yet, the gate's own."""
        return self.heights.get(txid, self.chain.tip.height)

    @property
    def blocks_behind(self) -> int:
        """How many blocks the node was ahead when it was looked at last, until they are taken in."""
        return self.chain.blocks_behind

    async def caught_up(self) -> None:
        """Waits a little while the gate is more than a block behind its node."""
        until = time.monotonic() + BEHIND_SECONDS
        while self.blocks_behind > 1:
            if time.monotonic() >= until:
                raise NotThere("the gate is behind its node")
            await asyncio.sleep(0.02)

    def nothing_shown(self) -> CoinsShown:
        """No coins, at the gate's chain as it is."""
        return self.chain.nothing_shown()

    async def coins_for_callers(self, transactions: Sequence[Transaction]) -> CoinsShown:
        """The coins of callers' transactions, who wait a little if the node is ahead."""
        until = time.monotonic() + BEHIND_SECONDS
        while time.monotonic() < until:
            found = await self.chain.coins_of(transactions)
            if found is not None:
                return found
            await asyncio.sleep(0.05)
        raise NotThere("the gate is behind its node")

    def learn_for_callers(self, turn: Turn, shown: CoinsShown, verdicts: Sequence[str]) -> None:
        """Tells the gate these coins and verdicts, if its chain is still the one that the coins were asked for; else
        ChainMoved."""
        self.chain.has_to_stand(turn, shown)
        self.chain.learn(turn, shown.found.values(), verdicts)

    async def given(self, txids: Iterable[str]) -> bool:
        """Waits a little until the gate was given each of these transactions of the node's pool; whether it had to wait."""
        lacking = set(txids) - self._pool.given
        until, has_waited = time.monotonic() + BEHIND_SECONDS, False
        while lacking:
            if time.monotonic() >= until:
                raise NotThere("the gate is behind its node")
            has_waited = True
            await asyncio.sleep(0.02)
            lacking = {it for it in lacking if it not in self._pool.given}
        return has_waited

    # what no message says

    async def _check(self) -> None:
        """Sets the pool beside the node's, and takes over the node's floor."""
        told: PoolListing = await self._client.ask("getrawmempool", False, True)
        info: PoolInfo = await self._client.ask("getmempoolinfo")
        floor = floor_of(info)
        self.pool_info = also_of_the_gate(info, self._overridden)

        def look(turn: Turn) -> set[str]:
            if floor != self._floor:
                tell(turn, "operator floor %d" % floor)
                self._floor = floor
            return listing(turn)

        self._announcements.looked(told)
        ours, theirs = await self._keeper.made(look), set(told["txids"])
        self.heights = {txid: height for txid, height in self.heights.items() if txid in ours}
        self._watcher.compared(theirs - ours, ours - theirs)
        denied = set(self._pool.denied)
        try:
            dropped = self._pool.compare(ours, theirs)
        except Lost as error:
            raise Lost("%s%s" % (error, await self._announcements.fault())) from error
        if dropped:
            self._watcher.dropped(dropped)
        if self._takes_packages:
            # a parent that a block has by now, or that a caller brought in
            await self._hand_in(self._pool.children_of(denied - self._pool.denied.keys()))
        await self._look_at_only_gate()
        self._next_check = time.monotonic() + (min(LOOKED_AFTER, self._settings.check) if self._pool.is_in_doubt else self._settings.check)

    async def _look_at_only_gate(self) -> None:
        """What only the gate has for long, and no rule explains, can be had rid of by a gate that is opened anew alone."""
        seconds = max(self._settings.apart, SELDOM * self._opening_seconds)
        txids = self._pool.only_gate(seconds)
        if not txids:
            return
        spends = await self._keeper.made(lambda turn: {it: _spent_by(turn, it) for it in txids})
        unexplained = self._pool.unexplained(spends)
        if unexplained:
            log.warning("in the gate's pool alone for more than %d seconds: %s", seconds, " ".join(unexplained[:SAID]))
            raise Lost("%d transactions are in the gate's pool alone, and no rule explains it" % len(unexplained))


def _looked(turn: Turn, method: str, txid: str) -> str:
    """The text of the gate's answer to gated itself on one transaction; nothing if it is an error."""
    reply = turn.look('user %s rpc 0 {"method":"%s","params":["%s"]}' % (OWN_USER, method, txid))
    head = "rpc 200 "
    return reply[len(head) :] if reply.startswith(head) else ""


def _spent_by(turn: Turn, txid: str) -> list[Outpoint]:
    """What a transaction of the gate's pool spends; nothing if it has left it."""
    text = _looked(turn, "getrawtransaction", txid)
    return [(it.txid, it.index) for it in read_transaction(json.loads(text)["result"]).spent] if text else []


def _groups(announced: Sequence[Announcement]) -> Iterable[list[Announcement]]:
    """The same in their order, those of one kind that follow each other together."""
    group: list[Announcement] = []
    for it in announced:
        if group and type(group[0]) is not type(it):
            yield group
            group = []
        group.append(it)
    if group:
        yield group
