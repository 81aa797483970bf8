"""The watch of the two pools: what was announced and what was not, what the node dropped, and what only one of the two has."""

from __future__ import annotations

import time
from dataclasses import dataclass, field
from typing import Iterable, Mapping, Sequence

from .announcements import Lost
from .families import NO_COIN
from .opening import Opening
from .watcher import Outpoint, Submitted

# seconds before it is looked up whether the gate dropped what the node did
LOOKED_AFTER = 1.0
# seconds that an announcement may take behind what the node's pool shows
LATE_SECONDS = 3.0


@dataclass
class PoolWatch:
    """What is known of the node's pool and of the gate's, by txid."""

    # what was announced and may still be in the node's pool, and what of it the gate was given, whether it took it or not
    announced: set[str] = field(default_factory=set)
    given: set[str] = field(default_factory=set)
    # what the gate denies of the node's pool, by its last reply
    denied: dict[str, Submitted] = field(default_factory=dict)
    # what the gate was given before it was announced
    _early: set[str] = field(default_factory=set)
    # what is there and was not announced so far; what only the gate has; what the gate had admitted and has no longer while the
    # node still has it: each since when
    _unannounced: dict[str, float] = field(default_factory=dict)
    _only_gate: dict[str, float] = field(default_factory=dict)
    _dropped: dict[str, float] = field(default_factory=dict)
    # what of it has been said
    _said: set[str] = field(default_factory=set)
    # what the node dropped, and when that was announced, or when it was found that the gate still has it
    _gone: dict[str, float] = field(default_factory=dict)
    _found: set[str] = field(default_factory=set)

    @staticmethod
    def of(opening: Opening) -> PoolWatch:
        """The watch of a gate that was opened from the node's pool."""
        return PoolWatch(announced=set(opening.pool), given=set(opening.pool))

    def came(self, txids: Iterable[str]) -> list[str]:
        """The node took these. Gives those that the gate was not given before they were announced."""
        found = []
        for txid in txids:
            self.announced.add(txid)
            self._gone.pop(txid, None)
            self._found.discard(txid)
            if txid not in self._early:
                found.append(txid)
            self._early.discard(txid)
        return found

    def submitted(self, them: Iterable[Submitted]) -> None:
        """The gate's replies to what the node took."""
        for it in them:
            self.given.add(it.txid)
            if it.txid not in self.announced:
                self._early.add(it.txid)
            if it.is_in_pool:
                self.denied.pop(it.txid, None)
            else:
                self.denied[it.txid] = it

    def left(self, txids: Iterable[str]) -> None:
        """The node dropped these. A replacement is announced behind what it replaces, so the gate is asked a little later."""
        now = time.monotonic()
        self._gone.update({it: now for it in txids})

    def gone_a_while(self) -> list[str]:
        """What the node dropped a little while ago and has not taken again, each once."""
        then = time.monotonic() - LOOKED_AFTER
        found = [txid for txid, at in self._gone.items() if at <= then]
        for txid in found:
            del self._gone[txid]
        return found

    def found_once(self, txids: Iterable[str]) -> set[str]:
        """Those of these, which the gate still has, that are found for the first time: a replacement may be on its way to the gate
        yet, so they are looked at once more."""
        now, found = time.monotonic(), set(txids)
        once = found - self._found
        self._gone.update({it: now for it in once})
        self._found = (self._found - found) | once
        return once

    def compare(self, ours: set[str], theirs: set[str]) -> list[str]:
        """Takes over what both pools have at this moment. Gives what the gate has lost and the node still has, each once. Lost
        if the node's pool has had something for a while that was never announced."""
        now = time.monotonic()
        self.announced &= theirs
        self.given &= theirs
        self._early &= theirs
        here = theirs - ours
        self.denied = {txid: it for txid, it in self.denied.items() if txid in here}
        self._unannounced = _since(self._unannounced, theirs - self.announced, now)
        self._only_gate = _since(self._only_gate, ours - theirs, now)
        self._dropped = _since(self._dropped, (theirs & self.announced) - ours - self.denied.keys(), now)
        self._said &= self._dropped.keys()
        unannounced = _older(self._unannounced, now - LATE_SECONDS)
        if unannounced:
            raise Lost("%d transactions of the node's pool were never announced" % len(unannounced))
        dropped = [it for it in _older(self._dropped, now - LOOKED_AFTER) if it not in self._said]
        self._said.update(dropped)
        return dropped

    def children_of(self, txids: set[str]) -> list[str]:
        """What the gate denies since it lacks a parent, and spends from one of these."""
        return [txid for txid, it in self.denied.items() if it.rule == NO_COIN and not it.parents.isdisjoint(txids)]

    @property
    def is_in_doubt(self) -> bool:
        """Whether another comparison soon will tell whether something was lost."""
        return bool(self._dropped.keys() - self._said)

    def only_gate(self, seconds: float) -> list[str]:
        """What only the gate's pool has had for so long."""
        return _older(self._only_gate, time.monotonic() - seconds)

    def unexplained(self, spends: Mapping[str, Sequence[Outpoint]]) -> list[str]:
        """Those of these transactions of the gate's pool that nothing explains. What conflicts with a transaction that the node
        has and the gate denies by a rule is explained, and so is what spends from it."""
        contested = {outpoint for it in self.denied.values() for outpoint in it.spent}
        explained = {txid for txid, spent in spends.items() if not contested.isdisjoint(spent)}
        while True:
            children = {txid for txid, spent in spends.items() if txid not in explained and any(parent in explained for parent, _ in spent)}
            if not children:
                return [it for it in spends if it not in explained]
            explained |= children


def _since(before: Mapping[str, float], here: Iterable[str], now: float) -> dict[str, float]:
    return {txid: before.get(txid, now) for txid in here}


def _older(since: Mapping[str, float], then: float) -> list[str]:
    return [txid for txid, at in since.items() if at <= then]
