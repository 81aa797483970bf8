"""Families of the node's pool: a parent that the gate denies for what it pays by itself is put to it once more together with a
child, as one package. Whether they come in is the gate's to say; here they are only grouped."""

from __future__ import annotations

import logging
from dataclasses import dataclass, field
from typing import Callable, Mapping, Optional, Sequence

from . import asking
from .engine import Unanswered
from .forms import Fault, GateMember, GatePackage
from .keeper import Turn
from .node import Entry
from .opening import OWN_USER, PEER
from .watcher import ADMITTED, Submitted

log = logging.getLogger("gated")

# the gate's call for packages, and bounds that bound nothing: of a feerate, and of what is burnt
METHOD = "submitpackage"
NO_BOUNDS = (0, 2_100_000_000_000_000)
# the rule of a child that lacks a parent, and those of a parent that a child may pay for; one of them only if it is of this version
NO_COIN = "A25"
RELAY_FEE, OF_VERSION = "A35", 3
TOO_POOR = ("A34", RELAY_FEE, "A38", "A41", "A42")


@dataclass
class Families:
    """Transactions of the node's pool that are put to the gate in one turn."""

    turn: Turn
    # puts a line to the gate, and gives its reply
    tell: Callable[[str], str]
    takes_packages: bool
    # what the gate denied before this turn
    denied: Mapping[str, Submitted]
    # the last replies of this turn
    found: dict[str, Submitted] = field(default_factory=dict)
    _entries: dict[str, Entry] = field(default_factory=dict)

    def meet(self, entry: Entry) -> None:
        """Knows a transaction as a parent of others, without putting it to the gate by itself."""
        self._entries[entry.transaction.txid] = entry

    def put(self, entry: Entry) -> None:
        """Puts a transaction to the gate, with its parents if it denies them for what they pay, and then what was denied before
        because it lacked one of these."""
        self.meet(entry)
        waiting = {entry.transaction.txid: entry}
        while waiting:
            one = waiting.pop(next(iter(waiting)))
            for it in self._by_itself(one) or self._with_its_parents(one):
                waiting.update({txid: self._entries[txid] for txid in it.children if self._lacks_a_parent(txid)})

    def _by_itself(self, entry: Entry) -> list[Entry]:
        """Puts a transaction to the gate; what came in."""
        found = self._said(entry, self.tell("%s tx %d %s" % (PEER, entry.time, entry.transaction.digits)))
        return [entry] if found.is_in_pool else []

    def _with_its_parents(self, child: Entry) -> list[Entry]:
        """Puts a child to the gate together with the parents that it lacks there; what came in."""
        parents = self._poor_parents(child) if self.takes_packages else []
        if not parents:
            return []
        them = [*parents, child]
        why, results = self._package(them)
        if not results:
            # under some settings a package has to have all parents of its child
            others = self._parents_there(child)
            why, results = self._package(them, others) if others else (why, results)
        came = [it for it in them if self._has_come(it, results.get(it.transaction.wtxid, {}))]
        if len(came) < len(them):
            log.info("the gate denies %s together: %s", " ".join(it.transaction.txid for it in them), why)
        return came

    def _poor_parents(self, child: Entry) -> list[Entry]:
        """The parents that a child lacks, if the gate denies each of them for what it pays; else nothing."""
        if not self._lacks_a_parent(child.transaction.txid):
            return []
        lacking = [it for it in map(self._denial_of, _parents_of(child)) if it is not None]
        if not all(is_poor(it) and it.txid in self._entries for it in lacking):
            return []
        return [self._entries[it.txid] for it in lacking]

    def _parents_there(self, child: Entry) -> list[str]:
        """The parents of a child that the gate's pool has."""
        found = [asking.looked(self.turn, "getrawtransaction", [txid]) for txid in _parents_of(child) if self._denial_of(txid) is None]
        return [it for it in found if it]

    def _package(self, them: Sequence[Entry], others: Sequence[str] = ()) -> tuple[str, dict[str, GateMember]]:
        """Puts a package to the gate, behind parents that it has. Why it takes not all of it, and what it says of its members, which
        is nothing if it denies the package as a whole. Its time is that of its eldest, with which all leave the node's pool."""
        digits = [*others, *(it.transaction.digits for it in them)]
        line = asking.line_of(OWN_USER, METHOD, [digits, *NO_BOUNDS], min(it.time for it in them))
        try:
            told: GatePackage = asking.result_of(self.tell(line))
        except (Fault, Unanswered) as fault:
            return str(fault), {}
        errors = ["%s %s" % (it["rule"], it["error"]) for it in told["tx-results"].values() if "error" in it]
        return ", ".join(errors) or "%s %s" % (told.get("rule", ""), told["package_msg"]), told["tx-results"]

    def _has_come(self, entry: Entry, told: GateMember) -> bool:
        """Whether a member came in; then that is the reply to it, as to a transaction by itself."""
        if "fees" not in told:
            return False
        self._said(entry, "%s%s fee %d vsize %d replaced 0" % (ADMITTED, told["txid"], told["fees"]["base"], told["vsize"]))
        return True

    def _said(self, entry: Entry, reply: str) -> Submitted:
        one = entry.transaction
        spent = frozenset((it.txid, it.index) for it in one.spent)
        found = Submitted(one.txid, one.version, entry.fee, entry.vsize, reply, spent, self.turn.entries)
        self.found[one.txid] = found
        return found

    def _denial_of(self, txid: str) -> Optional[Submitted]:
        """The last reply to a transaction if the gate denies it; None if it has it, or was never given it."""
        found = self.found.get(txid) or self.denied.get(txid)
        return found if found and found.rule else None

    def _lacks_a_parent(self, txid: str) -> bool:
        """Whether the gate denied a transaction in this turn because it lacks a parent."""
        return txid in self.found and self.found[txid].rule == NO_COIN


def is_poor(it: Submitted) -> bool:
    """Whether the gate denies a transaction for what it pays, and a child may pay for it. This only keeps what is in vain from being
    tried: the gate judges the package."""
    return it.rule in TOO_POOR and (it.rule != RELAY_FEE or it.version == OF_VERSION)


def _parents_of(entry: Entry) -> list[str]:
    """The transactions that one spends from, each once."""
    return list(dict.fromkeys(it.txid for it in entry.transaction.spent))
