"""Whether the gate agrees with its node: on each transaction that the node took or dropped, and on those that callers send."""

from __future__ import annotations

import logging
import time
from collections import Counter, OrderedDict, deque
from dataclasses import dataclass
from pathlib import Path
from typing import Callable, Collection, Optional, Sequence

from .explaining import Explained, Explainer
from .metrics import Metrics
from .node import differences
from .node.differences import Answer
from .opening import Opening
from .watcher import KNOWN_ALREADY, Submitted, Tip, Watcher

log = logging.getLogger("gated")

# how many of the last differences are shown, and of how many it is known that they were counted
SHOWN = 50
REMEMBERED = 20_000
# the gate has no verdict on the scripts, since the node refused the transaction before it ran them
NOT_JUDGED = "A43"
PARENT, LOST = "parent", "lost"
# what the two differ in where it is no rule of the gate
MEANINGS = {
    PARENT: "a parent is denied by the gate",
    LOST: "dropped by the gate, kept by the node",
    "fee": "taken with another fee or virtual size",
    "kept": "dropped by the node, kept by the gate",
    "node": "taken by the gate, and refused by the node as it was handed on",
}


@dataclass
class Difference(Explained):
    """One transaction on which the two differ."""

    when: float
    txid: str
    # the gate's rule, or one of MEANINGS
    rule: str
    ours: str
    theirs: str
    # the release that is known to do so, and why, or the operator's line that explains it; nothing if nothing does
    known: str = ""
    # where the journal has the denial
    segment: Optional[Path] = None
    entry: int = 0
    figures: str = ""
    is_asked: bool = False


class Shadow(Watcher):
    """Keeps the last differences, and counts all."""

    def __init__(self, metrics: Metrics, explainer: Optional[Explainer] = None) -> None:
        self._metrics, self._explainer = metrics, explainer
        # whether what the node took and dropped is compared
        self.is_on = False
        self.last: deque[Difference] = deque(maxlen=SHOWN)
        # how many differences there were by rule, and how many of them a release explains
        self.by_rule: Counter[str] = Counter()
        self.known_by_rule: Counter[str] = Counter()
        # the token of each rule that was met
        self.tokens: dict[str, str] = {}
        self.agreed = 0
        # where the journal is written now
        self.segment: Callable[[], Optional[Path]] = lambda: None
        self._release = 0
        # by rule, the operator's lines that say another number than the node has
        self._overridden: dict[str, str] = {}
        self.opened_at, self.why = 0.0, ""
        self.tip: Optional[Tip] = None
        # what the gate denies or has lost: its children are no differences of their own
        self._denied: set[str] = set()
        # what was counted, so that who asks twice counts once
        self._counted: OrderedDict[tuple[str, str], None] = OrderedDict()

    # what is followed

    def opened(self, opening: Opening, why: str) -> None:
        self._release = opening.release
        self._overridden = opening.overridden
        self.why, self.opened_at = why, time.time()
        self.tip = Tip(opening.best, opening.tip)
        self._denied.clear()

    def moved(self, tip: Tip) -> None:
        self.tip = tip

    def lost(self, why: str) -> None:
        self.why = why

    def submitted(self, them: Sequence[Submitted]) -> None:
        for it in them:
            if self.is_on:
                self._compare(it)

    def left(self, txids: Sequence[str], still_here: set[str]) -> None:
        if self.is_on:
            for txid in sorted(still_here):
                self.differs("kept", txid, "still in the pool", "dropped")
            self._agree(len(txids) - len(still_here))

    def dropped(self, txids: Collection[str]) -> None:
        self._denied.update(txids)
        if self.is_on:
            for txid in sorted(txids):
                self.differs(LOST, txid, "dropped", "still in the pool")

    def _compare(self, it: Submitted) -> None:
        if it.is_in_pool:
            self._denied.discard(it.txid)
        if it.reply.startswith(KNOWN_ALREADY):
            self._agree(1)
            return
        ours, theirs = differences.answer_to_entry(it.reply), Answer(fee=it.fee, vsize=it.vsize)
        if ours == theirs:
            self._agree(1)
            return
        if ours.reason:
            self._denied.add(it.txid)
        if self._denied.intersection(it.parents) and ours.reason:
            self.differs(PARENT, it.txid, ours.text(), theirs.text(), "a parent is denied here")
            return
        found = self.differs(ours.rule or "fee", it.txid, ours.text(), theirs.text(), self._why_known(ours, theirs))
        if found is not None and ours.reason:
            found.segment, found.entry = self.segment(), it.entry

    def _why_known(self, ours: Answer, theirs: Answer) -> str:
        found = differences.known(self._release, ours, theirs)
        if found is None and ours.rule in self._overridden:
            return "the opening says %s" % self._overridden[ours.rule]
        return found.text() if found else ""

    def _agree(self, count: int) -> None:
        self.agreed += count
        self._metrics.agreements.inc(count)

    # what callers send

    def tried(self, txid: str, ours: Answer, theirs: Answer) -> None:
        """Compares what both say of a transaction that a caller asked about. Which of its faults each of them names first is no
        difference, and what the gate has no verdict on is not compared."""
        if ours == theirs or ours.reason and theirs.reason and ours.rule != NOT_JUDGED:
            self._agree(1)
        elif ours.rule != NOT_JUDGED:
            self.differs(ours.rule or "fee", txid, ours.text(), theirs.text(), self._why_known(ours, theirs))

    def differs(self, rule: str, txid: str, ours: str, theirs: str, known: str = "") -> Optional[Difference]:
        """Counts a difference, and says it in the log; None if it was counted before."""
        if not self._is_new((rule, txid)):
            return None
        found = Difference(time.time(), txid, rule, ours, theirs, known)
        self.last.appendleft(found)
        self.by_rule[rule] += 1
        self.known_by_rule[rule] += bool(known)
        if ours.startswith(rule + " "):
            self.tokens[rule] = ours[len(rule) + 1 :]
        self._metrics.differs(rule, bool(known))
        level = logging.INFO if known else logging.WARNING
        log.log(level, "differs (%s): %s: gate: %s; node: %s%s", rule, txid, ours, theirs, " (%s)" % known if known else "")
        return found

    def _is_new(self, which: tuple[str, str]) -> bool:
        if which in self._counted:
            self._counted.move_to_end(which)
            return False
        self._counted[which] = None
        if len(self._counted) > REMEMBERED:
            self._counted.popitem(last=False)
        return True

    # figures

    def explain(self) -> None:
        """Looks for the figures of what is shown, in the newest segment that has some of it. Whoever looks at the page asks."""
        segment = next((it.segment for it in self.last if it.segment is not None and not it.is_asked), None)
        if self._explainer is not None and segment is not None:
            self._explainer.ask(segment, {it.entry: it for it in self.last if it.segment == segment and not it.is_asked})

    async def close(self) -> None:
        """Ends what still looks for figures."""
        if self._explainer is not None:
            await self._explainer.close()
