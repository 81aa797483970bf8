"""What the shadow counts, and what it doesn't: over its own door, without a node."""

import logging
import os
import re
from pathlib import Path

from gate import same, true
from hosting import ROOT

from gated.metrics import Metrics
from gated.node.differences import Answer
from gated.node.releases import CHANGES, overridden
from gated.opening import Opening
from gated.shadow import Shadow
from gated.watcher import Submitted

TAKEN = Answer(fee=400, vsize=96)


def opening(release=290400, lines=(), own=()):
    return Opening(
        chain="regtest", release=release, tip=1, best="00" * 32, lines=list(lines), entries=[], heights={}, floor=0,
        outpoints=set(), pool=set(), pool_info={}, sequence=1, overridden=overridden(own, {"minrelaytxfee": 100}),
    )  # fmt: skip


def shadow(**kinds):
    """A shadow beside a node of this release, and the lines of its log by level."""
    found = Shadow(Metrics())
    found.is_on = True
    found.opened(opening(**kinds), "a test")
    return found


def counts(it):
    """The differences that Prometheus sees, by rule and whether they are known."""
    metric = it._metrics.differences.collect()[0]
    return {(one.labels["rule"], one.labels["known"]): int(one.value) for one in metric.samples if one.name.endswith("_total")}


class Lines(logging.Handler):
    """Keeps the levels and the lines of the log."""

    def __init__(self):
        super().__init__()
        self.found = []

    def emit(self, record):
        self.found.append((record.levelname, record.getMessage()))


def logged(work):
    lines, log = Lines(), logging.getLogger("gated")
    before = log.level
    log.addHandler(lines)
    log.setLevel(logging.INFO)
    try:
        work()
    finally:
        log.removeHandler(lines)
        log.setLevel(before)
    return lines.found


def test_known_differences(gate):
    """What a release is known to do is labelled and said with the release and the reason, and is no warning."""
    it = shadow()
    lines = logged(lambda: it.tried("aa", Answer("A12", "version"), TAKEN))
    wanted = "differs (A12): aa: gate: A12 version; node: taken with fee 400 and virtual size 96 (since Bitcoin Core 28.0: version 3 is standard (BIP 431))"
    same("the log", lines, [("INFO", wanted)])
    same("what is shown", it.last[0].known, "since Bitcoin Core 28.0: version 3 is standard (BIP 431)")
    lines = logged(lambda: it.tried("bb", Answer("A35", "min relay fee not met"), TAKEN))
    same("the log", [level for level, _ in lines], ["WARNING"])
    same("counted", counts(it), {("A12", "yes"): 1, ("A35", "no"): 1})


def test_known_by_release_and_setting(gate):
    """An earlier release explains nothing, and neither does one whose setting an opening takes by its name."""
    it = shadow(release=270000)
    it.tried("aa", Answer("A12", "version"), TAKEN)
    same("an earlier one", counts(it), {("A12", "no"): 1})
    for rule in ("A19", "A31", "A40"):
        it = shadow()
        it.tried("aa", Answer(rule, "its token"), TAKEN)
        same("taken by a line", counts(it), {(rule, "no"): 1})


def test_known_by_a_line_of_the_operator(gate):
    """A line that says another number than the node has explains what its rule denies, and nothing else."""
    for own, known in (("minrelaytxfee 2000", "yes"), ("minrelaytxfee 100", "no"), ("limitancestorcount 5", "no"), ("bloom 1", "no")):
        it = shadow(own=[own])
        it.tried("aa", Answer("A35", "min relay fee not met"), TAKEN)
        same(own, counts(it), {("A35", known): 1})
    it = shadow(own=["limitancestorcount 5"])
    it.tried("aa", Answer("A36", "too-long-mempool-chain"), TAKEN)
    same("its reason", it.last[0].known, "the opening says limitancestorcount 5")


def test_what_is_no_difference(gate):
    """Both refuse, by whichever of its faults; and what the gate has no verdict on, since the node refused it before."""
    it = shadow()
    for ours, theirs in (("A44", "mempool-script-verify-flag-failed"), ("A12", "dust"), ("A12", "truc-descendant-toobig"), ("A25", "min relay fee not met")):
        it.tried("aa", Answer(ours, "its token"), Answer("", theirs))
    same("agreements", (it.agreed, counts(it)), (4, {}))
    it.tried("aa", Answer("A43", "verdict-missing"), Answer("", "dust"))
    it.tried("aa", Answer("A43", "verdict-missing"), TAKEN)
    same("no verdict", (it.agreed, counts(it)), (4, {}))


def test_who_asks_twice_counts_once(gate):
    """The same difference of one transaction is counted once, and another one of it again."""
    it = shadow()
    for _ in range(3):
        it.tried("aa", Answer("A35", "min relay fee not met"), TAKEN)
    it.tried("aa", Answer("A38", "insufficient fee"), TAKEN)
    it.tried("bb", Answer("A35", "min relay fee not met"), TAKEN)
    same("counted", (counts(it), len(it.last)), ({("A35", "no"): 2, ("A38", "no"): 1}, 3))


def submitted(txid, reply, *parents):
    return Submitted(txid, 2, 400, 96, reply, frozenset((it, 0) for it in parents), 7)


def test_what_stands_on_it(gate):
    """What spends from a transaction that the gate denies, or has lost, is `parent`, which is known."""
    it = shadow()
    it.segment = lambda: Path("gate-000001.journal")
    it.submitted([submitted("aa", "denied A35 keep min relay fee not met"), submitted("bb", "denied A25 keep bad-txns-inputs-missingorspent", "aa")])
    it.dropped(["cc"])
    it.submitted([submitted("dd", "denied A25 keep bad-txns-inputs-missingorspent", "cc"), submitted("ee", "admitted ee fee 400 vsize 96 replaced 0")])
    same("counted", counts(it), {("A35", "no"): 1, ("parent", "yes"): 2, ("lost", "no"): 1})
    same("agreed", it.agreed, 1)
    true("the denial's place is kept", [one.entry for one in it.last if one.rule == "A35"] == [7])


def test_the_table_of_releases(gate):
    """Each change of a release that the tools and gated know stands in the table of docs/DECISIONS.md, and no other."""
    with open(os.path.join(ROOT, "docs", "DECISIONS.md"), encoding="utf-8") as page:
        rows = re.findall(r"^\| ([^|]+) \| ([^|]+) \| (\d+(?:\.\d)?)(?: \([^|]*\))? \| ", page.read(), re.MULTILINE)
    told = set()
    for rules, theirs, release in rows:
        reasons = re.findall(r"`([^`]+)`", theirs) or [""]
        each = [it if re.fullmatch(r"A\d+", it) else "" for it in rules.split(", ")]
        told |= {(rule, reasons[min(at, len(reasons) - 1)], float(release)) for at, rule in enumerate(each)}
    same("the table", told, {(it.rule, it.reason, float(it.release)) for it in CHANGES})
