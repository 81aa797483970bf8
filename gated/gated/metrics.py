"""What is counted, in the form of Prometheus."""

from __future__ import annotations

from typing import Any, Sequence

from prometheus_client import CollectorRegistry, Counter, Gauge, Histogram, ProcessCollector, generate_latest

from .opening import Opening
from .watcher import Tip, Watcher

SECONDS = (0.0001, 0.0005, 0.001, 0.005, 0.01, 0.05, 0.1, 0.5, 1.0, 5.0, 30.0)


class Metrics(Watcher):
    """Counters and gauges of one gate."""

    def __init__(self) -> None:
        self.registry = CollectorRegistry()
        self.answers = self._counter("gate_answers", "Answers to callers, by the rule that denies, or else the code or the reason, or ok", "rule")
        about = "Where the gate and the node differ, by the gate's rule, or what they differ in, and whether a release is known to do so"
        self.differences = self._counter("gate_differences", about, "rule", "known")
        self.agreements = self._counter("gate_agreements", "Transactions of the node's pool on which the two agree")
        self.openings = self._counter("gate_openings", "How often the gate was opened from the node")
        self.pool = self._gauge("gate_pool_transactions", "Transactions of the gate's pool")
        self.size = self._gauge("gate_pool_virtual_bytes", "Sum of their virtual sizes")
        self.floor = self._gauge("gate_floor", "What the gate's pool asks for, in satoshi per 1,000 virtual bytes")
        self.height = self._gauge("gate_tip_height", "Height of the gate's tip")
        self.lag = self._gauge("gate_lag_blocks", "Blocks by which the gate is behind the node")
        self.only_node = self._gauge("gate_only_in_node", "Transactions that only the node's pool has, when the two were last compared")
        self.only_gate = self._gauge("gate_only_in_gate", "Transactions that only the gate's pool has")
        self.waiting = self._gauge("gate_queue_jobs", "Jobs that wait for the gate")
        self.is_open = self._gauge("gate_is_open", "Whether the gate is open: 1 or 0")
        self.journal = self._gauge("gate_journal_bytes", "Bytes of all files of the journal")
        # gated's own memory, processor seconds, descriptors and start
        ProcessCollector(registry=self.registry)
        self.answers_by_rule: dict[str, int] = {}
        # transactions that only the node's and only the gate's pool has, when the two were last compared
        self.only = (0, 0)
        self.calls = Histogram("gate_call_seconds", "Seconds that the gate takes for a line", buckets=SECONDS, registry=self.registry)

    def _counter(self, name: str, about: str, *labels: str) -> Counter:
        return Counter(name, about, labels, registry=self.registry)

    def _gauge(self, name: str, about: str) -> Gauge:
        return Gauge(name, about, registry=self.registry)

    def opened(self, opening: Opening, why: str) -> None:
        self.openings.inc()
        self.height.set(opening.tip)
        self.lag.set(0)

    def moved(self, tip: Tip) -> None:
        self.height.set(tip.height)

    def behind(self, blocks: int) -> None:
        self.lag.set(blocks)

    def compared(self, only_node: set[str], only_gate: set[str]) -> None:
        self.only = (len(only_node), len(only_gate))
        self.only_node.set(len(only_node))
        self.only_gate.set(len(only_gate))

    def differs(self, rule: str, is_known: bool) -> None:
        """Counts a difference."""
        self.differences.labels(rule, "yes" if is_known else "no").inc()

    def answered(self, rule: str) -> None:
        """Counts an answer to a caller."""
        self.answers.labels(rule).inc()
        self.answers_by_rule[rule] = self.answers_by_rule.get(rule, 0) + 1

    def pool_is(self, info: dict[str, Any]) -> None:
        """Takes over what the gate says of its pool."""
        self.pool.set(info["size"])
        self.size.set(info["bytes"])
        self.floor.set(info["mempoolminfee"])

    def text(self) -> bytes:
        return generate_latest(self.registry)


class Watchers(Watcher):
    """Several who look on."""

    def __init__(self, them: Sequence[Watcher]) -> None:
        self._them = them

    def opened(self, *given: Any) -> None:
        for it in self._them:
            it.opened(*given)

    def submitted(self, *given: Any) -> None:
        for it in self._them:
            it.submitted(*given)

    def left(self, *given: Any) -> None:
        for it in self._them:
            it.left(*given)

    def dropped(self, *given: Any) -> None:
        for it in self._them:
            it.dropped(*given)

    def moved(self, *given: Any) -> None:
        for it in self._them:
            it.moved(*given)

    def compared(self, *given: Any) -> None:
        for it in self._them:
            it.compared(*given)

    def behind(self, *given: Any) -> None:
        for it in self._them:
            it.behind(*given)

    def lost(self, *given: Any) -> None:
        for it in self._them:
            it.lost(*given)
