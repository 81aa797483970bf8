"""Whoever looks on while a node is followed, and what is shown to them."""

from __future__ import annotations

from dataclasses import dataclass
from typing import Collection, Sequence

from .opening import Opening

Outpoint = tuple[str, int]
# how the gate says that it took a transaction, and that it had it
ADMITTED, KNOWN_ALREADY = "admitted ", "denied P5 "


@dataclass(frozen=True)
class Tip:
    """What the gate's chain ends with."""

    hash: str
    height: int


@dataclass(frozen=True)
class Submitted:
    """A transaction of the node's pool, what the node says of it, and the gate's reply."""

    txid: str
    version: int
    fee: int
    vsize: int
    reply: str
    # the outpoints that it spends
    spent: frozenset[Outpoint]
    # how many entries the journal's segment has up to this one
    entry: int

    @property
    def is_in_pool(self) -> bool:
        """Whether the gate has it."""
        return self.reply.startswith((ADMITTED, KNOWN_ALREADY))

    @property
    def has_come(self) -> bool:
        """Whether the gate took it just now."""
        return self.reply.startswith(ADMITTED)

    @property
    def rule(self) -> str:
        """The rule by which the gate denies it; nothing if it has it."""
        return "" if self.is_in_pool else self.reply.split(" ")[1]

    @property
    def parents(self) -> frozenset[str]:
        """The transactions that it spends from."""
        return frozenset(txid for txid, _ in self.spent)


class Watcher:
    """Whoever looks on. Does nothing by itself."""

    def opened(self, opening: Opening, why: str) -> None: ...

    def submitted(self, them: Sequence[Submitted]) -> None: ...

    def left(self, txids: Sequence[str], still_here: set[str]) -> None: ...

    def dropped(self, txids: Collection[str]) -> None:
        """The gate has no longer what it admitted and the node still has."""

    def moved(self, tip: Tip) -> None: ...

    def compared(self, only_node: set[str], only_gate: set[str]) -> None: ...

    def behind(self, blocks: int) -> None: ...

    def lost(self, why: str) -> None: ...
