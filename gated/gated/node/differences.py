"""Where a gate and a node differ, and which of it is known: for tools/compare and gated."""

from __future__ import annotations

from dataclasses import dataclass
from typing import Optional

from .releases import Change, explained


@dataclass(frozen=True)
class Answer:
    """What one side says: the rule if the gate denies, the reason if either does, else fee and virtual size."""

    rule: str = ""
    reason: str = ""
    fee: Optional[int] = None
    vsize: Optional[int] = None

    def text(self) -> str:
        if self.reason:
            return ("%s %s" % (self.rule, self.reason)).strip()
        return "taken with fee %s and virtual size %s" % (self.fee, self.vsize)


def known(release: int, gate: Answer, told: Answer) -> Optional[Change]:
    """The change of a release by which the two answers differ; None if none is known."""
    return explained(release, gate.rule, told.reason)


def why_known(release: int, gate: Answer, told: Answer) -> Optional[str]:
    """The same in words."""
    found = known(release, gate, told)
    return found.why if found else None


def are_alike(gate: Answer, told: Answer) -> bool:
    """Whether the two answers are the same: after a name of script failures a node says more, in brackets."""
    if gate.reason and told.reason:
        return told.reason.partition(" (")[0] == gate.reason
    return gate == told


def answer_to_entry(line: str) -> Answer:
    """From the reply to a peer's transaction."""
    words = line.split(" ")
    if words[0] == "admitted":
        return Answer(fee=int(words[3]), vsize=int(words[5]))
    return Answer(words[1], " ".join(words[3:]))
