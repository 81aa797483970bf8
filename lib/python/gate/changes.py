"""What a line moved in the pool. The page docs/LIBRARY.md of gate has the lines ("What an event moved")."""

from __future__ import annotations

import re
from typing import NamedTuple

from .replies import NotAReply

_LINES = re.compile("((?:- [0-9a-f]{64}\n)*)((?:[+] [0-9a-f]{64}\n)*)")


class Changes(NamedTuple):
    """The txids of the entries that left the pool, and of those that came, both in order of admission."""

    departed: tuple[str, ...] = ()
    arrived: tuple[str, ...] = ()

    @classmethod
    def parse(cls, lines: str) -> Changes:
        """Reads the lines that `gate_changes` gives. Raises NotAReply if one of them is none."""
        found = _LINES.fullmatch(lines)
        if not found:
            raise NotAReply("lines that tell of no change: " + lines[:80])
        departed, arrived = (tuple(line[2:] for line in part.splitlines()) for part in found.groups())
        return cls(departed, arrived)
