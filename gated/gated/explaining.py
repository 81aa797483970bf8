"""The figures that decided, as `gate run --explain` has them. Somebody has to ask for them: they cost a replay of the journal's
segment, off the way of callers, one at a time and for so long at the most."""

from __future__ import annotations

import asyncio
import logging
import re
import tempfile
import time
from pathlib import Path
from typing import IO, Mapping, Optional

from . import journal

log = logging.getLogger("gated")

# seconds that a replay may take, and that lie between two at the least; they take a tenth of the time at the most
SECONDS = 120.0
PAUSE = 60.0
SELDOM = 10
LINE = re.compile(r"gate: line (\d+): (.*)")


class Explainer:
    """Asks the gate's program why transactions were denied."""

    def __init__(self, program: str) -> None:
        self._program = program
        self._next = float("-inf")
        self._task: Optional[asyncio.Task[None]] = None

    def ask(self, segment: Path, wanted: Mapping[int, Explained]) -> None:
        """Looks for the figures of these entries of a segment, unless that is at work or was just now."""
        if self._task is not None or not wanted or time.monotonic() < self._next:
            return
        self._task = asyncio.get_running_loop().create_task(self._explain(segment, dict(wanted)))

    async def close(self) -> None:
        """Ends what is at work."""
        if self._task is not None:
            self._task.cancel()
            await asyncio.gather(self._task, return_exceptions=True)

    async def _explain(self, segment: Path, wanted: dict[int, Explained]) -> None:
        began = time.monotonic()
        try:
            with tempfile.TemporaryFile() as lines:
                opening = await asyncio.to_thread(_written, lines, segment, max(wanted))
                by_line = {opening + entry: it for entry, it in wanted.items()}
                await asyncio.wait_for(self._read(lines, by_line), SECONDS)
        except asyncio.TimeoutError:
            log.info("figures: a replay of %s takes more than %d seconds", segment.name, SECONDS)
        except OSError as error:
            log.warning("no figures: %s", error)
        finally:
            now = time.monotonic()
            self._next, self._task = now + max(PAUSE, SELDOM * (now - began)), None
            for it in wanted.values():
                it.is_asked = True

    async def _read(self, lines: IO[bytes], by_line: Mapping[int, Explained]) -> None:
        """Takes what standard error says first of each of these lines, before what that moved. The program ends with whoever
        asks."""
        words = ("nice", "-n", "19", self._program, "run", "--explain")
        child = await asyncio.create_subprocess_exec(*words, stdin=lines, stdout=asyncio.subprocess.DEVNULL, stderr=asyncio.subprocess.PIPE)
        assert child.stderr is not None
        try:
            async for said in child.stderr:
                found = LINE.match(said.decode(errors="replace"))
                asked = by_line.get(int(found[1])) if found else None
                if found and asked is not None and not asked.figures:
                    asked.figures = found[2]
        finally:
            if child.returncode is None:
                child.kill()
            await child.wait()


class Explained:
    """What may have figures, once they were looked for."""

    figures: str = ""
    is_asked: bool = False


def _written(lines: IO[bytes], segment: Path, entries: int) -> int:
    """Writes the segment's opening and its first entries as the program reads them, and gives how many lines the opening has."""
    count = opening = 0
    for line in journal.events(segment, entries):
        lines.write(line.encode())
        count += 1
        if line == "---\n" and not opening:
            opening = count
    lines.seek(0)
    return opening
