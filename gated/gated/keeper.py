"""The keeper of the gate: the one task that has its handle.

Jobs wait in a bounded queue, and are made one after another on a thread of its own. What is ready is made together, and goes
to the disk with one sync before any of its replies goes out.
"""

from __future__ import annotations

import asyncio
import logging
import time
from concurrent.futures import ThreadPoolExecutor
from dataclasses import dataclass
from pathlib import Path
from typing import Any, Callable, Optional, TypeVar

from .engine import Ended, Engine, OpeningRefused, Opener
from .faults import CannotFollow
from .journal import Journal, JournalFailed

log = logging.getLogger("gated")

Result = TypeVar("Result")
OPENING = "the gate is being opened"
SEGMENT_FULL = "the journal's segment is full, and the gate is opened anew"
# how many jobs may share one sync
TOGETHER = 64
# seconds that a line at work may take once gated ends
LAST_LINE_SECONDS = 2.0


class Closed(CannotFollow):
    """There is no gate at the moment; the message says why."""


class Full(Exception):
    """As many jobs are waiting as may wait."""


class Turn:
    """A job's turn at the gate: it asks as many lines as it needs, with no other job between them."""

    def __init__(self, keeper: Keeper) -> None:
        self._keeper = keeper

    def ask(self, line: str) -> str:
        """The gate's reply to a line, without its newline. Both go into the journal."""
        return self._keeper._ask(line, is_kept=True)

    def look(self, line: str) -> str:
        """The same for a look of the host's own that changes nothing: it stays out of the journal."""
        return self._keeper._ask(line, is_kept=False)

    @property
    def entries(self) -> int:
        """How many entries the journal's segment has; 0 without a journal."""
        return self._keeper.entries


Job = Callable[[Turn], Result]


@dataclass
class _Waiting:
    job: Job[Any]
    # whether it opens the gate, and so may be made while there is none
    opens: bool
    done: asyncio.Future[Any]


class Keeper:
    """Answers jobs by the gate, and writes its journal."""

    def __init__(self, opener: Opener, journal: Optional[Journal], depth: int, timed: Callable[[float], None]) -> None:
        self._opener, self._journal, self._timed = opener, journal, timed
        self._queue: asyncio.Queue[_Waiting] = asyncio.Queue(depth)
        self._thread = ThreadPoolExecutor(1, thread_name_prefix="gate")
        self._engine: Optional[Engine] = None
        # whether callers are answered: not before all that an opening leads with has been put to the gate
        self._is_open = False
        self._why = OPENING
        # when the line at work was put to the gate; None if none is at work
        self._asked_at: Optional[float] = None

    @property
    def waiting(self) -> int:
        return self._queue.qsize()

    @property
    def entries(self) -> int:
        return self._journal.entries if self._journal is not None else 0

    @property
    def is_full(self) -> bool:
        """Whether the journal's segment has as much as it may have: no job is made until a gate is opened anew."""
        return self._journal is not None and self._journal.is_full

    @property
    def segment(self) -> Optional[Path]:
        """The journal's segment that is written now."""
        return self._journal.path if self._journal is not None else None

    @property
    def is_open(self) -> bool:
        return self._is_open

    @property
    def why(self) -> str:
        """Why there is no gate, if there is none."""
        return self._why

    @property
    def seconds_at_work(self) -> float:
        """How long the gate has been at the line that it is at; 0 if it is at none."""
        began = self._asked_at
        return time.monotonic() - began if began is not None else 0.0

    async def run(self) -> None:
        """Makes jobs until it is cancelled."""
        loop = asyncio.get_running_loop()
        batch: list[_Waiting] = []
        try:
            while True:
                batch = [await self._queue.get()]
                while len(batch) < TOGETHER and not self._queue.empty():
                    batch.append(self._queue.get_nowait())
                for waiting, outcome in zip(batch, await loop.run_in_executor(self._thread, self._made, batch)):
                    if waiting.done.cancelled():
                        continue
                    if isinstance(outcome, Exception):
                        waiting.done.set_exception(outcome)
                    else:
                        waiting.done.set_result(outcome)
        finally:
            # whoever still waits is told
            while not self._queue.empty():
                batch.append(self._queue.get_nowait())
            for waiting in batch:
                waiting.done.cancel()
            ends = loop.run_in_executor(self._thread, self._end, "gated ends")
            if not (await asyncio.wait([ends], timeout=LAST_LINE_SECONDS))[0]:
                engine = self._engine
                if engine is not None:
                    engine.stop()
                await ends
            self._thread.shutdown()
            if self._journal is not None:
                self._journal.unlock()

    async def made(self, job: Job[Result]) -> Result:
        """What a job gives, once it is its turn."""
        return await self._put(job, opens=False)

    async def offered(self, job: Job[Result]) -> Result:
        """The same, or Full if too many are waiting."""
        if self._queue.full():
            raise Full("the queue is full")
        return await self._put(job, opens=False)

    def has_to_be_open(self) -> None:
        """Closed if there is no gate: whoever asks now is told now, whatever the gate is at."""
        if not self._is_open:
            raise Closed(self._why)

    async def _put(self, job: Job[Result], opens: bool) -> Result:
        if not opens:
            self.has_to_be_open()
        done: asyncio.Future[Result] = asyncio.get_running_loop().create_future()
        await self._queue.put(_Waiting(job, opens, done))
        return await done

    async def opened(self, opening: str, about: str, job: Job[Result]) -> Result:
        """Closes the gate that is open, opens another one with a journal's segment of its own, and makes a first job. Callers
        are answered from then on."""
        self._is_open = False

        def open_it(turn: Turn) -> Result:
            self._end(OPENING)
            self._engine = self._opener()
            self._engine.open(opening)
            if self._journal is not None:
                self._journal.begin(opening, about)
            found = job(turn)
            if self._journal is not None:
                self._journal.led()
            self._is_open = True
            return found

        return await self._put(open_it, opens=True)

    async def closed(self, why: str) -> None:
        """No job is made from now on, until a gate is opened."""
        self._is_open, self._why = False, why

        def close_it(turn: Turn) -> None:
            self._end(why)

        await self._put(close_it, opens=True)

    def _made(self, batch: list[_Waiting]) -> list[Any]:
        """What became of each job, after all that they wrote is on the disk."""
        outcomes = [self._one(it) for it in batch]
        if self._journal is None:
            return outcomes
        try:
            self._journal.sync()
        except JournalFailed as error:
            self._end("the journal can't be written")
            return [error for _ in batch]
        return outcomes

    def _one(self, waiting: _Waiting) -> Any:
        if waiting.done.cancelled():
            return None
        if not self._is_open and not waiting.opens:
            return Closed(self._why)
        if self.is_full and not waiting.opens:
            return Closed(SEGMENT_FULL)
        try:
            return waiting.job(Turn(self))
        except (Ended, JournalFailed, OpeningRefused) as error:
            # what was answered may not be in the journal, or the gate is gone: nothing goes on from here
            log.error("%s", error)
            self._end(str(error))
            return error
        except Exception as error:  # the job's own failure, which its caller hears
            return error

    def _ask(self, line: str, is_kept: bool) -> str:
        if self._engine is None:
            raise Closed(self._why)
        if "\n" in line:
            raise ValueError("a line has a newline within it")
        began = self._asked_at = time.monotonic()
        try:
            reply = self._engine.answer(line)
            self._timed(time.monotonic() - began)
            if is_kept and self._journal is not None:
                self._journal.entry(line, reply)
            return reply.rstrip("\n")
        except (MemoryError, OSError) as error:
            # the gate may have answered, and the journal may not have it
            raise Ended("the gate's answer is lost: %s" % (str(error) or type(error).__name__)) from error
        finally:
            self._asked_at = None

    def _end(self, why: str) -> None:
        self._is_open = False
        engine, self._engine, self._why = self._engine, None, why
        if engine is not None:
            engine.close()
        if self._journal is not None:
            try:
                self._journal.close()
            except JournalFailed as error:
                log.error("%s", error)
