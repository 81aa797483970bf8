"""A job that costs the node much, done for callers: once for all who wait for it, and for a fifth of the time at the most, so that
no caller can make the node do it again and again."""

from __future__ import annotations

import asyncio
import time
from typing import Awaitable, Callable, Optional

SELDOM = 5


class OnceForAll:
    """Does one job, with a pause after each time."""

    def __init__(self, job: Callable[[], Awaitable[None]], pause: float) -> None:
        self._job, self._pause = job, pause
        self._at_work = asyncio.Lock()
        self._next = float("-inf")
        # whoever comes before it begins waits for it
        self._coming: Optional[asyncio.Task[None]] = None

    async def done(self) -> None:
        """Waits until the job has been done once more, from a time after this call on. What it raises, each of those gets who waited."""
        if self._coming is None:
            self._coming = asyncio.get_running_loop().create_task(self._do())
            # whoever waited may have gone
            self._coming.add_done_callback(lambda it: it.cancelled() or it.exception())
        await asyncio.shield(self._coming)

    async def _do(self) -> None:
        async with self._at_work:
            await asyncio.sleep(max(0.0, self._next - time.monotonic()))
            self._coming, began = None, time.monotonic()
            try:
                await self._job()
            finally:
                now = time.monotonic()
                self._next = now + max(self._pause, (SELDOM - 1) * (now - began))
