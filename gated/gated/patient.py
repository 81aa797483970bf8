"""Asking the node with a little patience: one question that it doesn't answer now is asked again before the gate is closed."""

from __future__ import annotations

import asyncio
import logging
from typing import Any, Awaitable, Callable, Sequence, TypeVar

from .client import NodeClient, NotThere

log = logging.getLogger("gated")

Answer = TypeVar("Answer")
# seconds before a question is asked again; after the last of them the node is given up
PAUSES = (0.5, 1.0)


class PatientClient:
    """A node whose questions change nothing there, so that each may be asked twice."""

    def __init__(self, client: NodeClient) -> None:
        self._client = client
        # what was said last of a node that doesn't answer, and of which it has answered nothing since
        self._said = ""

    async def ask(self, method: str, *params: Any) -> Any:
        """The node's answer to one question; Refused if it is an error."""
        return await self._again(lambda: self._client.ask(method, *params))

    async def ask_all(self, method: str, each: Sequence[Sequence[Any]]) -> list[Any]:
        """The answer to each of these parameters, or the Refused in its place."""
        return await self._again(lambda: self._client.ask_all(method, each))

    async def _again(self, question: Callable[[], Awaitable[Answer]]) -> Answer:
        for pause in (*PAUSES, None):
            try:
                found = await question()
                self._said = ""
                return found
            except NotThere as error:
                if pause is None:
                    raise
                if str(error) != self._said:
                    log.info("the node is asked again: %s", error)
                self._said = str(error)
                await asyncio.sleep(pause)
        raise AssertionError("the last try returns or raises")


class Blocking:
    """The same node for code that waits: the questions are asked on the loop, while a thread waits for them."""

    def __init__(self, client: PatientClient, loop: asyncio.AbstractEventLoop) -> None:
        self._client, self._loop = client, loop

    def ask(self, method: str, *params: Any) -> Any:
        return asyncio.run_coroutine_threadsafe(self._client.ask(method, *params), self._loop).result()

    def ask_all(self, method: str, each: Sequence[Sequence[Any]]) -> list[Any]:
        return asyncio.run_coroutine_threadsafe(self._client.ask_all(method, each), self._loop).result()
