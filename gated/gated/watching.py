"""The second door: `/metrics` for Prometheus and the page for people, both without a password, and both only to be read."""

from __future__ import annotations

import asyncio
import contextlib
import json
from typing import Any, Optional

from aiohttp import web

from . import journal
from .faults import CannotFollow
from .keeper import Full, Keeper, Turn
from .metrics import Metrics
from .opening import OWN_USER
from .page import State, page
from .shadow import Shadow

PROMETHEUS = "text/plain; version=0.0.4"
# seconds that whoever looks waits for the gate: what it is at may take longer
PATIENCE = 2.0


class Watching:
    """Shows what is counted."""

    def __init__(self, keeper: Keeper, metrics: Metrics, shadow: Shadow, node_url: str) -> None:
        self._keeper, self._metrics, self._shadow, self._node_url = keeper, metrics, shadow, node_url

    def app(self) -> web.Application:
        found = web.Application()
        found.router.add_get("/metrics", self._counts)
        found.router.add_get("/", self._page)
        return found

    async def _info(self) -> tuple[Optional[dict[str, Any]], str]:
        """What the gate says of its pool, or why it says nothing."""
        try:
            info = await asyncio.wait_for(self._keeper.offered(_pool_info), PATIENCE)
        except (CannotFollow, Full, asyncio.TimeoutError) as error:
            self._metrics.is_open.set(int(self._keeper.is_open))
            return None, "Not open: %s" % error if not self._keeper.is_open else "Busy: %s" % (str(error) or "the gate answers others")
        self._metrics.is_open.set(1)
        self._metrics.pool_is(info)
        return info, ""

    async def _counts(self, request: web.Request) -> web.Response:
        await self._info()
        self._metrics.waiting.set(self._keeper.waiting)
        if self._keeper.segment is not None:
            # of a folder that can't be read the last number stands
            with contextlib.suppress(OSError):
                self._metrics.journal.set(await asyncio.to_thread(journal.bytes_of, self._keeper.segment.parent))
        return web.Response(body=self._metrics.text(), headers={"Content-Type": PROMETHEUS})

    async def _page(self, request: web.Request) -> web.Response:
        info, closed = await self._info()
        self._shadow.explain()
        segment = str(self._keeper.segment or "")
        state = State(info, closed, self._node_url, segment, self._metrics.answers_by_rule, self._metrics.only)
        return web.Response(text=page(self._shadow, state), content_type="text/html")


def _pool_info(turn: Turn) -> dict[str, Any]:
    reply = turn.look('user %s rpc 0 {"method":"getmempoolinfo"}' % OWN_USER)
    found: dict[str, Any] = json.loads(reply.split(" ", 2)[2])["result"]
    return found
