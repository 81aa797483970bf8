"""Listening within bounds: how many connections there may be, and how long a request may take to arrive. A connection is handed
to aiohttp, which reads its requests; what aiohttp has no bound for is watched here."""

from __future__ import annotations

import asyncio
import functools
import logging
import resource
import time
from dataclasses import dataclass
from typing import Any, Awaitable, Callable, Optional, cast

from aiohttp import web

from .config import Address

log = logging.getLogger("gated")

# the longest line of a request's head, and the longest field in it
LONGEST_HEAD_LINE = 8190
# connections that the system holds for the loop; of these the loop may accept some before it sees that there are too many
BACKLOG = 32
ACCEPTED_PAST_BOUND = 4 * BACKLOG
# descriptors for the node, the gate, the journal and whatever else is open beside callers
OWN_DESCRIPTORS = 48
# seconds between two lines of the log that say the same
SAID_EACH = 10.0
# bytes of a request that may come while the one before is answered, beside the longest body
EARLY_HEAD = 65_536


class TooFewDescriptors(OSError):
    """The system's limit leaves no room for callers."""


class Seldom:
    """Says one thing in the log, at most every ten seconds, and how often it would have been said."""

    def __init__(self, clock: Callable[[], float] = time.monotonic) -> None:
        self._clock, self._last, self._passed_over = clock, float("-inf"), 0

    def warning(self, text: str) -> None:
        now = self._clock()
        if now - self._last < SAID_EACH:
            self._passed_over += 1
            return
        log.warning("%s%s", text, "; and %d times since this was said last" % self._passed_over if self._passed_over else "")
        self._last, self._passed_over = now, 0


@dataclass(frozen=True)
class Bounds:
    """How many connections there may be, the seconds that a request may take to arrive or its answer to be read, and the
    longest body."""

    connections: int = 256
    seconds: float = 30.0
    body: int = 4_194_304


class Connection(asyncio.Protocol):
    """One connection. It waits for a request, or one is at work; while it waits its time runs."""

    def __init__(self, door: Door, handler: asyncio.Protocol) -> None:
        self._door, self._handler = door, handler
        self._transport: Optional[asyncio.Transport] = None
        self._loop = asyncio.get_running_loop()
        self._timer: Optional[asyncio.TimerHandle] = None
        self.waits_since = self._loop.time()
        self.is_at_work = False
        # whether its caller has shown who it is: such a connection is the last to be closed for want of room
        self.is_known = False
        self._requests, self._early = 0, 0

    # requests

    def begins(self, request: int) -> None:
        """The request of this number has arrived whole, unless it was answered before it had."""
        if request == self._requests:
            self.is_at_work = True

    def ends(self) -> None:
        """The request is answered, and its answer goes out."""
        self._requests += 1
        self.is_at_work, self._early = False, 0
        self._wait()

    @property
    def request(self) -> int:
        """The number of the request that is coming or at work."""
        return self._requests

    def close(self) -> None:
        """Closes it, whatever is at work, and whether the other side reads what is written or not."""
        if self._transport is None:
            return
        if self._transport.get_write_buffer_size():
            self._transport.abort()
        else:
            self._transport.close()

    def _wait(self) -> None:
        self.waits_since = self._loop.time()

    def _look(self) -> None:
        """Closes it if its time is over, and looks again later if not."""
        over = self.waits_since + self._door.bounds.seconds
        if not self.is_at_work and self._loop.time() >= over:
            self.close()
            return
        again = self._door.bounds.seconds if self.is_at_work else over - self._loop.time()
        self._timer = self._loop.call_later(again, self._look)

    # what the transport calls

    def connection_made(self, transport: asyncio.BaseTransport) -> None:
        self._transport = cast(asyncio.Transport, transport)
        self._handler.connection_made(transport)
        self._wait()
        self._look()
        self._door.came(self)

    def data_received(self, data: bytes) -> None:
        if self.is_at_work:
            self._early += len(data)
            if self._early > self._door.bounds.body + EARLY_HEAD:
                self.close()
                return
        self._handler.data_received(data)

    def eof_received(self) -> Optional[bool]:
        return self._handler.eof_received()

    def connection_lost(self, exc: Optional[Exception]) -> None:
        if self._timer is not None:
            self._timer.cancel()
        self._door.went(self)
        self._handler.connection_lost(exc)

    def pause_writing(self) -> None:
        self._handler.pause_writing()

    def resume_writing(self) -> None:
        # whoever reads a long answer slowly is still there
        self._wait()
        self._handler.resume_writing()


class Door:
    """Listens for an application."""

    def __init__(self, app: web.Application, bounds: Bounds) -> None:
        self.bounds = bounds
        app.middlewares.append(_watched)
        # a body is unpacked by nobody: bitcoind doesn't either
        self._runner = web.AppRunner(
            app, auto_decompress=False, keepalive_timeout=bounds.seconds, max_line_size=LONGEST_HEAD_LINE, max_field_size=LONGEST_HEAD_LINE
        )
        self._listens: Optional[asyncio.AbstractServer] = None
        self._connections: set[Connection] = set()
        self._crowded = Seldom()

    @property
    def connections(self) -> int:
        return len(self._connections)

    async def open(self, at: Address) -> None:
        await self._runner.setup()
        assert self._runner.server is not None
        self._runner.server.request_factory = _of_callers(self._runner.server.request_factory)
        self._listens = await asyncio.get_running_loop().create_server(self._connection, at.host, at.port, backlog=BACKLOG)

    async def close(self, seconds: float) -> None:
        """Lets nobody in any more, and waits so long for answers that are at work."""
        if self._listens is not None:
            self._listens.close()
        if self._runner.server is not None:
            await self._runner.server.shutdown(seconds)
        await self._runner.cleanup()

    def _connection(self) -> Connection:
        assert self._runner.server is not None
        return Connection(self, self._runner.server())

    def came(self, new: Connection) -> None:
        """Takes a connection in. If there are too many, the one goes that has waited longest for a request, strangers first; if
        all are at work, it is the new one."""
        self._connections.add(new)
        if len(self._connections) <= self.bounds.connections:
            return
        self._crowded.warning("there are %d connections: one that waits is closed for each that comes" % self.bounds.connections)
        waiting = [it for it in self._connections if not it.is_at_work and it is not new]
        closed = min(waiting, key=lambda it: (it.is_known, it.waits_since), default=new)
        self._connections.discard(closed)
        closed.close()

    def went(self, old: Connection) -> None:
        self._connections.discard(old)


def _of_callers(made: Callable[..., web.BaseRequest]) -> Callable[..., web.BaseRequest]:
    """The same requests, but none whose connection was closed just as it arrived: aiohttp takes that for a fault of its own, and
    its traceback would be in the log."""

    def request(message: Any, payload: Any, protocol: web.RequestHandler, *rest: Any) -> web.BaseRequest:
        if protocol.transport is None:
            raise asyncio.CancelledError
        return made(message, payload, protocol, *rest)

    return request


def connection_of(request: web.BaseRequest) -> Optional[Connection]:
    """The connection of a request, or None if it is closed."""
    found = request.transport.get_protocol() if request.transport is not None else None
    return found if isinstance(found, Connection) else None


@web.middleware
async def _watched(request: web.Request, handler: Callable[[web.Request], Awaitable[web.StreamResponse]]) -> web.StreamResponse:
    """A request is at work from the moment that it has arrived whole until its answer is made."""
    connection = connection_of(request)
    if connection is None:
        return await handler(request)
    request.content.on_eof(functools.partial(connection.begins, connection.request))
    try:
        return await handler(request)
    finally:
        connection.ends()


def within_descriptors(wanted: int, beside: int) -> int:
    """How many connections there may be beside so many descriptors, once the system's limit is raised as far as that takes and
    it lets itself be raised."""
    soft, hard = resource.getrlimit(resource.RLIMIT_NOFILE)
    if soft == resource.RLIM_INFINITY:
        return wanted
    needed = wanted + beside
    if soft < needed:
        soft = needed if hard == resource.RLIM_INFINITY else min(needed, hard)
        resource.setrlimit(resource.RLIMIT_NOFILE, (soft, hard))
    found = min(wanted, soft - beside)
    if found < 1:
        raise TooFewDescriptors("the limit of %d open files is too low: %d and one for each caller are needed (ulimit -n)" % (soft, beside))
    if found < wanted:
        log.warning("at most %d connections in place of %d: the limit of open files is %d", found, wanted, soft)
    return found
