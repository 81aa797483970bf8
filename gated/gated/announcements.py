"""What a node announces: by ZMQ (its topic `sequence`), or by being asked again and again."""

from __future__ import annotations

import asyncio
import struct
from dataclasses import dataclass
from typing import Optional, Protocol, Union

import zmq
import zmq.asyncio

from .patient import PatientClient
from .faults import CannotFollow
from .node import Refused, Unusable
from .node.answers import PoolListing, Publisher

TOPIC = b"sequence"
# what a node calls it among its notifications
PUBLISHER = "pubsequence"
# how many messages are kept for a reader that is late; past them the node's socket drops some, which their numbers show
KEPT = 200_000
# how many messages are handed on together
TOGETHER = 200
HASH_BYTES = 32
COUNTED = struct.Struct("<I")
NUMBERED = struct.Struct("<Q")


@dataclass(frozen=True)
class Came:
    """The node took a transaction into its pool."""

    txid: str


@dataclass(frozen=True)
class Gone:
    """A transaction left the node's pool, and no block has it."""

    txid: str


@dataclass(frozen=True)
class Moved:
    """A block came or went: the node's tip may be another."""


Announcement = Union[Came, Gone, Moved]


class Lost(CannotFollow):
    """What the node announced didn't arrive whole, or its state can't be followed: the gate has to be opened anew."""


class Announcements(Protocol):
    async def next(self, seconds: float) -> list[Announcement]:
        """What was announced since the last call, waited for so long at the most; Lost if something is missing."""

    def began(self, sequence: int, pool: set[str]) -> None:
        """A gate was opened from the node's pool at this number: what was announced below it is not handed on."""

    def looked(self, listed: PoolListing) -> None:
        """The node's pool was looked at beside these announcements."""

    def expect_another(self) -> None:
        """The node was away: its numbers may begin anew."""

    async def fault(self) -> str:
        """What may keep announcements from arriving, as the end of a sentence; nothing if nothing is known."""

    def close(self) -> None: ...


class ZmqAnnouncements:
    """The node's messages. Each has a number of its own, so one that is missing is noticed with the next."""

    def __init__(self, endpoint: str, client: PatientClient) -> None:
        self._endpoint, self._client = endpoint, client
        self._socket = zmq.asyncio.Context.instance().socket(zmq.SUB)
        self._socket.setsockopt(zmq.RCVHWM, KEPT)
        self._socket.setsockopt(zmq.LINGER, 0)
        self._socket.setsockopt(zmq.TCP_KEEPALIVE, 1)
        self._socket.setsockopt(zmq.TCP_KEEPALIVE_IDLE, 30)
        self._socket.setsockopt(zmq.TCP_KEEPALIVE_INTVL, 10)
        self._socket.subscribe(TOPIC)
        try:
            self._socket.connect(endpoint)
        except zmq.ZMQError as error:
            raise OSError("--zmq %s: %s" % (endpoint, error)) from error
        self._last: Optional[int] = None
        self._from = 0

    def began(self, sequence: int, pool: set[str]) -> None:
        self._from = sequence

    async def next(self, seconds: float) -> list[Announcement]:
        if not await self._socket.poll(int(seconds * 1000)):
            return []
        found: list[Announcement] = []
        while len(found) < TOGETHER and await self._socket.poll(0):
            read = self._read(await self._socket.recv_multipart())
            if read is not None:
                found.append(read)
        return found

    def _read(self, parts: list[bytes]) -> Optional[Announcement]:
        if len(parts) != 3 or parts[0] != TOPIC or len(parts[1]) < HASH_BYTES + 1 or len(parts[2]) != COUNTED.size:
            raise Lost("a message of the node doesn't parse")
        self._count(COUNTED.unpack(parts[2])[0])
        hash, kind, rest = parts[1][:HASH_BYTES].hex(), parts[1][HASH_BYTES : HASH_BYTES + 1], parts[1][HASH_BYTES + 1 :]
        if kind in b"CD":
            return Moved()
        if kind not in b"AR" or len(rest) != NUMBERED.size:
            raise Lost("a message of the node doesn't parse")
        if NUMBERED.unpack(rest)[0] < self._from:
            return None
        return Came(hash) if kind == b"A" else Gone(hash)

    def _count(self, number: int) -> None:
        last, self._last = self._last, number
        if last is not None and number != (last + 1) % 2**32:
            raise Lost("messages of the node are missing: number %d follows %d" % (number, last))

    def looked(self, listed: PoolListing) -> None:
        """Its messages tell what has changed."""

    def expect_another(self) -> None:
        self._last = None

    async def fault(self) -> str:
        """The node says where it publishes. Behind another host or port of the same node it may be heard all the same, so that
        is no reason to end."""
        try:
            told: list[Publisher] = await self._client.ask("getzmqnotifications")
            published = [it["address"] for it in told if it["type"] == PUBLISHER]
        except (Unusable, Refused, KeyError, TypeError):
            return ""
        if not published:
            return ": the node publishes none (bitcoind -zmqpubsequence=%s)" % self._endpoint
        if _port(self._endpoint) in map(_port, published):
            return ""
        return ": the node publishes them at %s, and gated listens at %s" % (", ".join(published), self._endpoint)

    def close(self) -> None:
        self._socket.close()


class AskedAnnouncements:
    """The same for a node without ZMQ, from what has changed in its tip and its pool since it was asked last."""

    def __init__(self, client: PatientClient, seconds: float) -> None:
        self._client, self._seconds = client, seconds
        self._pool: set[str] = set()
        self._sequence = -1
        self._best = ""
        # what has changed and was not handed on yet
        self._changes: list[Announcement] = []

    def began(self, sequence: int, pool: set[str]) -> None:
        self._pool, self._sequence, self._changes = set(pool), -1, []

    async def next(self, seconds: float) -> list[Announcement]:
        await asyncio.sleep(min(seconds, self._seconds))
        best: str = await self._client.ask("getbestblockhash")
        found: list[Announcement] = []
        if best != self._best:
            self._best = best
            found.append(Moved())
        self.looked(await self._client.ask("getrawmempool", False, True))
        found, self._changes = found + self._changes, []
        return found

    def looked(self, listed: PoolListing) -> None:
        """What left the pool between two questions and is there again has left, and has come, if anybody saw the pool without it."""
        if listed["mempool_sequence"] == self._sequence:
            return
        pool = set(listed["txids"])
        self._changes += [Came(it) for it in listed["txids"] if it not in self._pool]
        self._changes += [Gone(it) for it in self._pool - pool]
        self._sequence, self._pool = listed["mempool_sequence"], pool

    def expect_another(self) -> None:
        pass

    async def fault(self) -> str:
        return ""

    def close(self) -> None:
        pass


def _port(endpoint: str) -> str:
    """What two addresses of one publisher have in common: the host may be 0.0.0.0 for the one and 127.0.0.1 for the other."""
    return endpoint.rpartition(":")[2]
