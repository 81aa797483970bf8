"""A node, asked by JSON-RPC over one HTTP connection: single questions, and batches of them."""

from __future__ import annotations

import asyncio
import itertools
import json
import os
from decimal import Decimal
from pathlib import Path
from typing import Any, Callable, Optional, Sequence, TypeVar, Union

import aiohttp
from yarl import URL

from . import forms
from .node import Refused, Unusable

# how many questions go in one request
BATCH = 500


class NotThere(Unusable):
    """The node doesn't answer now, and may later: it is away, starts, or is busy."""


class Busy(NotThere):
    """The node is busy, and did nothing: the same question may be answered a moment later."""


WARMING_UP = -28
STATUS_OF_BUSY = 503
# what a busy node before Bitcoin Core 23.0 answers, with status 500
SAID_BY_BUSY = "Work queue depth exceeded"
# the pauses before a question is asked again
PAUSES = (0.1, 0.3, 0.9)
# connections to the node at once
CONNECTIONS = 4
# an answer that is longer is read beside the loop, so that nobody else waits for it
LONG_TEXT = 262_144
Reader = Callable[[str], Any]
Given = TypeVar("Given")
Result = TypeVar("Result")


async def off_loop(is_long: bool, work: Callable[[Given], Result], given: Given) -> Result:
    """What some work gives; on another thread if it is long, so that nobody else waits for it."""
    return await asyncio.to_thread(work, given) if is_long else work(given)


def _read(text: str) -> Any:
    """The node's answer to a question of our own: amounts are decimals."""
    try:
        return json.loads(text, parse_float=Decimal)
    except RecursionError as error:
        raise ValueError("too deep") from error


class NodeClient:
    """A node behind a URL. The cookie is read again whenever the node refuses the one before: a restart makes a new one."""

    def __init__(self, url: str, cookie: Optional[Path], seconds: float = 60.0) -> None:
        given = URL(url)
        self.url = given.with_user(None)
        self._login = aiohttp.BasicAuth(given.user or "", given.password or "") if given.user else None
        self._cookie = cookie
        self._seconds = seconds
        self._session: Optional[aiohttp.ClientSession] = None
        self._is_closed = False
        self._ids = itertools.count(1)

    async def close(self) -> None:
        self._is_closed = True
        if self._session is not None:
            await self._session.close()
            self._session = None

    async def ask(self, method: str, *params: Any) -> Any:
        """The node's answer to one question; Refused if it is an error."""
        call = self._call(method, params)
        answer = _result(await self._posted(call), call)
        if isinstance(answer, Refused):
            raise answer
        return answer

    async def passed(self, method: str, params: Union[list[Any], dict[str, Any], None]) -> Any:
        """The same for a call of somebody else's, with its parameters as they came and the node's numbers as it writes them."""
        call = {"jsonrpc": "1.0", "id": next(self._ids), "method": method, "params": params or []}
        answer = _result(await self._posted(call, forms.read_json), call)
        if isinstance(answer, Refused):
            raise answer
        return answer

    async def ask_all(self, method: str, each: Sequence[Sequence[Any]]) -> list[Any]:
        """The answer to each of these parameters, or the Refused in its place."""
        return await self.batch([(method, params) for params in each])

    async def batch(self, calls: Sequence[tuple[str, Sequence[Any]]]) -> list[Any]:
        """The answer to each of these calls, or the Refused in its place."""
        found: list[Any] = []
        for at in range(0, len(calls), BATCH):
            found += await self._batch([self._call(*it) for it in calls[at : at + BATCH]])
        return found

    async def _batch(self, calls: list[dict[str, Any]]) -> list[Any]:
        answers = await self._posted(calls)
        if not isinstance(answers, list):
            raise _unlike("a batch", answers)
        by_id = {it.get("id"): it for it in answers if isinstance(it, dict)}
        return [_result(by_id.get(call["id"]), call) for call in calls]

    def _call(self, method: str, params: Sequence[Any]) -> dict[str, Any]:
        return {"jsonrpc": "1.0", "id": next(self._ids), "method": method, "params": list(params)}

    async def _posted(self, body: Any, read: Reader = _read) -> Any:
        """The answer to a request, which is sent again if the node is busy."""
        for pause in PAUSES:
            try:
                return await self._posted_once(body, read)
            except Busy:
                await asyncio.sleep(pause)
        return await self._posted_once(body, read)

    async def _posted_once(self, body: Any, read: Reader) -> Any:
        if self._is_closed:
            raise NotThere("gated ends")
        if self._session is None:
            timeout = aiohttp.ClientTimeout(total=self._seconds)
            self._session = aiohttp.ClientSession(connector=aiohttp.TCPConnector(limit=CONNECTIONS), timeout=timeout)
        try:
            async with self._session.post(self.url, data=forms.text_of(body), auth=self._auth()) as response:
                text = await response.text()
                status = response.status
        except aiohttp.ClientConnectorError as error:
            raise NotThere("the node does not answer: %s" % os.strerror(error.os_error.errno or 0)) from error
        except (aiohttp.ClientError, asyncio.TimeoutError, UnicodeDecodeError) as error:
            raise NotThere("the node does not answer: %s" % (str(error) or type(error).__name__)) from error
        if status == 401:
            raise NotThere("the node refuses the name and the password (status 401)")
        if status == STATUS_OF_BUSY or text.startswith(SAID_BY_BUSY):
            raise Busy("the node is busy (status %d)" % status)
        try:
            return await off_loop(len(text) > LONG_TEXT, read, text)
        except ValueError as error:
            raise Unusable("the node's answer is no JSON (status %d): %s" % (status, text[:100])) from error

    def _auth(self) -> Optional[aiohttp.BasicAuth]:
        """What the node is told. The file is read each time: it is short, and the node may have started anew."""
        if self._cookie is None:
            return self._login
        try:
            name, _, password = self._cookie.read_text().strip().partition(":")
        except OSError as error:
            raise NotThere("the cookie can't be read: %s: %s" % (self._cookie, error.strerror)) from error
        return aiohttp.BasicAuth(name, password)


def _unlike(what: str, answer: Any) -> Unusable:
    return Unusable("the node answers %s by %s" % (what, json.dumps(answer, default=str)[:100]))


def _result(answer: Any, call: dict[str, Any]) -> Any:
    """What an answer has for its call; a refusal is given back."""
    if not isinstance(answer, dict) or answer.get("id") != call["id"] or ("result" not in answer and "error" not in answer):
        if isinstance(answer, dict) and isinstance(answer.get("error"), dict):
            return _refused(answer["error"])
        raise _unlike(call["method"], answer)
    error = answer.get("error")
    if error is None:
        return answer["result"]
    if not isinstance(error, dict):
        raise _unlike(call["method"], answer)
    return _refused(error)


def _refused(error: dict[str, Any]) -> Refused:
    if error.get("code") == WARMING_UP:
        raise NotThere("the node is starting: %s" % error.get("message"))
    found = Refused(str(error.get("message")))
    found.code = error.get("code")
    return found
