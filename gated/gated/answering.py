"""The door for callers: JSON-RPC over HTTP as bitcoind speaks it, one call or a batch of them."""

from __future__ import annotations

import logging
from typing import Any, Callable, Optional

from aiohttp import web

from . import forms
from .announcements import Lost
from .calls import Answer, Calls, failed
from .client import NotThere, off_loop
from .door import connection_of
from .engine import Ended, OpeningRefused, Unanswered
from .forms import Call, Fault
from .journal import JournalFailed
from .keeper import Closed, Full
from .node import Refused, Unusable
from .users import Guesses, Users

log = logging.getLogger("gated")

MOST_CALLS = 1_000
# characters of a batch's answer behind which its further calls are not made
MOST_ANSWERED = 67_108_864
JSON_TYPE = "application/json"
# what callers are told; the log says more, which may be of somebody else's transactions
OPENING = "The gate is being opened from its node: try again"
WAITING = "The gate waits for its node: try again"
UNUSABLE = "An answer of the node or the gate can't be used: gated's log says more"
TOO_LONG = "The answer of this batch is too long: at most %d characters, and the call behind them is not made" % MOST_ANSWERED
QUEUE_FULL = "Work queue depth exceeded"


class Answering:
    """Takes requests, finds out who calls, and writes answers."""

    def __init__(self, calls: Calls, users: Users, body: int, count: Callable[[str], None]) -> None:
        self._calls, self._users, self._body, self._count = calls, users, body, count
        self._guesses = Guesses()

    def app(self) -> web.Application:
        # aiohttp refuses what reaches its bound
        found = web.Application(client_max_size=self._body + 1)
        found.router.add_route("*", "/{rest:.*}", self._guarded)
        return found

    async def _guarded(self, request: web.Request) -> web.StreamResponse:
        """An answer, whatever happens: a fault of gated's own is said in the log, and is status 500."""
        try:
            return await self._handled(request)
        except web.HTTPException:
            raise
        except Exception:
            log.exception("a request could not be answered")
            return web.Response(status=500, text="a fault of gated: its log says more\n")

    async def _handled(self, request: web.Request) -> web.StreamResponse:
        if request.method != "POST":
            return web.Response(status=405, text="JSONRPC server handles only POST requests\n", headers={"Allow": "POST"})
        if request.path != "/":
            return web.Response(status=404, text="the calls are at /\n")
        connection, address = connection_of(request), request.remote or ""
        is_known = connection is not None and connection.is_known
        if not is_known and self._guesses.are_many(address):
            return web.Response(status=429, text="too many wrong passwords from %s: try again later\n" % address)
        user = self._users.user_of(request.headers.get("Authorization"))
        if user is None:
            await self._guesses.wrong(address)
            return web.Response(status=401, headers={"WWW-Authenticate": 'Basic realm="jsonrpc"'})
        if connection is not None:
            connection.is_known = True
        try:
            # a body past the bound is answered by 413 here
            body = await request.read()
        except (web.RequestPayloadError, ConnectionError):
            # what its sender has cut
            return web.Response(status=400, text="the body is not whole\n")
        try:
            return await self._replied(request, user, forms.read_json(body.decode()))
        except ValueError:
            return await self._response(Call(), failed(Fault(forms.PARSE_ERROR, "Parse error")))
        except Full:
            return web.Response(status=503, text=QUEUE_FULL + "\n")

    async def _replied(self, request: web.Request, user: str, value: Any) -> web.Response:
        if not isinstance(value, list):
            call, answer = await self._single(user, value, is_alone=True)
            return await self._response(call, answer)
        if len(value) > MOST_CALLS:
            return await self._response(Call(), failed(Fault(forms.INVALID_REQUEST, "a batch has at most %d calls" % MOST_CALLS)))
        texts: list[str] = []
        length = 0
        for it in value:
            if request.transport is None or request.transport.is_closing():
                # nobody waits for the rest
                return web.Response(status=204)
            if length > MOST_ANSWERED:
                call, answer = forms.answered_as(it), failed(Fault(forms.MISC_ERROR, TOO_LONG))
            else:
                call, answer = await self._single(user, it, is_alone=False)
            if not call.is_notification:
                texts.append(await _printed(call, answer))
                length += len(texts[-1])
        if value and not texts:
            return web.Response(status=204)
        return web.Response(text="[%s]\n" % ",".join(texts), content_type=JSON_TYPE)

    async def _response(self, call: Call, answer: Answer) -> web.Response:
        if call.is_notification:
            return web.Response(status=204)
        text = await _printed(call, answer)
        return web.Response(status=200 if call.is_2 else answer.status, text=text + "\n", content_type=JSON_TYPE)

    async def _single(self, user: str, value: Any, is_alone: bool) -> tuple[Call, Answer]:
        """One call, and its answer; Full for one that is no part of a batch and can have a status of its own."""
        call = forms.answered_as(value)
        try:
            call = forms.call_of(value)
            answer = await self._calls.answer(user, call)
        except Fault as fault:
            answer = failed(fault)
        except forms.TooDeep:
            answer = failed(Fault(forms.PARSE_ERROR, "Parse error"))
        except Full:
            if is_alone and not call.is_2:
                raise
            answer = failed(Fault(forms.MISC_ERROR, QUEUE_FULL))
        except (Closed, Ended, OpeningRefused, JournalFailed, Lost) as error:
            log.debug("not answered: %s", error)
            answer = failed(Fault(forms.IN_WARMUP, OPENING))
        except NotThere as error:
            log.debug("not answered: %s", error)
            answer = failed(Fault(forms.IN_WARMUP, WAITING))
        except (Unusable, Refused, Unanswered) as error:
            log.warning("a call could not be answered: %r", str(error)[:300])
            answer = failed(Fault(forms.MISC_ERROR, UNUSABLE))
        except Exception:
            # the other calls of a batch have their answers
            log.exception("a call could not be answered")
            answer = failed(Fault(forms.MISC_ERROR, UNUSABLE))
        self._count(_outcome_of(call, answer))
        return call, answer


def _outcome_of(call: Call, answer: Answer) -> str:
    """What an answer is counted as: the rule that denies, or else the code or the reason; `ok` if nothing does."""
    if answer.error is not None:
        return str(answer.error.get("rule", answer.error["code"]))
    if call.method == "testmempoolaccept" and len(answer.result) == 1 and not answer.result[0]["allowed"]:
        return str(answer.result[0].get("rule", answer.result[0]["reject-reason"]))
    if call.method == "submitpackage":
        rules = [it["rule"] for it in (answer.result, *answer.result["tx-results"].values()) if "rule" in it]
        return str(rules[0]) if rules else "ok"
    return "ok"


async def _printed(call: Call, answer: Answer) -> str:
    """The text of an answer, by the version of its call."""
    id: Any = forms.Number(call.id)
    value: dict[str, Optional[Any]] = {"result": answer.result, "error": answer.error, "id": id}
    if call.is_2:
        said = {"error": answer.error} if answer.error is not None else {"result": answer.result}
        value = {"jsonrpc": "2.0", **said, "id": id}
    try:
        return await off_loop(answer.is_long, forms.text_of, value)
    except forms.TooDeep:
        return await _printed(call, failed(Fault(forms.MISC_ERROR, UNUSABLE)))
