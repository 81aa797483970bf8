"""Where a node's answers come from: the node itself, asked by its command, or a recording of what it answered."""

from __future__ import annotations

import decimal
import json
import os
import shlex
import subprocess
import sys
from typing import Any, Iterator, Optional, Protocol, Sequence

TEXTS = ("getblockhash", "getbestblockhash", "getrawtransaction")
SHOWN_EACH = 1000


class Unusable(Exception):
    """What keeps a node's answers from being used, in one line."""


class Refused(Exception):
    """The node answered by an error, whose code is known if the node was asked by RPC."""

    code: Optional[int] = None


class Source(Protocol):
    """Whoever answers as a node does."""

    def ask(self, method: str, *params: Any) -> Any:
        """The answer to one question; Refused if it is an error."""

    def ask_all(self, method: str, each: Sequence[Sequence[Any]]) -> list[Any]:
        """The answer to each of these parameters, or the Refused in its place."""


def read_json(text: str) -> Any:
    """Amounts stay decimal, so that no satoshi is lost."""
    return json.loads(text, parse_float=decimal.Decimal)


def progress(what: str, count: int, whole: int) -> None:
    """Says on standard error how far the node was asked, after each thousand questions."""
    if count % SHOWN_EACH == 0 and count:
        print("%s: %d of %d" % (what, count, whole), file=sys.stderr, flush=True)


class OneByOne:
    """A node that takes one question at a time."""

    def ask(self, method: str, *params: Any) -> Any:
        raise NotImplementedError

    def ask_all(self, method: str, each: Sequence[Sequence[Any]]) -> list[Any]:
        found: list[Any] = []
        for params in each:
            progress(method, len(found), len(each))
            try:
                found.append(self.ask(method, *params))
            except Refused as error:
                found.append(error)
        return found


class RunningNode(OneByOne):
    """A node that is asked by a command. Parameters go by standard input, since a transaction may be too long for a word."""

    def __init__(self, command: str) -> None:
        self.words = shlex.split(command)

    def ask(self, method: str, *params: Any) -> Any:
        lines = "".join((it if isinstance(it, str) else json.dumps(it)) + "\n" for it in params)
        try:
            done = subprocess.run([*self.words, "-stdin", method], input=lines, capture_output=True, text=True, check=False)
        except OSError as error:
            raise Unusable("%s does not start: %s" % (self.words[0], error.strerror)) from error
        if done.returncode and "error code:" in done.stderr:
            raise Refused(done.stderr.strip().replace("\n", " "))
        if done.returncode:
            raise Unusable("%s %s: %s" % (self.words[0], method, done.stderr.strip() or "status %d" % done.returncode))
        answer = done.stdout.strip()
        if not answer:
            return None
        return answer if method in TEXTS else read_json(answer)


class RecordedNode(OneByOne):
    """A node whose answers stand in a file, or in the files of a folder."""

    def __init__(self, path: str) -> None:
        self.answers: dict[str, dict[str, Any]] = {}
        for name in _files(path):
            with open(name, encoding="utf-8") as lines:
                for call in map(read_json, lines):
                    if "method" in call:
                        self.answers[_key_of(call["method"], call["params"])] = call

    def ask(self, method: str, *params: Any) -> Any:
        call = self.answers.get(_key_of(method, params))
        if call is None:
            raise Unusable("the recording has no answer to %s" % _key_of(method, params)[:200])
        if call.get("error"):
            raise Refused(call["error"].get("message", ""))
        return call["result"]


def _files(path: str) -> Iterator[str]:
    if not os.path.isdir(path):
        yield path
        return
    for it in sorted(os.listdir(path)):
        yield os.path.join(path, it)


def _key_of(method: str, params: Sequence[Any]) -> str:
    return json.dumps([method, *params])


class Recorder(OneByOne):
    """A node whose answers are written down as they come, for a recording."""

    def __init__(self, node: Source, path: str) -> None:
        self.node, self.file = node, open(path, "w", encoding="utf-8")

    def ask(self, method: str, *params: Any) -> Any:
        call: dict[str, Any] = {"method": method, "params": params}
        try:
            call["result"] = self.node.ask(method, *params)
            return call["result"]
        except Refused as error:
            call["error"] = {"message": str(error)}
            raise
        finally:
            if len(call) == 3:
                self.file.write(json.dumps(call, separators=(",", ":"), default=float) + "\n")
