"""gate for Python: the admission gate of a Bitcoin node's mempool, in the process, by `ctypes`.

    import gate

    with gate.Gate("times 101 1000 600\\nverdict * ok\\n") as pool:
        print(pool.ask("peer 1 enter 192.0.2.1").flags)

The shared library is `libgate_c.so.0` where the variable GATE_LIBRARY says, or in this package (as in a wheel), or in `lib`
of the prefix that this package is installed in, or where the system looks for libraries. Reply lines are parsed without it.
"""

from __future__ import annotations

import ctypes
import json
import secrets
import threading
from typing import Any, Callable, NamedTuple, Optional, Union

from .changes import Changes
from .library import EventHandle, Handle, Keys, Status, library
from .replies import Fate, Kind, Member, NotAReply, Reply, Then

__all__ = [
    "Changes",
    "Check",
    "Event",
    "Fate",
    "Gate",
    "GateError",
    "Kind",
    "LineTooLong",
    "Member",
    "NotAReply",
    "NotOpen",
    "OpeningRefused",
    "OutOfMemory",
    "Reply",
    "ReplyKept",
    "Status",
    "Then",
    "check",
    "version",
]

Text = Union[str, bytes]


class GateError(Exception):
    """A call that gave no text. Its status is one of Status, or a number that a library of another version has."""

    status: int

    def __init__(self, status: int, what: str) -> None:
        super().__init__(what)
        self.status = status


class NotOpen(GateError):
    """The gate is closed, or the event is."""


class OpeningRefused(GateError):
    """The opening has a fault, which is at this line of it and has this token; the message is `opening LINE TOKEN`."""

    line: int
    token: str

    def __init__(self, status: int, what: str) -> None:
        super().__init__(status, what)
        _, line, self.token = what.split(" ", 2)
        self.line = int(line)


class LineTooLong(GateError):
    """The line has more than 16,777,216 bytes, and nothing has changed."""


class OutOfMemory(GateError, MemoryError):
    """Nothing has changed."""


class ReplyKept(GateError, MemoryError):
    """The line is answered, and memory ran out in the text of its reply, which `Gate.reply` gives."""


class Check(NamedTuple):
    """What `gate check -` prints, and whether the transaction is standard."""

    is_standard: bool
    lines: str


_FAULTS: dict[int, tuple[type[GateError], str]] = {
    Status.OUT_OF_MEMORY: (OutOfMemory, "out of memory"),
    Status.NOT_OPEN: (NotOpen, "the gate or the event is closed"),
    Status.LINE_TOO_LONG: (LineTooLong, "the line is too long"),
    Status.REPLY_KEPT: (ReplyKept, "out of memory in the text of a reply"),
}
_ROOM = 256


class _Buffer:
    """A buffer that grows to the greatest text that was put into it."""

    def __init__(self) -> None:
        self._out = ctypes.create_string_buffer(_ROOM)
        self._size = ctypes.c_size_t()

    def _call(self, call: Callable[..., int], *given: Any) -> int:
        return call(*given, self._out, len(self._out), ctypes.byref(self._size))

    def fill(self, call: Callable[..., int], *given: Any, again: Optional[tuple[Any, ...]] = None) -> tuple[int, bytes]:
        """The status and the text of a call, or of the one that repeats it in a greater buffer."""
        status = self._call(call, *given)
        if status == Status.BUFFER_TOO_SMALL:
            self._out = ctypes.create_string_buffer(self._size.value)
            status = self._call(*(again or (call, *given)))
        return status, ctypes.string_at(self._out, self._size.value)


def _bytes(text: Text) -> bytes:
    return text.encode() if isinstance(text, str) else bytes(text)


def _fault_of(status: int) -> GateError:
    fault, what = _FAULTS.get(status, (GateError, "status %d" % status))
    return fault(status, what)


def _text_of(status: int, text: bytes, is_done: bool) -> str:
    """The text, if the call gave one."""
    if is_done:
        return text.decode()
    raise _fault_of(status)


class Event:
    """What a line asks for, read before a gate is asked: a transaction in it is decoded and hashed, and the rules on it alone
    are tested. Threads read at the same time. Any number of gates may be asked by one event, which stays as it is."""

    def __init__(self, line: Text) -> None:
        self._library = library()
        self._handle, self._lock = EventHandle(), threading.Lock()
        text = _bytes(line)
        status = self._library.gate_read(ctypes.byref(self._handle), text, len(text))
        if status != Status.DONE:
            raise _fault_of(status)

    def __del__(self) -> None:
        if hasattr(self, "_lock"):
            self._library.gate_event_close(ctypes.byref(self._handle))


class Gate:
    """A gate from its opening on. Threads may share it: it serves one call at a time."""

    def __init__(self, opening: Text, keys: Optional[tuple[int, int]] = None) -> None:
        self._library = library()
        self._handle, self._buffer, self._lock = Handle(), _Buffer(), threading.Lock()
        text = _bytes(opening)
        first, second = keys or (secrets.randbits(64), secrets.randbits(64))
        status, line = self._buffer.fill(
            self._library.gate_open, ctypes.byref(self._handle), ctypes.byref(Keys(first, second)), text, len(text)
        )
        if status == Status.OPENING_REFUSED:
            raise OpeningRefused(status, line.decode().rstrip("\n"))
        _text_of(status, line, status == Status.DONE)

    def ask(self, line: Union[Text, Event]) -> Optional[Reply]:
        """The reply to a line, in its parts; None where the line asks for nothing. The line may have been read beforehand."""
        text = self.answer(line)
        return Reply.parse(text) if text else None

    def answer(self, line: Union[Text, Event]) -> str:
        """The reply to a line as text, with its newline; nothing where the line asks for nothing."""
        if isinstance(line, Event):
            with line._lock:
                return self._answer(self._library.gate_answer_event, ctypes.byref(line._handle))
        text = _bytes(line)
        return self._answer(self._library.gate_answer, text, len(text))

    def _answer(self, call: Callable[..., int], *given: Any) -> str:
        handle = ctypes.byref(self._handle)
        with self._lock:
            status, reply = self._buffer.fill(call, handle, *given, again=(self._library.gate_reply, handle))
        return _text_of(status, reply, status == Status.DONE)

    def copy(self) -> Gate:
        """A second gate with the same state and the same last reply. Both answer alike from then on, and neither knows what the
        other is asked."""
        made = Gate.__new__(Gate)
        made._library = self._library
        made._handle, made._buffer, made._lock = Handle(), _Buffer(), threading.Lock()
        with self._lock:
            status = self._library.gate_copy(ctypes.byref(self._handle), ctypes.byref(made._handle))
        if status != Status.DONE:
            raise _fault_of(status)
        return made

    def reply(self) -> str:
        """The reply to the last line once more."""
        with self._lock:
            status, reply = self._buffer.fill(self._library.gate_reply, ctypes.byref(self._handle))
        return _text_of(status, reply, status == Status.DONE)

    def changes(self) -> Changes:
        """What the last line moved in the pool. What left and came back by one line is in neither list. Nothing has moved in a
        gate that was opened or copied just now, nor by a line that is no event or was not answered."""
        with self._lock:
            status, lines = self._buffer.fill(self._library.gate_changes, ctypes.byref(self._handle))
        return Changes.parse(_text_of(status, lines, status == Status.DONE))

    def explain(self, line: int = 1) -> None:
        """Lets the gate explain its lines from the next one on, which gets this number; 0 lets it explain none. No reply depends
        on it."""
        with self._lock:
            status = self._library.gate_explain(ctypes.byref(self._handle), line)
        if status != Status.DONE:
            raise _fault_of(status)

    def explanation(self) -> Optional[dict[str, Any]]:
        """What is said of the reply to the last line, an object of JSON; None where nothing is said. If memory ran out in it,
        OutOfMemory is raised; the line is answered all the same."""
        with self._lock:
            status, text = self._buffer.fill(self._library.gate_explanation, ctypes.byref(self._handle))
        told = _text_of(status, text, status == Status.DONE)
        found: Optional[dict[str, Any]] = json.loads(told) if told else None
        return found

    @property
    def is_open(self) -> bool:
        return bool(self._handle.is_open)

    def close(self) -> None:
        with self._lock:
            self._library.gate_close(ctypes.byref(self._handle))

    def __enter__(self) -> Gate:
        return self

    def __exit__(self, *_: object) -> None:
        self.close()

    def __del__(self) -> None:
        if hasattr(self, "_lock"):
            self.close()


def check(digits: Text) -> Check:
    """Checks by itself the transaction that a text of hexadecimal has."""
    text = _bytes(digits)
    status, lines = _Buffer().fill(library().gate_check, text, len(text))
    return Check(status == Status.DONE, _text_of(status, lines, status in (Status.DONE, Status.DENIED)))


def version() -> str:
    status, text = _Buffer().fill(library().gate_version)
    return _text_of(status, text, status == Status.DONE)
