"""The calls of the shared library, which is loaded when the first of them is made."""

from __future__ import annotations

import ctypes
import enum
import functools
import os
from typing import Any

NAME = "libgate_c.so.0"


class Status(enum.IntEnum):
    """How a call ends."""

    DONE = 0
    DENIED = 1
    BUFFER_TOO_SMALL = 2
    OUT_OF_MEMORY = 3
    NOT_OPEN = 4
    ALREADY_OPEN = 5
    OPENING_REFUSED = 6
    LINE_TOO_LONG = 7
    REPLY_KEPT = 8


class Handle(ctypes.Structure):
    _fields_ = [("session", ctypes.c_void_p), ("is_open", ctypes.c_bool)]


class EventHandle(ctypes.Structure):
    _fields_ = [("reading", ctypes.c_void_p), ("is_open", ctypes.c_bool)]


class Keys(ctypes.Structure):
    _fields_ = [("first", ctypes.c_uint64), ("second", ctypes.c_uint64)]


def _path() -> str:
    """Where the variable GATE_LIBRARY says, beside this file, below the prefix that this file is installed in, or where the
    system looks for libraries."""
    here, named = os.path.dirname(os.path.abspath(__file__)), os.environ.get("GATE_LIBRARY")
    if named:
        return named
    places = [os.path.join(here, NAME), os.path.join(here, "..", "..", "..", "..", "lib", NAME)]
    return next((it for it in places if os.path.exists(it)), NAME)


def _parameters() -> list[tuple[str, list[Any]]]:
    """The calls that give a status, each with what it is given; a text is put into a buffer, which has room, with its size."""
    handle, event, text, count = ctypes.POINTER(Handle), ctypes.POINTER(EventHandle), ctypes.c_char_p, ctypes.c_size_t
    buffer = [text, count, ctypes.POINTER(count)]
    return [
        ("gate_open", [handle, ctypes.POINTER(Keys), text, count, *buffer]),
        ("gate_answer", [handle, text, count, *buffer]),
        ("gate_reply", [handle, *buffer]),
        ("gate_changes", [handle, *buffer]),
        ("gate_explain", [handle, ctypes.c_uint64]),
        ("gate_explanation", [handle, *buffer]),
        ("gate_copy", [handle, handle]),
        ("gate_read", [event, text, count]),
        ("gate_answer_event", [handle, event, *buffer]),
        ("gate_check", [text, count, *buffer]),
        ("gate_version", [*buffer]),
    ]


@functools.lru_cache(maxsize=None)
def library() -> ctypes.CDLL:
    """The library with its calls declared. Raises OSError if it is not found."""
    loaded = ctypes.CDLL(_path())
    for name, given in _parameters():
        call = getattr(loaded, name)
        call.argtypes, call.restype = given, ctypes.c_uint32
    loaded.gate_close.argtypes, loaded.gate_close.restype = [ctypes.POINTER(Handle)], None
    loaded.gate_event_close.argtypes, loaded.gate_event_close.restype = [ctypes.POINTER(EventHandle)], None
    return loaded
