"""The log: a line for each thing that is said. What a node or a caller wrote is in it as it is printed in Python, so that no
line can be forged and no control character reaches a terminal."""

from __future__ import annotations

import logging
import re
from typing import Any

CONTROL = re.compile(r"[\x00-\x1f\x7f-\x9f\u2028\u2029\ud800-\udfff]")


def quoted(text: str) -> str:
    """The same text in one line, with control characters as escapes."""
    return CONTROL.sub(lambda it: it[0].encode("unicode_escape", "surrogatepass").decode(), text)


class OneLine(logging.Formatter):
    """Prints a message in one line. The traceback of a fault of gated follows in lines of its own, which are indented."""

    def formatMessage(self, record: logging.LogRecord) -> str:
        record.message = quoted(record.message)
        return super().formatMessage(record)

    def formatException(self, ei: Any) -> str:
        return "\n".join("    " + quoted(line) for line in super().formatException(ei).split("\n"))


def begin(is_verbose: bool) -> None:
    """Sends the log to standard error."""
    handler = logging.StreamHandler()
    handler.setFormatter(OneLine("%(asctime)s %(levelname)s %(message)s"))
    logging.basicConfig(level=logging.DEBUG if is_verbose else logging.INFO, handlers=[handler])
    logging.getLogger("aiohttp.access").setLevel(logging.WARNING)
    # what a client sends wrongly is answered, and is no fault to be said for each
    logging.getLogger("aiohttp.server").setLevel(logging.CRITICAL)
