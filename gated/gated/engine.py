"""The gate itself: the library, or its program as a child. Both take a line and give its reply."""

from __future__ import annotations

import contextlib
import logging
import os
import select
import shutil
import subprocess
import time
from dataclasses import dataclass
from typing import TYPE_CHECKING, Callable, Optional, Protocol, Sequence

from . import beside
from .faults import CannotFollow

if TYPE_CHECKING:
    import gate

log = logging.getLogger("gated")

# seconds that a child may take for a reply; for an opening it has more, the longer that is
REPLY_SECONDS = 60.0
OPENING_BYTES_A_SECOND = 100_000
# seconds that a child may take to end once its input has
END_SECONDS = 2.0
CHUNK = 65_536
# what the gate itself says of an operator's lines needs some chain
SOME_CHAIN = "times 101 1000 600"


class Engine(Protocol):
    def open(self, opening: str) -> None:
        """Opens the gate; OpeningRefused if it doesn't take the opening."""

    def answer(self, line: str) -> str:
        """The reply to a line, with its newline; nothing if the line asks for nothing."""

    def stop(self) -> None:
        """Ends what is at work, so that its call fails. Another thread may call it."""

    def close(self) -> None:
        """Ends the gate."""


class OpeningRefused(CannotFollow):
    """The gate doesn't take the opening; the message is its line."""


def _refused(said: str, opening: str) -> OpeningRefused:
    """What the gate says of an opening, with the line that it names."""
    words, lines = said.split(" "), opening.split("\n")
    number = int(words[1]) if len(words) > 1 and words[1].isdecimal() else 0
    line = lines[number - 1][:200] if 0 < number <= len(lines) else ""
    return OpeningRefused("the gate refuses the opening: %s%s" % (said, ": " + line if line else ""))


class NoGate(Exception):
    """Neither the library nor the program is there, or it can never be opened by these settings."""


class Ended(CannotFollow):
    """The gate is gone, and its state with it."""


class Unanswered(CannotFollow):
    """The gate gave no reply to a line, and nothing has changed."""


class LibraryGate:
    """The library in this process."""

    def __init__(self) -> None:
        beside.load_library()
        self._gate: Optional[gate.Gate] = None

    def open(self, opening: str) -> None:
        import gate

        try:
            self._gate = gate.Gate(opening)
        except gate.OpeningRefused as error:
            raise _refused(str(error), opening) from error
        except gate.GateError as error:
            raise Ended("the library fails: %s" % error) from error

    def answer(self, line: str) -> str:
        import gate

        assert self._gate is not None
        try:
            return self._gate.answer(line)
        except gate.ReplyKept:
            return self._reply()
        except (gate.LineTooLong, gate.OutOfMemory) as error:
            raise Unanswered(str(error)) from error
        except gate.GateError as error:
            raise Ended("the library fails: %s" % error) from error

    def _reply(self) -> str:
        """The reply to a line that has been answered, and so has to have its entry in the journal."""
        import gate

        assert self._gate is not None
        try:
            return self._gate.reply()
        except gate.GateError as error:
            raise Ended("a reply can't be had: %s" % error) from error

    def stop(self) -> None:
        """Nothing stops a call of the library: each of them ends by itself."""

    def close(self) -> None:
        if self._gate is not None:
            self._gate.close()


class ChildGate:
    """`gate run` as a child process. One that gives no reply in time is killed."""

    # a longer line would end the child's run (L2)
    LONGEST = 16_777_216

    def __init__(self, program: str, seconds: float = REPLY_SECONDS) -> None:
        self._seconds = seconds
        try:
            # in a session of its own: what a terminal sends to all that runs there ends gated, which answers whoever waits before
            self._child = subprocess.Popen([program, "run"], stdin=subprocess.PIPE, stdout=subprocess.PIPE, bufsize=0, start_new_session=True)
        except OSError as error:
            raise Ended("%s does not start: %s" % (program, error.strerror)) from error
        assert self._child.stdin is not None and self._child.stdout is not None
        self._stdin, self._stdout = self._child.stdin, self._child.stdout
        os.set_blocking(self._stdin.fileno(), False)
        os.set_blocking(self._stdout.fileno(), False)

    def open(self, opening: str) -> None:
        self._put(opening + "---\n")
        # a comment gets no reply; this line does, and is no event
        first = self._replied("is it open", self._seconds + len(opening) / OPENING_BYTES_A_SECOND)
        if first != "refused L1 bad-line\n":
            raise _refused(first.rstrip("\n"), opening)

    def _waited(self, pipe: int, event: int, until: float) -> None:
        """Waits until a pipe is ready, or kills the child when it is too late."""
        poll = select.poll()
        poll.register(pipe, event)
        if not poll.poll(max(0.0, until - time.monotonic()) * 1000):
            self.stop()
            raise Ended("the gate's process gave no reply in time, and was ended")

    def _put(self, text: str) -> None:
        """Writes a text. The child may take its time for each piece of it."""
        rest = memoryview(text.encode())
        while rest:
            try:
                rest = rest[os.write(self._stdin.fileno(), rest[:CHUNK]) :]
            except BlockingIOError:
                self._waited(self._stdin.fileno(), select.POLLOUT, time.monotonic() + self._seconds)
            except BrokenPipeError:
                # it has ended: the reply says so
                return

    def _replied(self, line: str, seconds: float) -> str:
        self._put(line + "\n")
        until, pieces = time.monotonic() + seconds, [b""]
        while not pieces[-1].endswith(b"\n"):
            self._waited(self._stdout.fileno(), select.POLLIN, until)
            pieces.append(os.read(self._stdout.fileno(), CHUNK))
            if not pieces[-1]:
                raise Ended("the gate's process ended with status %s" % self._child.wait())
        return b"".join(pieces).decode()

    def answer(self, line: str) -> str:
        if not line or line.startswith("#"):
            return ""
        if len(line.encode()) > self.LONGEST:
            raise Unanswered("the line is too long")
        return self._replied(line, self._seconds)

    def stop(self) -> None:
        self._child.kill()

    def close(self) -> None:
        self._stdin.close()
        try:
            self._child.wait(END_SECONDS)
        except subprocess.TimeoutExpired:
            self._child.kill()
            self._child.wait()
        self._stdout.close()


Opener = Callable[[], Engine]


@dataclass(frozen=True)
class ChildOpener:
    """Opens gates as children."""

    program: str
    seconds: float

    def __call__(self) -> Engine:
        return ChildGate(self.program, self.seconds)


def opener(program: Optional[str], is_child: bool, seconds: float = REPLY_SECONDS) -> Opener:
    """What opens gates: the library, or the program as a child if that is asked for, or if there is no library. NoGate if
    neither is there."""
    found = shutil.which(program or "gate")
    if not is_child:
        why = _no_library()
        if why is None:
            return LibraryGate
        if found is None:
            raise NoGate("the library is not there (%s): make lib builds it, or --gate PROGRAM takes the program as a child" % why)
        log.info("the library is not there (%s): the gate is %s as a child", why, found)
    if found is None:
        raise NoGate("%s is no program" % (program or "gate"))
    return ChildOpener(found, seconds)


def kind_of(opens: Opener) -> str:
    """Which gate it opens."""
    return "%s as a child" % opens.program if isinstance(opens, ChildOpener) else "the library in this process"


def _no_library() -> Optional[str]:
    """Why the library can't be used; None if it can."""
    try:
        beside.load_library()
        from gate.library import library

        library()
        return None
    except (ImportError, OSError, AttributeError) as error:
        return str(error)


def check(opens: Opener, lines: Sequence[str]) -> None:
    """Opens a gate with an operator's own lines and closes it again. What is refused here no node can make right: NoGate."""
    try:
        with contextlib.closing(opens()) as engine:
            engine.open("".join(line + "\n" for line in (SOME_CHAIN, *lines)))
    except CannotFollow as error:
        raise NoGate(str(error)) from error
