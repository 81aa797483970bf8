"""The journal: every line that the gate was given, and its reply, in files that `gate audit` reads.

A segment begins with an opening and ends with its last whole entry. It is on the disk before a reply goes out. Nobody but its
owner may read it: it has signed transactions that were only tried, and who asked.
"""

from __future__ import annotations

import contextlib
import fcntl
import logging
import os
import re
import subprocess
from dataclasses import dataclass
from pathlib import Path
from typing import IO, Iterator, Optional, cast

from .faults import CannotFollow

log = logging.getLogger("gated")

NAME = re.compile(r"gate-(\d{6,})\.journal")
# a segment that isn't there as a whole yet
NEW = ".new"
# a round of `gate audit`, behind which a line of its base stands
ROUND = 100_000
# replies of lines that changed nothing and have no entry
NO_EVENT = ("", "refused L1 bad-line\n")
OWN_FOLDER, OWN_FILE = 0o700, 0o600


class JournalFailed(CannotFollow):
    """The journal can't be written, so no reply may go out."""


@dataclass(frozen=True)
class Bounds:
    """How much a journal may have."""

    # entries and bytes of a segment behind those that its opening leads with
    entries: int = 50_000
    bytes: int = 2_147_483_648
    # bytes of all segments together, past which the oldest are deleted; 0 keeps all
    whole: int = 0


class Journal:
    """Writes segments into a folder, one after another. The folder is locked: it has one writer."""

    def __init__(self, folder: Path, bounds: Bounds = Bounds()) -> None:
        self._folder, self._bounds = folder, bounds
        self._file: Optional[IO[bytes]] = None
        self._path: Optional[Path] = None
        self._synced = 0
        self.entries = 0
        # entries and bytes that the opening of the segment leads with
        self._led = (0, 0)
        try:
            folder.mkdir(parents=True, exist_ok=True, mode=OWN_FOLDER)
            self._lock = os.open(folder, os.O_RDONLY | os.O_DIRECTORY)
            fcntl.flock(self._lock, fcntl.LOCK_EX | fcntl.LOCK_NB)
            # what a crash or a full disk left of a segment that never was one
            for it in folder.glob("gate-*" + NEW):
                it.unlink()
        except BlockingIOError as error:
            raise JournalFailed("%s: another gated writes its journal there" % folder) from error
        except OSError as error:
            raise JournalFailed("%s: %s" % (folder, error.strerror)) from error

    @property
    def path(self) -> Optional[Path]:
        """The segment that is written now, or was last."""
        return self._path

    @property
    def size(self) -> int:
        """Bytes of the segment."""
        return self._file.tell() if self._file is not None else 0

    @property
    def is_full(self) -> bool:
        """Whether the segment has as much as it may have."""
        return self.entries - self._led[0] >= self._bounds.entries or self.size - self._led[1] >= self._bounds.bytes

    def begin(self, opening: str, about: str) -> None:
        """A new segment, which is there as a whole or not at all, and takes no other one's place."""
        self.close()
        self.entries, self._synced, self._led = 0, 0, (0, 0)
        try:
            self._path = self._next()
            new = self._path.with_suffix(NEW)
            self._file = open(os.open(new, os.O_WRONLY | os.O_CREAT | os.O_EXCL, OWN_FILE), "wb")
            try:
                self._write("# %s\n%s---\n" % (about, opening))
                self.sync()
                os.link(new, self._path)
            finally:
                new.unlink()
            _sync_folder(self._folder)
        except OSError as error:
            self._failed(error)
        self._delete_oldest()

    def led(self) -> None:
        """What was written so far is what the segment's opening leads with."""
        self._led = (self.entries, self.size)

    def entry(self, line: str, reply: str) -> None:
        """Writes one entry, if the line was an event."""
        if self._file is None:
            raise JournalFailed("no segment is open")
        if reply in NO_EVENT:
            return
        try:
            if self.entries and self.entries % ROUND == 0:
                self._write("base %d\n" % self.entries)
            self._write("> %s\n< %s" % (line, reply))
        except OSError as error:
            self._failed(error)
        self.entries += 1

    def sync(self) -> None:
        """Puts what was written on the disk."""
        if self._file is None:
            return
        try:
            self._file.flush()
            os.fdatasync(self._file.fileno())
            self._synced = self._file.tell()
        except OSError as error:
            self._failed(error)

    def close(self) -> None:
        if self._file is not None:
            self.sync()
        if self._file is not None:
            self._file.close()
            self._file = None

    def unlock(self) -> None:
        """Leaves the folder to another writer."""
        os.close(self._lock)

    def _next(self) -> Path:
        number = max((_number(it) for it in segments(self._folder)), default=0) + 1
        return self._folder / ("gate-%06d.journal" % number)

    def _write(self, text: str) -> None:
        cast(IO[bytes], self._file).write(text.encode())

    def _failed(self, error: OSError) -> None:
        """Leaves the segment as it was last on the disk."""
        file, self._file = self._file, None
        if file is not None:
            number = os.dup(file.fileno())
            with contextlib.suppress(OSError):
                # closing writes what is buffered, which may fail as what came before did
                file.close()
            with contextlib.suppress(OSError):
                os.ftruncate(number, self._synced)
            os.close(number)
        raise JournalFailed("%s: %s" % (self._path or self._folder, error.strerror)) from error

    def _delete_oldest(self) -> None:
        """Deletes whole segments, the oldest first, while all have more bytes than they may have together."""
        if not self._bounds.whole:
            return
        try:
            sizes = {it: it.stat().st_size for it in segments(self._folder)}
            for it in list(sizes)[:-1]:
                if sum(sizes.values()) <= self._bounds.whole:
                    return
                it.unlink()
                log.info("deleted %s: all of the journal has at most %d bytes", it, self._bounds.whole)
                del sizes[it]
        except OSError as error:
            log.error("an old segment can't be deleted: %s: %s", error.filename, error.strerror)


def _number(path: Path) -> int:
    found = NAME.fullmatch(path.name)
    return int(found[1]) if found else 0


def segments(folder: Path) -> list[Path]:
    """The segments of a folder in their order."""
    return sorted((it for it in folder.iterdir() if NAME.fullmatch(it.name)), key=_number)


def bytes_of(folder: Path) -> int:
    """Bytes of all segments of a folder, of which some may be deleted meanwhile."""
    found = 0
    for it in segments(folder):
        with contextlib.suppress(FileNotFoundError):
            found += it.stat().st_size
    return found


def _sync_folder(folder: Path) -> None:
    number = os.open(folder, os.O_RDONLY)
    try:
        os.fsync(number)
    finally:
        os.close(number)


def whole(path: Path) -> int:
    """How many bytes of a segment are whole entries: one that a crash cut ends within its last."""
    with open(path, "rb") as file:
        end, is_event, at = 0, False, 0
        for line in file:
            at += len(line)
            if not line.endswith(b"\n"):
                break
            is_event = line.startswith(b"> ")
            if not is_event:
                end = at
        return end


def audited(folder: Path, program: str) -> Iterator[tuple[str, bool]]:
    """For each segment what `gate audit` says of it, and whether that is well."""
    for path in segments(folder):
        size = whole(path)
        cut = path.stat().st_size - size
        said, is_legal = _audit(path, size, program)
        yield "%s %s%s" % (path.name, said, " (%d bytes of an entry that was cut are left out)" % cut if cut else ""), is_legal


def _audit(path: Path, size: int, program: str) -> tuple[str, bool]:
    """What the program says of so many bytes of a segment."""
    with open(path, "rb") as file:
        is_whole = size == path.stat().st_size
        given = None if is_whole else file.read(size)
        try:
            done = subprocess.run([program, "audit"], stdin=file if is_whole else None, input=given, capture_output=True, check=False)
        except OSError as error:
            return "not audited: %s: %s" % (program, error.strerror), False
    text = (done.stdout or done.stderr).decode(errors="replace").strip()
    return text or "no answer, status %d" % done.returncode, done.returncode == 0


def events(path: Path, count: int) -> Iterator[str]:
    """The opening of a segment with its line `---`, and then the events of its first entries, each with its newline."""
    is_opening, found = True, 0
    with open(path, encoding="utf-8", newline="\n") as lines:
        for line in lines:
            if is_opening:
                is_opening = line != "---\n"
                yield line
            elif line.startswith("> "):
                if found == count:
                    return
                found += 1
                yield line[2:]

