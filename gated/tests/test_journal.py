"""The journal's files, the keeper's queue, users, settings: what needs no node."""

import asyncio
import base64
import contextlib
import errno
import hashlib
import hmac
import io
import os
import subprocess
import sys
import tempfile
import threading
from pathlib import Path

from gate import same, true
from hosting import HERE, compiled
from kinds import long

from gated import config, journal
from gated.engine import ChildGate, Ended, OpeningRefused, Unanswered
from gated.journal import Bounds, Journal, JournalFailed
from gated.keeper import SEGMENT_FULL, Closed, Full, Keeper
from gated.users import BadUser, Users

OPENING = "times 101 1000 600\nverdict * ok\nbloom 1\n"


def written(folder, entries=3):
    """A segment of these entries, and its path."""
    found = Journal(Path(folder))
    found.begin(OPENING, "a test")
    for number in range(entries):
        found.entry("peer %d enter 192.0.2.1" % number, "entered none\n")
    found.close()
    found.unlock()
    return found.path


def test_a_cut_anywhere(gate):
    """A segment that a crash cut is whole up to its last whole entry, wherever the cut is."""
    with tempfile.TemporaryDirectory() as folder:
        path = written(folder)
        text = path.read_bytes()
        begin = text.index(b"---\n") + 4
        ends = [begin] + [at + 1 for at in range(begin, len(text)) if text[at : at + 1] == b"\n" and text[text.rindex(b"\n", 0, at) + 1 :].startswith(b"< ")]
        same("entries", len(ends), 4)
        for size in range(begin, len(text) + 1):
            path.write_bytes(text[:size])
            same("whole at %d" % size, journal.whole(path), max(it for it in ends if it <= size))


def with_a_base(folder):
    """A segment with one entry more than a round of `gate audit` has."""
    found = Journal(Path(folder))
    found.begin(OPENING, "a test")
    for _ in range(journal.ROUND + 1):
        found.entry("peer 1 leave", "denied P1 keep peer-unknown\n")
    found.close()
    found.unlock()
    return found


def test_what_has_an_entry(gate):
    """Comments, empty lines and lines that are no events have none; after each 100,000 comes their base."""
    with tempfile.TemporaryDirectory() as folder:
        found = Journal(Path(folder))
        found.begin(OPENING, "a test")
        for reply in ("", "refused L1 bad-line\n"):
            found.entry("x", reply)
        found.close()
        same("entries", (found.entries, found.path.read_text()), (0, "# a test\n%s---\n" % OPENING))
        found.unlock()
        lines = with_a_base(folder).path.read_text().splitlines()
        same("base", [it for it in enumerate(lines) if it[1].startswith("base")], [(5 + 2 * 100_000, "base 100000")])


@long
def test_an_audit_of_two_rounds(gate):
    """`gate audit` takes the line of the base where the journal has it."""
    with tempfile.TemporaryDirectory() as folder:
        with_a_base(folder)
        same("the audit", list(journal.audited(Path(folder), gate.program)), [("gate-000001.journal legal 100001", True)])


def test_a_full_disk(gate):
    """What can't be written is said, and what was on the disk stays whole."""
    with tempfile.TemporaryDirectory() as folder:
        found = Journal(Path(folder))
        found.begin(OPENING, "a test")
        found.entry("peer 1 enter 192.0.2.1", "entered none\n")
        found.sync()
        size = found.path.stat().st_size
        full = open("/dev/full", "wb", buffering=0)
        os.dup2(full.fileno(), found._file.fileno())
        try:
            found.entry("peer 1 leave", "left\n")
            found.sync()
        except JournalFailed as error:
            true("the message: %s" % error, str(error).endswith("No space left on device"))
        else:
            raise AssertionError("nothing failed")
        same("size", found.path.stat().st_size, size)
        try:
            found.entry("peer 1 leave", "left\n")
        except JournalFailed:
            pass
        else:
            raise AssertionError("an entry after that was taken")


def test_no_room_for_a_journal(gate):
    """A folder that can't be made is said in one line."""
    with tempfile.TemporaryDirectory() as folder:
        place = os.path.join(folder, "file")
        Path(place).write_text("")
        try:
            Journal(Path(place, "below"))
        except JournalFailed as error:
            true(str(error), "Not a directory" in str(error))
        else:
            raise AssertionError("it was made")


class Slow:
    """An engine that answers when it is let."""

    def __init__(self):
        self.may = threading.Event()
        self.closed = False
        self.fails = None

    def open(self, opening):
        pass

    def answer(self, line):
        self.may.wait(10)
        if self.fails is not None:
            raise self.fails
        return "set\n"

    def stop(self):
        self.may.set()

    def close(self):
        self.closed = True


def kept(run, journal=None, depth=2):
    """Runs a coroutine over a keeper with a slow engine."""
    engines = []

    def opened():
        engines.append(Slow())
        return engines[-1]

    async def main():
        keeper = Keeper(opened, journal, depth, lambda seconds: None)
        task = asyncio.create_task(keeper.run())
        try:
            return await asyncio.wait_for(run(keeper, engines), 20)
        finally:
            for it in engines:
                it.may.set()
            task.cancel()
            await asyncio.gather(task, return_exceptions=True)

    return asyncio.run(main())


def test_the_queue(gate):
    """So many may wait, and no more; those that wait are answered in their order."""
    async def run(keeper, engines):
        await keeper.opened(OPENING, "", lambda turn: None)
        order = []
        first = asyncio.create_task(keeper.offered(lambda turn: order.append(turn.ask("0"))))
        await asyncio.sleep(0.1)
        waiting = [asyncio.create_task(keeper.offered(lambda turn, number=number: order.append(number))) for number in (1, 2)]
        await asyncio.sleep(0.1)
        same("waiting", keeper.waiting, 2)
        try:
            await keeper.offered(lambda turn: None)
        except Full:
            pass
        else:
            raise AssertionError("a third one waits")
        engines[0].may.set()
        await asyncio.gather(first, *waiting)
        same("order", order, ["set", 1, 2])

    kept(run)


def test_closed_and_full(gate):
    """Without a gate no job is made, and none in a segment that is full; a new opening ends both."""
    async def run(keeper, engines):
        async def refused(why):
            try:
                await keeper.made(lambda turn: turn.ask("x"))
            except Closed as error:
                same("why", str(error), why)
            else:
                raise AssertionError("it was made")

        await refused("the gate is being opened")
        await keeper.opened(OPENING, "", lambda turn: None)
        engines[0].may.set()
        for _ in range(2):
            await keeper.made(lambda turn: turn.ask("x"))
        await refused(SEGMENT_FULL)
        await keeper.closed("the node is away")
        await refused("the node is away")
        same("closed", engines[0].closed, True)
        await keeper.opened(OPENING, "", lambda turn: None)
        engines[1].may.set()
        same("reply", await keeper.made(lambda turn: turn.ask("x")), "set")

    with tempfile.TemporaryDirectory() as folder:
        kept(run, Journal(Path(folder), Bounds(entries=2)))
        same("segments", [it.name for it in journal.segments(Path(folder))], ["gate-000001.journal", "gate-000002.journal"])


def test_a_line_of_two(gate):
    """A line with a newline within it never reaches the gate."""
    async def run(keeper, engines):
        await keeper.opened(OPENING, "", lambda turn: None)
        engines[0].may.set()
        try:
            await keeper.made(lambda turn: turn.ask("peer 1 leave\npeer 2 leave"))
        except ValueError as error:
            same("why", str(error), "a line has a newline within it")
        else:
            raise AssertionError("it was asked")

    kept(run)


def test_an_answer_that_is_lost(gate):
    """What an engine or the journal's memory fails at ends the gate: the journal may lack what the gate answered."""
    async def run(keeper, engines):
        for number, failure in enumerate((MemoryError(), BlockingIOError(errno.EAGAIN, "no room"))):
            await keeper.opened(OPENING, "", lambda turn: None)
            engines[number].may.set()
            same("reply", await keeper.offered(lambda turn: turn.ask("x")), "set")
            engines[number].fails = failure
            for kind, why in ((Ended, "the gate's answer is lost: "), (Closed, "the gate's answer is lost: ")):
                try:
                    await keeper.offered(lambda turn: turn.ask("y"))
                except (Ended, Closed) as error:
                    same("its end", (type(error), str(error).startswith(why)), (kind, True))
                else:
                    raise AssertionError("it was answered")
            same("closed", engines[number].closed, True)

    with tempfile.TemporaryDirectory() as folder:
        kept(run, Journal(Path(folder)))
        same("entries", [it.read_text().count("> ") for it in journal.segments(Path(folder))], [1, 1])


def test_the_child(gate):
    """The program as a child: replies, lines without one, an opening that fails, a line that is too long."""
    child = ChildGate(gate.program)
    child.open(OPENING)
    same("reply", child.answer("peer 1 enter 192.0.2.1"), "entered none\n")
    same("no reply", [child.answer(""), child.answer("# x")], ["", ""])
    try:
        child.answer("x" * 16_777_217)
    except Unanswered as error:
        same("why", str(error), "the line is too long")
    same("and on", child.answer("peer 1 mempool"), "listing 0\n")
    child.close()
    child = ChildGate(gate.program)
    try:
        child.open("times 1 0 0\nx\n")
    except OpeningRefused as error:
        same("why", str(error), "the gate refuses the opening: opening 2 bad-line: x")
    else:
        raise AssertionError("it was opened")
    finally:
        child.close()


# what the library's engine makes of each status, by a library that takes each line for its own reply (tests/hosts/fake_library.c)
ASKS_LIBRARY = """
from gated.engine import opener
opens = opener(None, False)
gate = opens()
gate.open("opening")
from gate.library import Status
for line in ("a line", "", "# x", "x" * 5000, "keep a reply", "end %d" % Status.LINE_TOO_LONG, "end %d" % Status.OUT_OF_MEMORY, "end %d" % Status.NOT_OPEN, "and on"):
    try:
        print("%r" % gate.answer(line)[:20])
    except Exception as error:
        print(type(error).__name__, error)
gate.close()
try:
    opens().open("refuse\\n")
except Exception as error:
    print(type(error).__name__, error)
"""


def with_library(path, *words, **variables):
    """What gated's Python prints with this file in the library's place, and its status."""
    environment = dict(os.environ, PYTHONPATH=os.path.dirname(HERE), GATE_LIBRARY=path, **variables)
    done = subprocess.run([sys.executable, *words], env=environment, capture_output=True, text=True, timeout=60, check=False)
    return done.returncode, done.stdout + done.stderr


def test_the_library(gate):
    """The library in place of the program: replies, a reply that is kept, lines that fail, an opening that is refused."""
    with tempfile.TemporaryDirectory() as folder:
        status, said = with_library(compiled("fake_library.c", folder), "-c", ASKS_LIBRARY)
    wanted = [
        "'a line\\n'", "''", "''", "'%s'" % ("x" * 20), "'a reply\\n'", "Unanswered the line is too long", "Unanswered out of memory",
        "Ended the library fails: the gate or the event is closed", "'and on\\n'", "OpeningRefused the gate refuses the opening: opening 1 bad-line: refuse",
    ]  # fmt: skip
    same("what is said", (status, said.splitlines()), (0, wanted))


def test_no_gate(gate):
    """Without the library, and with a program that isn't there, gated doesn't begin, and says why in one line."""
    with tempfile.TemporaryDirectory() as folder:
        words = ["-m", "gated", "--node", "http://127.0.0.1:1", "--listen", "127.0.0.1:0", "--rpccookiefile", os.path.join(folder, "cookie")]
        status, said = with_library(os.path.join(folder, "nothing.so"), *words, PATH="/nowhere")
        true("no library: %s" % said, status == 1 and said.startswith("gated: the library is not there (") and said.count("\n") == 1)
        status, said = with_library("", *words, "--child", "--gate", os.path.join(folder, "nothing"))
        same("no program", (status, said), (1, "gated: %s is no program\n" % os.path.join(folder, "nothing")))


WHICH = "import sys; from gated.engine import opener; it = opener(sys.argv[1] or None, sys.argv[2:] == ['child']); print(getattr(it, '__name__', type(it).__name__))"


def test_which_gate(gate):
    """The library where it is built, unless a child is asked for; else the program as a child, by its path or as `gate`."""
    with tempfile.TemporaryDirectory() as folder:
        library = compiled("fake_library.c", folder)
        Path(folder, "gate").symlink_to(gate.program)
        nothing = os.path.join(folder, "nothing.so")
        for path, words, wanted in (
            (library, [""], "LibraryGate"),
            (library, [gate.program], "LibraryGate"),
            (library, [gate.program, "child"], "ChildOpener"),
            (library, ["", "child"], "ChildOpener"),
            (nothing, [gate.program], "ChildOpener"),
            (nothing, [""], "ChildOpener"),
        ):
            status, said = with_library(path, "-c", WHICH, *words, PATH=folder)
            same("%s %s: %s" % (path, words, said), (status, said.splitlines()[-1:]), (0, [wanted]))


def line_of(user, password, salt="00ff"):
    return "%s:%s$%s" % (user, salt, hmac.new(salt.encode(), password.encode(), hashlib.sha256).hexdigest())


def basic(text):
    return "Basic " + base64.b64encode(text.encode()).decode()


def test_users(gate):
    """The cookie and `rpcauth`, and nothing else."""
    with tempfile.TemporaryDirectory() as folder:
        cookie = Path(folder, "cookie")
        users = Users([line_of("shop", "pass:word"), line_of("till", "other")], cookie)
        users.write_cookie()
        same("mode", cookie.stat().st_mode & 0o777, 0o600)
        same("cookie", users.user_of(basic(cookie.read_text())), "__cookie__")
        same("rpcauth", users.user_of(basic("shop:pass:word")), "shop")
        for header in (None, "", "Basic", "Basic !", "Bearer x", basic("shop"), basic("shop:"), basic("shop:other"), basic("__cookie__:"), basic("till:pass:word"), "Basic \udcff"):
            same("%r" % header, users.user_of(header), None)
        users.remove_cookie()
        same("gone", cookie.exists(), False)
    for line in ("", "a", "a:b", "a:b$c", line_of("gated", "x"), line_of("__cookie__", "x"), line_of("two words", "x"), line_of("new\nline", "x")):
        try:
            Users([line], None)
        except BadUser:
            continue
        raise AssertionError("%r is a user" % line)


def test_settings(gate):
    """A file of settings has the names of the words, and the command line goes before it."""
    with tempfile.TemporaryDirectory() as folder:
        path = Path(folder, "gated.toml")
        path.write_text('node = "http://127.0.0.1:1"\nshadow = true\nforward = false\nsegment = 7\nline = ["rpcwhitelist a", "budget 9"]\nlisten = "[::1]:5"\n')
        found = config.read(["--settings", str(path), "--segment", "8"])
        same("found", (found.node, found.shadow, found.forward, found.segment, found.line), ("http://127.0.0.1:1", True, False, 8, ("rpcwhitelist a", "budget 9")))
        same("address", (found.listen.host, found.listen.port), ("::1", 5))
        for text in ("nodes = 1\n", "node = true\n", "shadow = 1\n", "segment = 0\n", "x", 'node = "http://h"\nline = ["a\\nb"]\n', 'node = [["a"]]\n'):
            path.write_text(text)
            said = io.StringIO()
            with contextlib.redirect_stderr(said):
                try:
                    config.read(["--settings", str(path)])
                except SystemExit as error:
                    same("%r: %s" % (text, said.getvalue()), error.code, 2)
                else:
                    raise AssertionError("%r was read" % text)


def ended(*words):
    environment = dict(os.environ, PYTHONPATH=os.path.dirname(HERE))
    done = subprocess.run([sys.executable, "-m", "gated", *words], env=environment, capture_output=True, text=True, timeout=60, check=False)
    return done.returncode, done.stdout + done.stderr


def test_usage(gate):
    """The help has examples, and what is wrong is said in one line with status 2."""
    status, said = ended("--help")
    true("the help has examples", status == 0 and "gated audit ~/journal" in said)
    for words in ([], ["--node", "x"], ["--node", "http://h", "--listen", "x"], ["--node", "http://h", "--journal-bytes", "-1"], ["--node", "http://"], ["--node", "http://h:99999"], ["--node", "http://h", "--segment", "0"], ["--nod", "http://h"]):
        status, said = ended(*words)
        same("%s: %s" % (words, said), status, 2)
    same("an audit of no folder", ended("audit", "/nowhere"), (1, "gated: /nowhere is no folder\n"))
    with tempfile.TemporaryDirectory() as folder:
        same("an audit of an empty one", ended("audit", folder), (1, "gated: no journal in %s\n" % folder))
