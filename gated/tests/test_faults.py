"""What goes wrong beside the node: a node that is busy, a child that hangs, a full disk, a folder with two writers, settings that
can never work, and what only one of the two pools has."""

import asyncio
import contextlib
import errno
import logging
import os
import re
import signal
import socket
import stat
import subprocess
import sys
import tempfile
import threading
import time
from pathlib import Path

import hosting
from bitcoin import Input, Output, Transaction
from gate import same, true
from hosting import GATED, RpcFailed, child_of, environment_of, free_port, needs_a_child, until
from model_node import COIN_VALUE, number_hash, payment_of
from test_answering import failed
from test_following import Beside
from test_journal import OPENING, kept

from gated import logs
from gated.chain import Chain, ChainMoved, CoinsShown
from gated.journal import Bounds, Journal, JournalFailed, segments
from gated.keeper import Closed
from gated.watcher import Watcher


def ends(*words, seconds=60):
    """The status of a gated that ends by itself, and what it says."""
    done = subprocess.run([GATED, *words], env=environment_of(), capture_output=True, text=True, timeout=seconds, check=False)
    return done.returncode, done.stdout + done.stderr


# the node


def test_a_busy_node(gate):
    """A question that a busy node doesn't answer is asked again; a node that stays busy closes the gate, and no sooner."""
    with Beside(gate) as it:
        it.open()
        for _ in range(3):
            with it.node.lock:
                it.node.busy = 2
                it.pay()
            it.is_alike()
        it.node.busy = 1
        it.node.mine()
        it.is_alike()
        same("openings", it.gated.metric("gate_openings_total"), 1)
        it.node.busy = 10**9
        until("the gate is closed", lambda: it.gated.is_open() is None)
        it.node.busy = 0
        it.opened(2)
        it.is_alike()


def test_a_wrong_address_of_announcements(gate):
    """A node that publishes elsewhere is named, with both addresses, and one that publishes nothing is, too."""
    with Beside(gate) as it:
        wrong = "tcp://127.0.0.1:%d" % free_port()
        it.gated.words[it.gated.words.index(it.node.endpoint)] = wrong
        it.gated.start()
        said = "publishes them at %s, and gated listens at %s" % (it.node.endpoint, wrong)
        until("the log names both", lambda: any(said in line for line in it.gated.lines()))
        it.pay()
        until("so does the next opening", lambda: any("never announced: the node " + said in line for line in it.gated.lines()))
        it.node.do_getzmqnotifications = lambda: []
        it.pay()
        until("the node publishes none", lambda: any("the node publishes none (bitcoind -zmqpubsequence=%s)" % wrong in line for line in it.gated.lines()))


def test_the_lag(gate):
    """While blocks are taken in, the lag goes down with each of them."""
    with Beside(gate) as it:
        it.open()
        with it.node.lock:
            for _ in range(12):
                it.node.mine()
            it.node.late = 0.05
        seen = set()

        def has_arrived():
            seen.add(it.gated.metric("gate_lag_blocks"))
            return it.gated.metric("gate_tip_height") == it.node.model.tip

        until("the gate has the node's tip", has_arrived)
        true("several numbers were seen: %s" % sorted(seen), len(seen) >= 3 and max(seen) <= 12)
        until("and then there is none", lambda: it.gated.metric("gate_lag_blocks") == 0)


def test_what_is_behind(gate):
    """A gate that is more than a block behind its node gives no listing as if it were the node's: callers wait a little, and then
    get code -28. Once it is there they are answered."""
    with Beside(gate) as it:
        it.open()
        with it.node.lock:
            for _ in range(12):
                it.node.mine()
            it.node.late = 0.6
        until("it is behind", lambda: it.gated.metric("gate_lag_blocks") > 8)
        for method in ("getrawmempool", "getmempoolinfo"):
            same(method, failed(lambda method=method: it.gated.rpc(method)), (500, -28, "The gate waits for its node: try again"))
            it.node.late = 0.9
        it.node.late = 0.0
        it.is_alike()
        same("openings", it.gated.metric("gate_openings_total"), 1)


def test_the_first_lines_of_the_log(gate):
    """They say which gate it is, beside which node, without a password, and where callers, cookie, journal and metrics are."""
    kind = hosting.IN_PROCESS if hosting.LIBRARY else "%s as a child" % gate.program
    with Beside(gate) as it:
        it.gated.words[it.gated.words.index(it.node.url)] = it.node.url.replace("//", "//name:secret@")
        it.open()
        first = [line.split(" INFO ")[-1].rstrip("\n") for line in it.gated.lines()[:2]]
        places = "callers at 127.0.0.1:%d, cookie in %s, journal in %s, metrics at 127.0.0.1:%d"
        where = places % (it.gated.port, it.gated.cookie, it.gated.journal, it.gated.metrics_port)
        wanted = ["gated 0.1.0 beside %s: %s, %s" % (it.node.url, kind, where), "the gate is open: tip 119, 0 transactions"]
        same("its first lines", first, wanted)


def test_the_log_has_whole_lines(gate):
    """What a node writes stays in its line: no line is forged, and no control character reaches a terminal."""
    same("quoted", logs.quoted("a\nb\0c\x1b[31m\x85\u2028é"), "a\\nb\\x00c\\x1b[31m\\x85\\u2028é")
    try:
        raise ValueError("a\n2026-01-01 INFO the gate is open")
    except ValueError:
        record = logging.LogRecord("gated", logging.ERROR, "", 0, "a fault", (), sys.exc_info())
    true("lines of a traceback are indented", all(line.startswith("    ") for line in logs.OneLine("%(message)s").format(record).split("\n")[1:]))
    with Beside(gate) as it:
        it.open()
        it.node.wrong["getmempoolinfo"] = lambda answer: {**answer, "result": None, "error": {"code": -1, "message": "a\n2026-01-01 INFO the gate is open\0"}}
        until("it is in the log", lambda: any("a\\n2026-01-01 INFO the gate is open\\x00" in line for line in it.gated.lines()))
        true("in one line", all(re.match(r"\d{4}-\d\d-\d\d .*gate|.*gate: line", line) or not line.startswith("2026-01-01") for line in it.gated.lines()))


class Told:
    """A turn at a gate that takes everything."""

    def __init__(self):
        self.lines = []

    def ask(self, line):
        self.lines.append(line)
        return "forgotten 0 0 0" if line.startswith("chain forget") else "set"


def test_coins_of_another_chain(gate):
    """Coins that were asked for before the gate's chain moved, or before it forgot what it had learnt, are not learnt."""
    chain, turn = Chain(None, None, Watcher(), 20), Told()
    shown = CoinsShown({}, chain._epoch)
    chain.has_to_stand(turn, shown)
    chain._told = 10**6
    with contextlib.suppress(ChainMoved):
        chain.has_to_stand(turn, shown)
        raise AssertionError("what it knew of coins was forgotten in this turn")
    same("it forgot", turn.lines, ["chain forget 0"])
    chain.has_to_stand(turn, CoinsShown({}, chain._epoch))


# the child and the opening


def with_wrapper(folder, gate, text):
    """A program that does something before it goes on as the gate's."""
    path = os.path.join(folder, "wrapper")
    with open(path, "w") as file:
        file.write('#!/bin/sh\n%s\nexec "%s" "$@"\n' % (text, gate.program))
    os.chmod(path, 0o755)
    return path


def test_a_child_that_hangs(gate):
    """It is noticed after the time that it may take for a reply: callers are answered, and another one takes its place."""
    with Beside(gate, "--child-seconds", "3") as it:
        it.open()
        it.pay()
        it.is_alike()
        os.kill(child_of(it.gated.process), signal.SIGSTOP)
        began = time.monotonic()
        same("the second door goes on", it.gated.metric("gate_openings_total"), 1)
        with contextlib.suppress(RpcFailed):
            it.gated.rpc("getmempoolinfo")
        true("callers were answered after %.0f seconds" % (time.monotonic() - began), time.monotonic() - began < 20)
        it.opened(2)
        it.is_alike()
        true("the log says why", any("gave no reply in time" in line for line in it.gated.lines()))
        it.gated.end()
        it.gated.is_legal(2)


def test_an_end_beside_a_child_that_hangs(gate):
    """A signal ends gated, whatever its child does."""
    with Beside(gate) as it:
        it.open()
        os.kill(child_of(it.gated.process), signal.SIGSTOP)
        asked = threading.Thread(target=quiet, args=(it.gated.rpc, "getmempoolinfo"))
        asked.start()
        time.sleep(0.5)
        began = time.monotonic()
        same("status", it.gated.end(), 0)
        asked.join()
        true("it took %.0f seconds" % (time.monotonic() - began), time.monotonic() - began < 30)


def test_a_signal_to_all(gate):
    """What a terminal sends to gated and its child ends gated alone, and not before the answer that the child is at."""
    with Beside(gate) as it:
        it.gated.before = ["setsid"]
        it.open()
        child, answers = child_of(it.gated.process), []
        os.kill(child, signal.SIGSTOP)
        asked = threading.Thread(target=quiet, args=(lambda: answers.append(it.gated.rpc("getmempoolinfo")["size"]),))
        asked.start()
        time.sleep(1)
        os.killpg(it.gated.process.pid, signal.SIGINT)
        os.kill(child, signal.SIGCONT)
        same("status", it.gated.process.wait(60), 0)
        it.gated.process = None
        asked.join()
        same("what was asked", answers, [0])
        same("faults in the log", [line for line in it.gated.lines() if "ERROR" in line], [])


def quiet(call, *given):
    with contextlib.suppress(Exception):
        call(*given)


def test_answers_during_an_opening(gate):
    """While an opening is at work, callers are told at once by code -28, and the second door answers."""
    needs_a_child()
    with Beside(gate) as it:
        it.gated.words[it.gated.words.index(it.gated.program)] = with_wrapper(it.folder.name, gate, "sleep 6")
        it.open()
        it.node.lost = 1
        it.pay()
        it.pay()
        until("it is being opened", lambda: any("opening the gate anew" in line for line in it.gated.lines()))
        told, longest = 0, 0.0
        while it.gated.metric("gate_openings_total") == 1:
            began = time.monotonic()
            told += code_of(it.gated, "getmempoolinfo") == -28 and "Not open:" in it.gated.page("/")
            longest = max(longest, time.monotonic() - began)
        true("%d were told, after %.1f seconds at the most" % (told, longest), told >= 3 and longest < 20)
        it.is_alike()


def code_of(gated, method):
    try:
        gated.rpc(method)
    except RpcFailed as error:
        return error.error["code"]
    return None


def test_a_cookie_that_cannot_be_written(gate):
    """It ends gated with status 1 and one line that names it."""
    with Beside(gate) as it, tempfile.TemporaryDirectory() as folder:
        path = os.path.join(folder, "nowhere", "cookie")
        status, said = ends(*it.gated.words, "--rpccookiefile", path)
        same("its end", (status, said.splitlines()[-1]), (1, "gated: the cookie can't be written: %s: No such file or directory" % path))


def test_closed_at_once(gate):
    """A job that is offered while a gate is opened doesn't wait for it."""

    async def run(keeper, engines):
        opens = asyncio.create_task(keeper.opened(OPENING, "", lambda turn: turn.ask("x")))
        while not engines:
            await asyncio.sleep(0.01)
        began = time.monotonic()
        for job in (keeper.offered, keeper.made):
            with contextlib.suppress(Closed):
                await job(lambda turn: None)
                raise AssertionError("it was made")
        true("at once", time.monotonic() - began < 5)
        engines[0].may.set()
        await opens
        same("open", await keeper.offered(lambda turn: turn.ask("x")), "set")
        closes = asyncio.create_task(keeper.closed("the node is away"))
        await asyncio.sleep(0)
        same("closed", keeper.is_open, False)
        await closes

    kept(run)


def test_settings_that_can_never_work(gate):
    """A line that the gate doesn't take, and a program that is none, end gated with status 1 and one line."""
    words = ["--node", "http://127.0.0.1:1", "--listen", "127.0.0.1:%d" % free_port(), "--rpccookiefile", "/nowhere/cookie", "--child"]
    status, said = ends(*words, "--gate", gate.program, "--line", "bogus 1")
    same("a line: %s" % said, (status, said.splitlines()[-1]), (1, "gated: the gate refuses the opening: opening 2 bad-line: bogus 1"))
    status, said = ends(*words, "--gate", gate.program, "--zmq", "nowhere")
    same("an endpoint", (status, said), (1, "gated: --zmq nowhere: Invalid argument\n"))
    status, said = ends(*words, "--gate", "/bin/true")
    same("a program", (status, said), (1, "gated: the gate's process ended with status 0\n"))


def test_the_watchdog(gate):
    """systemd hears from gated as long as it goes on, and no more once a line has been at the gate for too long."""
    with Beside(gate, "--child-seconds", "60") as it:
        path = os.path.join(it.folder.name, "notify")
        with socket.socket(socket.AF_UNIX, socket.SOCK_DGRAM) as listens:
            listens.bind(path)
            listens.settimeout(60)
            it.gated.start(NOTIFY_SOCKET=path, WATCHDOG_USEC="1000000")
            for _ in range(3):
                while listens.recv(1000) != b"WATCHDOG=1":
                    pass
            os.kill(child_of(it.gated.process), signal.SIGSTOP)
            asked = threading.Thread(target=quiet, args=(it.gated.rpc, "getmempoolinfo"))
            asked.start()
            time.sleep(2)
            listens.setblocking(False)
            with contextlib.suppress(BlockingIOError):
                while True:
                    listens.recv(1000)
            time.sleep(2)
            try:
                found = listens.recv(1000)
            except BlockingIOError:
                found = b""
            same("nothing is said any more", found, b"")
            it.gated.end()
            asked.join()


# the journal


def test_what_it_takes(gate):
    """The bytes of all files of the journal are a metric, and so is the memory of gated."""
    with Beside(gate, "--segment", "20") as it:
        it.open()
        # each look is an entry
        until("a second file is there", lambda: it.gated.is_open() and len(segments(Path(it.gated.journal))) > 1)
        until("they have settled", lambda: it.gated.metric("gate_journal_bytes") == sum(one.stat().st_size for one in segments(Path(it.gated.journal))) > 0)
        true("gated's memory", it.gated.metric("process_resident_memory_bytes") > 10_000_000)
        away = it.gated.journal + ".away"
        os.rename(it.gated.journal, away)
        true("a folder that is away", it.gated.metric("gate_journal_bytes") > 0)
        os.rename(away, it.gated.journal)


def test_nobody_else_reads_it(gate):
    """The journal's folder and its files are their owner's, whatever the umask is."""
    with tempfile.TemporaryDirectory() as folder:
        before = os.umask(0)
        try:
            found = Journal(Path(folder, "journal"))
            found.begin(OPENING, "a test")
            found.entry("peer 1 leave", "left\n")
            found.close()
        finally:
            os.umask(before)
        same("the folder", stat.S_IMODE(os.stat(found.path.parent).st_mode), 0o700)
        same("the file", stat.S_IMODE(os.stat(found.path).st_mode), 0o600)
        found.unlock()


def test_bytes(gate):
    """A segment ends after so many bytes behind what its opening leads with, and the oldest go once all have too many."""
    with tempfile.TemporaryDirectory() as folder:
        found = Journal(Path(folder), Bounds(entries=1000, bytes=1000, whole=5000))
        for _ in range(6):
            found.begin(OPENING, "a test")
            found.entry("peer 1 tx 0 " + "00" * 300, "denied A1 keep tx-decode\n")
            found.led()
            same("not full yet", found.is_full, False)
            while not found.is_full:
                found.entry("peer 1 leave", "denied P1 keep peer-unknown\n")
            true("the bound is kept", 1000 <= found.size - 700 < 1100)
        found.close()
        whole = sum(it.stat().st_size for it in segments(Path(folder)))
        names = [it.name for it in segments(Path(folder))]
        true("%d bytes in %s" % (whole, names), whole <= 5000 + 1800 and names[-1] == "gate-000006.journal" and "gate-000001.journal" not in names)
        found.unlock()
        found = Journal(Path(folder), Bounds(whole=0))
        found.begin(OPENING, "a test")
        found.close()
        same("all are kept", len(segments(Path(folder))), len(names) + 1)
        found.unlock()


def test_two_writers(gate):
    """A folder has one writer: a second one ends with status 1, and the first goes on. A file that is there is never replaced."""
    with Beside(gate) as it:
        it.open()
        words = ["--node", it.node.url, "--listen", "127.0.0.1:%d" % free_port(), "--rpccookiefile", os.path.join(it.folder.name, "other"), "--child", "--gate", gate.program]
        status, said = ends(*words, "--journal", it.gated.journal)
        same("a second one", (status, said.splitlines()[-1]), (1, "gated: %s: another gated writes its journal there" % it.gated.journal))
        it.pay()
        it.is_alike()
        it.gated.end()
        it.gated.is_legal(1)
    with tempfile.TemporaryDirectory() as folder:
        found = Journal(Path(folder))
        found.begin(OPENING, "a test")
        found._next = lambda: found.path
        text = found.path.read_bytes()
        try:
            found.begin(OPENING, "another")
        except JournalFailed as error:
            true(str(error), str(error).endswith("File exists"))
        else:
            raise AssertionError("a segment was replaced")
        same("the segment", (found.path.read_bytes(), os.listdir(folder)), (text, ["gate-000001.journal"]))
        found.unlock()


def test_no_room_for_another_segment(gate):
    """A disk that is full leaves nothing behind of a segment that can't begin, uses no number, and lengthens no file."""
    with tempfile.TemporaryDirectory() as folder:
        found = Journal(Path(folder))
        found.begin(OPENING, "a test")
        for _ in range(50):
            found.entry("peer 1 leave", "denied P1 keep peer-unknown\n")
        found.close()
        size = found.path.stat().st_size
        synced = os.fdatasync

        def full(number):
            raise OSError(errno.ENOSPC, os.strerror(errno.ENOSPC))

        try:
            os.fdatasync = full
            for _ in range(3):
                with contextlib.suppress(JournalFailed):
                    found.begin(OPENING, "a test")
                    raise AssertionError("it began")
                same("files", os.listdir(folder), ["gate-000001.journal"])
        finally:
            os.fdatasync = synced
        same("the first one's size", segments(Path(folder))[0].stat().st_size, size)
        found.begin(OPENING, "a test")
        same("the next one", (found.path.name, found.path.stat().st_size < size), ("gate-000002.journal", True))
        found.unlock()


# what only one of the two pools has


def drops(it, tx):
    """The node drops a transaction for a reason of its own."""
    with it.node.lock:
        before = it.node.pool()
        it.node.model.pool = [one for one in it.node.model.pool if one.tx is not tx]
        it.node.changed(before, set())


def test_what_only_the_gate_has(gate):
    """What the node dropped, and no rule explains, opens the gate anew after a while."""
    with Beside(gate, "--apart", "2") as it:
        it.open()
        dropped = it.pay()
        it.pay()
        it.is_alike()
        drops(it, dropped)
        until("it is counted", lambda: it.gated.differences() == {"kept": 1})
        same("openings", it.gated.metric("gate_openings_total"), 1)
        it.opened(2)
        it.is_alike()
        true("the log names it", any("in the gate's pool alone for more than" in line and dropped.txid() in line for line in it.gated.lines()))


def test_what_a_rule_explains(gate):
    """What the gate keeps since it denies what the node has in its place stays, and so does what spends from it."""
    with Beside(gate, "--apart", "1") as it:
        it.open()
        stays = it.pay(5000)
        child = it.child(stays)
        it.is_alike()
        cheaper = payment_of((stays.inputs[0].hash, 0), COIN_VALUE, 1000, 2)
        with it.node.lock:
            before = it.node.pool()
            it.node.model.pool = [one for one in it.node.model.pool if one.tx not in (stays, child)]
            same("the node", it.node.model.submit(1, int(time.time()), cheaper).split(" ")[0], "admitted")
            it.node.changed(before, set())
        until("the gate denies it", lambda: set(it.gated.differences()) & {"A38", "A39", "A41", "A42"})
        until("both stay", lambda: it.gated.metric("gate_only_in_gate") == 2)
        time.sleep(4)
        same("openings", it.gated.metric("gate_openings_total"), 1)
        same("the gate's pool", it.gated.listing(), {stays.txid(), child.txid()})


def test_what_the_chain_took_from_the_gate(gate):
    """What the gate drops by a block and the node keeps is counted, and what spends from it is no difference of its own."""
    with Beside(gate) as it:
        it.open()
        kept_there = it.pay(outputs=2)
        it.is_alike()
        entry = it.node.pool()[kept_there.txid()]
        other = payment_of((kept_there.inputs[0].hash, 0), COIN_VALUE, 7000)
        with it.node.lock:
            block = it.node.block([other])
            it.node.move(0, [block])
            it.node.model.pool.append(entry)
        until("it is counted", lambda: it.gated.differences() == {"lost": 1})
        true("it is new", it.gated.metric('gate_differences_total{known="no",rule="lost"}') == 1)
        same("openings", it.gated.metric("gate_openings_total"), 1)


def test_a_child_before_its_parent(gate):
    """A child that is announced before its parent is handed in behind it, and agreed on."""
    with Beside(gate) as it:
        it.open()
        with it.node.lock:
            it.node.held = []
            parent = it.pay()
            it.child(parent)
            held, it.node.held = it.node.held, None
            it.node.announce(*held[1])
        until("the gate has both", lambda: it.gated.listing() == set(it.node.pool()))
        it.node.announce(*held[0])
        it.pay()
        it.is_alike()
        it.agrees()
        same("openings", it.gated.metric("gate_openings_total"), 1)


def dust_of(it):
    """A payment with an output below what the gate's rule on dust asks for, which the node takes all the same."""
    tx = Transaction([Input(number_hash(it.spare.pop(0)))], [Output(200), Output(COIN_VALUE - 1000)])
    with it.node.lock:
        it.node.model.alone = lambda tx: iter(())
        same("the node", it.node.submit(tx).split(" ")[0], "admitted")
        del it.node.model.alone
    return tx


def test_figures_for_who_asks(gate):
    """Differences start no replay. Whoever looks at the page starts one, for all that it shows."""
    with Beside(gate) as it:
        runs = os.path.join(it.folder.name, "runs")
        it.gated.words[it.gated.words.index(it.gated.program)] = with_wrapper(it.folder.name, gate, 'case "$*" in *--explain*) echo >>"%s" ;; esac' % runs)
        it.open()
        dusts = [dust_of(it) for _ in range(3)]
        until("they are counted", lambda: it.gated.differences() == {"A17": 3})
        time.sleep(1)
        same("replays", os.path.exists(runs), False)
        until("the figures are there", lambda: it.gated.page("/").count("output 0: value 200, needs 294") == len(dusts))
        same("replays", os.path.getsize(runs), 1)
