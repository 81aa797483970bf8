#!/usr/bin/env python3
"""A long run beside a node of this machine (bitcoind, or litecoind, in regtest) with 64 clients.

  gated/tests/lasting.py PROGRAM [SECONDS] [CLIENTS] [--library FOLDER] [--folder FOLDER] [--pause SECONDS] [--patience SECONDS]

A block comes every ten seconds. Every minute something happens meanwhile: a reorganisation of one to three blocks, the gate's
process is killed, gated is killed, all connections of gated to its node and its callers are cut, gated is restarted, the node is
restarted. Each client waits for its answer before its next call, looks whether it is the answer to that call, and sends a payment
again until gated answers it by its txid. Every twenty seconds the clients pause, and the two pools, their floors and all entries
have to be alike. At the end each payment that was answered by its txid has to be in the node's chain, and each file of the
journal has to be legal. Standard error says every minute how far it is.

The gate is PROGRAM as a child; with --library it is the library that `make lib` put into that folder, or tools/unproved without its
proofs, in gated's own process, which is killed as gated is, and PROGRAM audits. What the run writes is kept if a FOLDER is named,
which has to be new. On a machine that has other work, clients may pause before each call, and have more patience with a payment.
"""

import argparse
import contextlib
import ctypes
import http.client
import json
import os
import random
import re
import shutil
import signal
import socket
import stat
import sys
import tempfile
import threading
import time
import unittest
from collections import Counter
from dataclasses import dataclass

HERE = os.path.dirname(os.path.abspath(__file__))
ROOT = os.path.dirname(os.path.dirname(HERE))
sys.path[:0] = [it for it in (HERE, os.path.dirname(HERE), os.path.join(ROOT, "tests"), os.path.join(ROOT, "tools")) if it not in sys.path]

import hosting
from bitcoin import Output, Transaction
from gate import Gate, same, true
from hosting import child_of, memory, until
from kinds import long
from live import NODES, Coin, Live, script_of

SECONDS, CLIENTS = 240, 64
BLOCK_SECONDS, COMPARED_SECONDS, TROUBLE_SECONDS = 10, 20, 60
TROUBLES = ("reorganisation", "child killed", "gated killed", "connections cut", "reorganisation", "gated restarted", "node restarted")
# a system call that has no name in Python
PIDFD_GETFD = 438
# what gated's log says of each opening
OPENED = "the gate is open:"
# coins of each client
COINS = 4
FEE = 1000
ENTRY = re.compile(r"gate-\d{6}\.journal legal (\d+)( \(\d+ bytes of an entry that was cut are left out\))?")


@dataclass(frozen=True)
class Pace:
    """The seconds that a client pauses before a call, on average, and that a payment may take until it is answered by its txid."""

    pause: float = 0.0
    patience: float = 300.0


class Pause:
    """Lets clients call, or waits until none of them does."""

    def __init__(self):
        self.may, self.lock, self.calling = threading.Event(), threading.Condition(), 0
        self.may.set()

    @contextlib.contextmanager
    def call(self):
        while True:
            self.may.wait()
            with self.lock:
                # a pause may have begun since
                if self.may.is_set():
                    self.calling += 1
                    break
        try:
            yield
        finally:
            with self.lock:
                self.calling -= 1
                self.lock.notify_all()

    @contextlib.contextmanager
    def pause(self, seconds):
        """No client calls meanwhile. It waits so long for those that do."""
        self.may.clear()
        try:
            with self.lock:
                true("the clients pause", self.lock.wait_for(lambda: not self.calling, seconds))
            yield
        finally:
            self.may.set()


class Client(threading.Thread):
    """Pays, tries payments and asks, one call after another, and counts what comes back."""

    def __init__(self, number, live, coins, pause, is_over, pace):
        super().__init__(daemon=True)
        self.pace = pace
        self.draw, self.live, self.coins, self.pause, self.is_over = random.Random(number), live, coins, pause, is_over
        self.number, self.calls, self.connection = number, 0, None
        self.answers, self.seconds, self.paid, self.fault = Counter(), [], [], None

    def run(self):
        try:
            while not self.is_over.wait(2 * self.pace.pause * self.draw.random()):
                self.step()
        except Exception as error:  # told by the test, which waits for all of them
            self.fault = "client %d: %s: %s" % (self.number, type(error).__name__, error)

    def step(self):
        kind = self.draw.random()
        if kind < 0.3:
            self.pays()
        elif kind < 0.5:
            tx = self.payment(self.coins[0])
            told = self.asked("testmempoolaccept", [tx.hex()])
            same("what was tried", told and told[0]["txid"], told and tx.txid())
        elif kind < 0.6 and self.paid:
            self.asked("getmempoolentry", self.draw.choice(self.paid[-5:]))
        elif kind < 0.7:
            height = self.draw.randrange(100)
            told = self.asked("getblockheader", self.live.hashes[height])
            same("a header", told and told["height"], told and height)
        else:
            self.asked(self.draw.choice(("getmempoolinfo", "getrawmempool", "getblockcount")))

    def payment(self, coin):
        return Transaction([coin.input()], [Output(coin.value - FEE, script_of(coin.truth))])

    def pays(self):
        """A payment of the coin that has not been spent for longest, sent again until it is answered by its txid."""
        coin = self.coins.pop(0)
        tx, end = self.payment(coin), time.monotonic() + self.pace.patience
        while True:
            told = self.asked("sendrawtransaction", tx.hex(), 0)
            if told is not None:
                same("its txid", told, tx.txid())
                break
            if self.is_over.is_set():
                return
            true("%s is taken at last" % tx.txid(), time.monotonic() < end)
            time.sleep(0.5)
        self.paid.append(tx.txid())
        self.coins.append(Coin(tx.hash(), 0, coin.value - FEE, coin.truth))

    def asked(self, method, *params):
        """The result of a call; None if there is none, or if the connection is cut."""
        self.calls += 1
        id = "%d-%d" % (self.number, self.calls)
        with self.pause.call():
            began = time.monotonic()
            try:
                if self.connection is None:
                    self.connection = http.client.HTTPConnection("127.0.0.1", self.live.gated.port, timeout=self.pace.patience)
                status, _, text = self.live.gated.post(json.dumps({"method": method, "params": params, "id": id}), connection=self.connection)
            except (OSError, http.client.HTTPException):
                self.answers["cut"] += 1
                if self.connection is not None:
                    self.connection.close()
                self.connection = None
                time.sleep(0.2)
                return None
            self.seconds.append(time.monotonic() - began)
        if status in (401, 503):
            # it was started anew with another cookie, or is busy
            self.answers[str(status)] += 1
            return None
        told = json.loads(text)
        same("the id of an answer", told["id"], id)
        if told["error"] is not None:
            self.answers["%s: %s" % (told["error"]["code"], told["error"]["message"][:60])] += 1
            return None
        self.answers[method] += 1
        return told["result"]


class Lasting:
    """What happens beside the clients."""

    def __init__(self, live, clients, is_over, pace):
        self.live, self.pause, self.pace = live, Pause(), pace
        self.counts, self.sizes = Counter(), []
        self.troubles = [it for it in TROUBLES if it != "child killed" or not hosting.LIBRARY]
        self.clients = [Client(number, live, coins, self.pause, is_over, pace) for number, coins in enumerate(coins_for(live, clients))]

    def run(self, seconds):
        began = time.monotonic()
        for one in self.clients:
            one.start()
        times = {self.block: BLOCK_SECONDS, self.compare: COMPARED_SECONDS, self.trouble: TROUBLE_SECONDS, self.measure: 5, self.say: 60}
        due = {what: began + every for what, every in times.items()}
        while time.monotonic() < began + seconds:
            same("faults of clients", [one.fault for one in self.clients if one.fault], [])
            for what, every in times.items():
                if time.monotonic() >= due[what]:
                    what()
                    due[what] = max(due[what] + every, time.monotonic() + every / 2)
            time.sleep(0.1)

    def say(self):
        """How far the run is, in a line of standard error."""
        paid, calls = (sum(one) for one in zip(*((len(it.paid), it.calls) for it in self.clients)))
        told = {**self.counts, **{it: self.live.counts[it] for it in ("comparisons", "entries compared")}}
        print("%s: %d payments, %d calls, %s" % (time.strftime("%H:%M:%S"), paid, calls, told), file=sys.stderr, flush=True)

    def block(self):
        self.live.generate(1)
        self.counts["blocks"] += 1

    def compare(self):
        with self.pause.pause(self.pace.patience):
            until("the gate is open", self.live.gated.is_open)
            self.live.alike(self.pace.patience)

    def measure(self):
        if self.live.gated.process is not None:
            self.sizes.append(memory(self.live.gated.process.pid))

    def trouble(self):
        kind = self.troubles[sum(self.counts[it] for it in set(TROUBLES)) % len(self.troubles)]
        self.counts[kind] += 1
        gated, node = self.live.gated, self.live.node
        if kind == "reorganisation":
            # blocks without payments: all that went comes back into the pools
            depth = self.live.draw.randint(1, 3)
            parent = node.ask("getblockheader", node.ask("getblockhash", node.ask("getblockcount") - depth))
            for _ in range(depth + 1):
                parent = self.live.branch(parent, [])
            same("the node's tip", node.ask("getbestblockhash"), parent["hash"])
        elif kind == "child killed":
            os.kill(child_of(gated.process), signal.SIGKILL)
        elif kind == "connections cut":
            self.counts["connections"] += cut(gated.process)
        elif kind == "gated killed":
            gated.end(signal.SIGKILL)
            gated.start()
        elif kind == "gated restarted":
            same("status", gated.end(), 0)
            gated.start()
        else:
            node.stop()
            node.start()

    def end(self):
        """Waits until all clients have ended; what they paid."""
        for one in self.clients:
            one.join(self.pace.patience)
        same("faults of clients", [one.fault or "client %d hangs" % one.number for one in self.clients if one.fault or one.is_alive()], [])
        return {txid for one in self.clients for txid in one.paid}

    def figures(self):
        answers = sum((one.answers for one in self.clients), Counter())
        times = sorted(second for one in self.clients for second in one.seconds)
        quarter = self.sizes[len(self.sizes) // 4]
        return {
            "answers": dict(answers.most_common()), "happened": dict(self.counts), "comparisons": self.live.counts["comparisons"],
            "entries compared": self.live.counts["entries compared"], "half within ms": round(1000 * times[len(times) // 2]),
            "99 % within ms": round(1000 * times[len(times) * 99 // 100]), "slowest ms": round(1000 * times[-1]),
            "MB of gated, first quarter, end and most": [round(it[0] / 1e6, 1) for it in (quarter, self.sizes[-1], max(self.sizes))],
        }  # fmt: skip


def coins_for(live, clients):
    """Coins for each client, each of a payment that a few blocks have confirmed."""
    each = -(-clients * COINS // len(live.first))
    made = []
    for coin in live.first:
        value = (coin.value - 100_000) // each
        tx = Transaction([coin.input()], [Output(value, script_of(coin.truth))] * each)
        same("sent", live.node.ask("sendrawtransaction", tx.hex(), 0), tx.txid())
        made += [Coin(tx.hash(), index, value, coin.truth) for index in range(each)]
    live.generate(6)
    return [made[at : at + COINS] for at in range(0, clients * COINS, COINS)]


def cut(process):
    """Cuts all connections of a process to its node and its callers, as if the other end did; how many there were."""
    count = 0
    for it in sockets_of(process):
        # what listens has no other end
        with it, contextlib.suppress(OSError):
            if it.family == socket.AF_INET and it.getpeername():
                it.shutdown(socket.SHUT_RDWR)
                count += 1
    return count


def sockets_of(process):
    """The sockets that a process has open, each once more for this one."""
    handle, call = os.pidfd_open(process.pid), ctypes.CDLL(None).syscall
    try:
        for name in os.listdir("/proc/%d/fd" % process.pid):
            # none, if it was closed just now
            number = call(PIDFD_GETFD, handle, int(name), 0)
            if number >= 0 and stat.S_ISSOCK(os.fstat(number).st_mode):
                yield socket.socket(fileno=number)
            elif number >= 0:
                os.close(number)
    finally:
        os.close(handle)


def confirmed(live):
    """The txids of the node's chain."""
    found = set()
    for height in range(live.node.ask("getblockcount") + 1):
        found.update(live.node.ask("getblock", live.node.ask("getblockhash", height))["tx"])
    return found


@contextlib.contextmanager
def made(folder):
    """A new folder of this name that is kept, or without a name one for a while."""
    if folder is None:
        with tempfile.TemporaryDirectory(prefix="gated-lasting-") as found:
            yield found
    else:
        os.mkdir(folder)
        yield os.path.abspath(folder)


def lasting(gate, seconds, clients, kept=None, pace=Pace()):
    """The run. Its figures go to standard error, before and after the journal is audited."""
    program = next(filter(None, map(shutil.which, NODES)), None)
    if program is None:
        raise unittest.SkipTest("none of %s is on this machine" % ", ".join(NODES))
    with made(kept) as folder:
        live, is_over = Live(gate, program, folder), threading.Event()
        try:
            way = live.start()
            live.hashes = [live.node.ask("getblockhash", it) for it in range(100)]
            run = Lasting(live, clients, is_over, pace)
            with live.gated:
                try:
                    run.run(seconds)
                finally:
                    is_over.set()
                paid = run.end()
                run.compare()
                live.generate(1)
                run.compare()
                same("payments that were lost", sorted(paid - confirmed(live)), [])
                run.say()
                since = {"differences since the last start": live.gated.differences(), "openings": sum(OPENED in line for line in live.gated.lines())}
                same("status", live.gated.end(), 0)
        finally:
            live.node.stop()
        (kind,) = set(live.gated.kinds())
        figures = {"gate": kind, "followed": way, "seconds": seconds, "clients": clients, **vars(pace), "payments, none lost": len(paid), **run.figures(), **since}
        print(json.dumps(figures, indent=1), file=sys.stderr, flush=True)
        # an audit replays in a part of the time in which callers asked
        lines, status = live.gated.audit(600 + seconds)
    same("the audit of %s" % lines, (status, [line for line in lines if not ENTRY.fullmatch(line)]), (0, []))
    print("legal: %d files, %d entries" % (len(lines), sum(int(ENTRY.fullmatch(it)[1]) for it in lines)), file=sys.stderr)


@long
def test_a_lasting_run(gate):
    """64 clients for four minutes beside a node of this machine, with blocks, a reorganisation and parts that are killed: no payment
    is lost, no answer is another's, and the pools are alike at each comparison."""
    lasting(gate, SECONDS, CLIENTS)


if __name__ == "__main__":
    words = argparse.ArgumentParser(description=__doc__, formatter_class=argparse.RawDescriptionHelpFormatter)
    words.add_argument("program", metavar="PROGRAM")
    words.add_argument("seconds", metavar="SECONDS", type=int, nargs="?", default=SECONDS)
    words.add_argument("clients", metavar="CLIENTS", type=int, nargs="?", default=CLIENTS)
    words.add_argument("--library", metavar="FOLDER")
    words.add_argument("--folder")
    words.add_argument("--pause", type=float, default=Pace.pause)
    words.add_argument("--patience", type=float, default=Pace.patience)
    asked = words.parse_args()
    gate, pace = Gate(os.path.abspath(asked.program), seconds=1200), Pace(asked.pause, asked.patience)
    hosting.SECONDS = max(hosting.SECONDS, asked.patience)
    hosting.LIBRARY = hosting.library_in(asked.library) if asked.library else None
    try:
        lasting(gate, asked.seconds, asked.clients, asked.folder, pace)
    except unittest.SkipTest as reason:
        print("left out: %s" % reason)
        print("0 passed, 0 failed")
    else:
        print("1 passed, 0 failed")
