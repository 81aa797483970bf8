#!/usr/bin/env python3
"""A load: 64 clients for a minute, beside a node of ours that takes transactions and finds blocks meanwhile.

  gated/tests/load.py PROGRAM [SECONDS] [CLIENTS]

Each client has a connection of its own, waits for each answer before its next call, and looks whether it is the answer to that
call: ids in order, and the transaction that it asked for. At the end: no answer was lost, the journal is legal, and the memory of
gated is flat. For a minute's load the gate's has to be flat, too.
"""

import http.client
import json
import os
import random
import sys
import threading
import time
from collections import Counter

HERE = os.path.dirname(os.path.abspath(__file__))
ROOT = os.path.dirname(os.path.dirname(HERE))
sys.path[:0] = [it for it in (HERE, os.path.dirname(HERE), os.path.join(ROOT, "tests"), os.path.join(ROOT, "tools")) if it not in sys.path]

from gate import Gate, same, true
from hosting import memory
from kinds import long
from model_node import COIN_VALUE, number_hash, payment_of
from test_following import Beside

CLIENTS, SECONDS = 64, 60
# a program without its proofs holds back what it has freed, to notice whoever still uses it: of that a megabyte is enough here
HELD_BACK = {"ASAN_OPTIONS": "quarantine_size_mb=1"}
# how much larger the memory may be at the end than after the first quarter
GROWTH = 1.25
GATE_MB = "MB of the gate, first quarter and end"


class Client(threading.Thread):
    """Calls one after another, and counts what comes back."""

    def __init__(self, number, it, until, trials):
        super().__init__(daemon=True)
        self.draw, self.it, self.until, self.trials = random.Random(number), it, until, trials
        self.number, self.answers, self.seconds, self.fault = number, Counter(), [], None

    def run(self):
        try:
            connection = http.client.HTTPConnection("127.0.0.1", self.it.gated.port, timeout=60)
            calls = 0
            while time.monotonic() < self.until:
                calls += 1
                self.call(connection, "%d-%d" % (self.number, calls))
        except Exception as error:  # told by the test, which waits for all of them
            self.fault = "%s: %s" % (type(error).__name__, error)

    def call(self, connection, id):
        kind = self.draw.random()
        if kind < 0.4:
            tx = self.draw.choice(self.trials)
            method, params = "testmempoolaccept", [[tx.hex()]]
        elif kind < 0.7:
            method, params = "getmempoolinfo", []
        else:
            method, params = "getrawmempool", []
        began = time.monotonic()
        status, _, text = self.it.gated.post(json.dumps({"method": method, "params": params, "id": id}), connection=connection)
        self.seconds.append(time.monotonic() - began)
        if status == 503:
            self.answers["503"] += 1
            return
        told = json.loads(text)
        if told["id"] != id:
            raise AssertionError("asked as %s, answered as %s" % (id, told["id"]))
        if told["error"] is not None:
            self.answers[str(told["error"]["code"])] += 1
            return
        if method == "testmempoolaccept" and told["result"][0]["txid"] != tx.txid():
            raise AssertionError("asked about %s, answered about %s" % (tx.txid(), told["result"]))
        self.answers[method] += 1


def is_flat(before, after, what):
    true("the memory of %s is flat: %s after a quarter of the time, %s at the end" % (what, before, after), after <= before * GROWTH)


def minute(gate, clients, seconds):
    """The load, with its figures printed and the gate's memory looked at."""
    figures = loaded(gate, clients, seconds)
    print(json.dumps(figures, indent=1), file=sys.stderr)
    is_flat(*figures[GATE_MB], "the gate, in MB,")


def loaded(gate, clients, seconds):
    """Runs the load, and gives its figures."""
    with Beside(gate, "--segment", "200000") as it:
        it.gated.start(**HELD_BACK)
        trials = [it.node.knows(payment_of((number_hash(it.spare.pop()), 0), COIN_VALUE, fee)) for fee in range(50, 1000, 50)]
        end = time.monotonic() + seconds
        running = [Client(number, it, end, trials) for number in range(clients)]
        for one in running:
            one.start()
        sizes, began = [], time.monotonic()
        while time.monotonic() < end:
            time.sleep(1)
            sizes.append(memory(it.gated.process.pid))
            if len(sizes) % 3 == 0 and it.spare:
                it.pay()
            if len(sizes) % 20 == 0:
                it.node.mine()
        for one in running:
            one.join(120)
        took = time.monotonic() - began
        faults = [one.fault for one in running if one.fault or one.is_alive()]
        same("faults of clients", faults, [])
        it.is_alike()
        it.agrees()
        same("openings", it.gated.metric("gate_openings_total"), 1)
        it.gated.end()
        entries = it.gated.is_legal(None)
    answers = sum((one.answers for one in running), Counter())
    times = sorted(second for one in running for second in one.seconds)
    quarter = sizes[max(0, len(sizes) // 4 - 1)]
    is_flat(quarter[0], sizes[-1][0], "gated")
    return {
        "answers": dict(answers), "a second": round(sum(answers.values()) / took), "half within ms": round(1000 * times[len(times) // 2], 1),
        "99 % within ms": round(1000 * times[len(times) * 99 // 100], 1), "slowest ms": round(1000 * times[-1]),
        "MB of gated, first quarter and end": [round(it[0] / 1e6, 1) for it in (quarter, sizes[-1])],
        GATE_MB: [round(it[1] / 1e6, 1) for it in (quarter, sizes[-1])], "entries of the journal": entries,
    }  # fmt: skip


@long
def test_sixty_four_clients(gate):
    """64 clients for a minute: no answer is lost, none is another's, and the memory is flat."""
    minute(gate, CLIENTS, SECONDS)


def test_eight_clients(gate):
    """Eight clients for five seconds: no answer is lost, none is another's, and the memory of gated is flat."""
    loaded(gate, 8, 5)


if __name__ == "__main__":
    given = [int(it) for it in sys.argv[2:]]
    minute(Gate(os.path.abspath(sys.argv[1]), seconds=600), given[1] if len(given) > 1 else CLIENTS, given[0] if given else SECONDS)
    print("1 passed, 0 failed")
