"""What lines move in the pool, beside what listings before and behind each of them show.

Behind each line of a run stand one that is no event and a listing. What is told of a line has to be the difference of the two
listings round it, in the order in which each has its txids; of the two that stand behind it nothing is told.
"""

import glob
import importlib.machinery
import importlib.util
import json
import os
import re
import subprocess
from collections import Counter, namedtuple

import caller_streams
import chain_streams
import family_streams
import living_streams
import random_streams
from gate import ROOT, Done, Gate, as_bytes, same, true

# whoever lists the pool, and a line of an opening that lets it, where others have lists
LISTING = b'user watcher rpc 0 {"method":"getrawmempool","id":0}'
ALLOWED = b"rpcwhitelist watcher:getrawmempool\n"
NO_EVENTS = b"# a comment", b"", b"nonsense"
SIGNS = b"- ", b"+ "
# a line of standard error that tells what moved
MOVED = re.compile(rb"gate: line (\d+): ([-+] [0-9a-f]{64})")
# a run of more lines, or a longer input, is not asked
MOST_LINES = 3000
MOST_BYTES = 1 << 20
# how often all streams together have to move something in each way
FLOORS = {
    "admitted": 500, "replaced": 140, "expired or trimmed": 40, "trimmed beside an A46": 35, "removed by blocks": 80, "returned": 20,
    "returned and removed": 45,
}

# what a line was answered, if it was, and the txids that left and came
Told = namedtuple("Told", "reply departed arrived")


def lines_of(text):
    found = text.split(b"\n")
    return found if found[-1] else found[:-1]


def watched(text):
    """The same input with two lines behind each event's, and how many lines the first part of it has; None if it has no events, or
    too many."""
    opening, mark, events = text.partition(b"\n---\n")
    lines = lines_of(events)
    if not mark or not lines or len(lines) > MOST_LINES or len(text) > MOST_BYTES:
        return None
    head = opening + b"\n" + (ALLOWED if b"\nrpcwhitelist" in b"\n" + opening else b"") + b"---\n"
    behind = [b"%s\n%s\n%s\n" % (line, NO_EVENTS[number % 3], LISTING) for number, line in enumerate(lines)]
    return head + b"".join(behind), head.count(b"\n")


def moved(lines):
    """The txids behind each sign."""
    return [tuple(line[2:] for line in lines if line.startswith(sign)) for sign in SIGNS]


def told_by_host(stdout):
    """What a host tells of each line, behind which it prints `=` (hosts/run.c and others)."""
    parts = stdout.split(b"=\n")
    for part in parts[:-1]:
        lines = part.splitlines()
        changes = [line for line in lines if line.startswith(SIGNS)]
        true("a reply, and then what moved: %r" % part, lines[len(lines) - len(changes):] == changes and len(lines) <= len(changes) + 1)
        true("an arrival before a departure: %r" % part, changes == sorted(changes, key=lambda line: line[:1] == b"+"))
        yield Told(lines[0] if len(lines) > len(changes) else None, *moved(changes))


class Watching(Gate):
    """A host of the library in the place of the program, which is asked after each line of a run what that moved."""

    def __init__(self, *given, **more):
        super().__init__(*given, **more)
        self.met = Counter()

    def told(self, text, before, done):
        """What is told of each line behind the opening."""
        return list(told_by_host(done.stdout))

    def watching(self, text):
        return super().run("run", text, env=dict(os.environ, CHANGES="1"))

    def run(self, words, stdin=b"", stdout=subprocess.PIPE, **more):
        """What a run prints without what is asked of it beside."""
        asked = watched(as_bytes(stdin)) if words == "run" and isinstance(stdin, (str, bytes)) else None
        if asked is None:
            return super().run(words, stdin, stdout, **more)
        done = self.watching(asked[0])
        told = self.told(*asked, done)
        self.compared(told)
        if not told:
            return done
        ended = done.stdout[done.stdout.rfind(b"=\n") + 2:] if b"=\n" in done.stdout else b""
        return Done(done.status, b"".join(it.reply + b"\n" for it in told[::3] if it.reply is not None) + ended, b"")

    def compared(self, told):
        """Compares what is told with the listings."""
        before = ()
        for event, between, listing in zip(told[::3], told[1::3], told[2::3]):
            after = tuple(txid.encode() for txid in json.loads(listing.reply.split(b" ", 2)[2])["result"])
            had, has = set(before), set(after)
            wanted = tuple(it for it in before if it not in has), tuple(it for it in after if it not in had)
            same("what %r moved" % event.reply, (event.departed, event.arrived), wanted)
            same("what the two lines behind it moved", (between[1:], listing[1:]), (((), ()), ((), ())))
            self.count(event)
            before = after

    def count(self, event):
        """Counts in which way something left."""
        if event.departed and event.reply.startswith(b"chain"):
            self.met["returned and removed" if event.arrived else "removed by blocks"] += 1
        elif event.departed and event.reply.startswith(b"denied A46"):
            self.met["trimmed beside an A46"] += 1
        elif event.departed and event.reply.startswith(b"rpc"):
            self.met["removed by a call"] += 1
        elif event.departed:
            self.met["expired or trimmed" if event.reply.endswith(b" replaced 0") else "replaced"] += 1
        elif event.arrived and event.reply.startswith(b"chain"):
            self.met["returned"] += 1
        elif event.arrived:
            self.met["admitted"] += 1


class Explaining(Watching):
    """The program with `--explain`, which tells what each line moved on standard error."""

    def told(self, text, before, done):
        changes, replies = {}, iter(done.stdout.splitlines())
        for found in filter(None, map(MOVED.fullmatch, done.stderr.splitlines())):
            changes.setdefault(int(found[1]), []).append(found[2])
        told = []
        for number, line in enumerate(lines_of(text)[before:] if done.status == 0 else (), before + 1):
            is_skipped = not line or line.startswith(b"#")
            reply = None if is_skipped else next(replies, None)
            if reply is None and not is_skipped:
                break
            told.append(Told(reply, *moved(changes.pop(number, []))))
        same("what is told of no line", changes, {})
        return told

    def watching(self, text):
        return Gate.run(self, "run --explain", text)


def streams(stand_in):
    """Random streams of each kind, whose replies are those of the plain model, too."""
    for seed in range(6):
        random_streams.stream(stand_in, seed)
        caller_streams.stream(stand_in, seed)
        family_streams.stream(stand_in, seed, "full", family_streams.EVENTS)
        family_streams.stream(stand_in, seed, "replacements", family_streams.EVENTS)
        chain_streams.stream(stand_in, seed)
        chain_streams.stream(stand_in, seed, True)
        living_streams.stream(stand_in, seed)


def asked_often(stand_in):
    """Fails if in these streams something moved in one of the ways less often than it has to."""
    streams(stand_in)
    same("moved too seldom", {kind: stand_in.met[kind] for kind, floor in FLOORS.items() if stand_in.met[kind] < floor}, {})


def runner_of_rows():
    """The file rows/run."""
    loader = importlib.machinery.SourceFileLoader("rows_run", os.path.join(ROOT, "rows", "run"))
    module = importlib.util.module_from_spec(importlib.util.spec_from_loader(loader.name, loader))
    loader.exec_module(module)
    return module


def rows(stand_in):
    """Runs each row of `run`, but for those of long inputs; some move something in each way."""
    runner = runner_of_rows()
    for at in sorted(glob.glob(os.path.join(ROOT, "rows", "*", "args"))):
        folder = os.path.dirname(at)
        if runner.read(folder, "args").split() not in ([b"run"], [b"run", b"--explain"]):
            continue
        text = runner.text_of(folder, "stdin")
        if watched(text):
            done = stand_in.run("run", text)
            same(os.path.basename(folder), (done.stdout, done.status), (runner.text_of(folder, "stdout"), int(runner.read(folder, "status"))))
    same("moved in no row", [kind for kind in FLOORS if not stand_in.met[kind]], [])
