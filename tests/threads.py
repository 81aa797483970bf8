"""Lanes on threads: that they run at once, their limits, and standard input and output."""

import os
import subprocess
import tempfile
import time

from bitcoin import Input, Output, Transaction, coin, number_hash, payment
from gate import ROOT, SECONDS, Differs, lines, same, true
from journals import raced
from streams import TOO_LONG, TOO_MANY, TOO_MANY_LANES, UNREAD, UNWRITTEN, goes_with_its_caller, past

OPENING = lines(["times 101 1000 600", "verdict * ok", "bloom 1", coin(1)])
TRIES = 5


def laned(lanes):
    return OPENING + "".join("---\n" + lane for lane in lanes)


def prints(gate, text, printed, words="lanes"):
    done = gate.run(words, text)
    same("standard output", done.stdout.decode(), printed)
    same("standard error", done.stderr, b"")
    same("status", done.status, 0)


def fails(gate, text, error, words="lanes"):
    """Nothing is printed, and standard error says why."""
    done = gate.run(words, text)
    same("standard output", done.stdout, b"")
    same("standard error", done.stderr, error)
    same("status", done.status, 1)


def test_lanes_take_turns(gate):
    """Two lanes of 49,000 calls each: neither waits until the other is done, which some try shows."""
    calls = 49000
    text = laned("peer %d leave\n" % peer * calls for peer in (1, 2))
    for _ in range(TRIES):
        found, count, journal = raced(gate, text)
        same("replies", [(len(lane), set(lane)) for lane in found], [(calls, {"denied P1 keep peer-unknown"})] * 2)
        same("settled", (count, len(journal)), (2 * calls, 2 * calls))
        turns = sum(one[0] != other[0] for one, other in zip(journal, journal[1:]))
        if turns > 1:
            return
    raise Differs("in %d tries one lane was always called after the other" % TRIES)


def most_threads(gate, text, words="lanes"):
    """The greatest number of threads that the program was seen with, and what it printed."""
    with tempfile.TemporaryFile() as file, tempfile.TemporaryFile() as printed:
        file.write(text.encode())
        file.seek(0)
        process = subprocess.Popen(gate.words(words), stdin=file, stdout=printed, stderr=subprocess.PIPE)
        most, end = 0, time.monotonic() + SECONDS
        while process.poll() is None and time.monotonic() < end:
            try:
                most = max(most, len(os.listdir("/proc/%d/task" % process.pid)))
            except FileNotFoundError:
                pass
        process.kill()
        same("standard error", process.communicate()[1], b"")
        same("status", process.returncode, 0)
        printed.seek(0)
        return most, printed.read().decode()


def test_a_thread_for_each_lane(gate):
    """64 lanes are seen on 64 threads at once, beside the first or with it."""
    low = payment(1, 99999)
    lane = "peer %d enter 192.0.2.1\n" + "peer %d tx 5000 {}\n".format(low.hex()) * 1500
    replies = ["entered none"] + ["denied A35 keep min relay fee not met"] * 1500
    text = laned(lane.replace("%d", str(peer)) for peer in range(64))
    wanted = "".join(lines(["lane %d" % number] + replies) for number in range(1, 65)) + "settled %d\n" % (64 * 1501)
    most = 0
    for _ in range(TRIES):
        seen, printed = most_threads(gate, text)
        same("standard output", printed, wanted)
        most = max(most, seen)
        if most >= 64:
            return
    raise Differs("at most %d threads were seen" % most)


def test_workers_start_with_two_inputs(gate):
    """64 lanes that may have 64 workers each, and submit one input at a time, have one thread each beside their own."""
    low = payment(1, 99999)
    lane = "peer %d enter 192.0.2.1\n" + "peer %d tx 5000 {}\n".format(low.hex()) * 500
    replies = ["entered none"] + ["denied A35 keep min relay fee not met"] * 500
    text = laned(lane.replace("%d", str(peer)) for peer in range(64))
    wanted = "".join(lines(["lane %d" % number] + replies) for number in range(1, 65)) + "settled %d\n" % (64 * 501)
    seen, printed = most_threads(gate, text, "lanes --workers 64")
    same("standard output", printed, wanted)
    true("%d threads were seen, where each lane has two" % seen, seen <= 129)


def test_workers_of_one_lane(gate):
    """A lane that submits two inputs at a time has its 64 threads, which some try shows, and no more."""
    low = Transaction([Input(number_hash(1)), Input(number_hash(2))], [Output(199999)])
    opening = lines(["times 101 1000 600", "verdict * ok", coin(1), coin(2)])
    text = opening + "---\npeer 1 enter 192.0.2.1\n" + "peer 1 tx 5000 {}\n".format(low.hex()) * 5000
    wanted = lines(["lane 1", "entered none"] + ["denied A35 keep min relay fee not met"] * 5000 + ["settled 5001"])
    most = 0
    for _ in range(TRIES):
        seen, printed = most_threads(gate, text, "lanes --workers 64")
        same("standard output", printed, wanted)
        true("%d threads were seen, where there is one lane" % seen, seen <= 65)
        most = max(most, seen)
        if most >= 60:
            return
    raise Differs("at most %d threads were seen" % most)


def test_a_pass_is_full(gate):
    """A lane makes 65,536 calls; the next is refused, and changes nothing. Other lanes have room of their own."""
    most = 65536
    lanes = ["operator bloom off\n" * most + "operator floor 5000\nx\n", 'user a rpc 0 {"method":"getmempoolinfo","id":1}\n']
    info = 'rpc 200 {"error":null,"id":1,"result":{"bytes":0,"maxmempool":300000000,"mempoolminfee":1000,"minrelaytxfee":1000,"size":0}}'
    prints(gate, laned(lanes), lines(["lane 1"] + ["set"] * most + ["fault pass-full", "refused L1 bad-line", "lane 2", info, "settled %d" % (most + 1)]))


def test_the_journal_is_full(gate):
    """100,000 calls are settled; what comes after them, in any lane, is refused."""
    lanes = ["peer %d leave\n" % peer * 25100 for peer in range(4)]
    found, count, journal = raced(gate, laned(lanes))
    refused = [sum(reply == "fault audit-full" for reply in lane) for lane in found]
    same("settled, and refused", (count, len(journal), sum(refused)), (100000, 100000, 400))
    for lane, number in zip(found, refused):
        same("refused at a lane's end", lane, ["denied P1 keep peer-unknown"] * (25100 - number) + ["fault audit-full"] * number)


def test_a_lane_is_of_its_first_caller(gate):
    """Another caller's event is refused, and the lane goes on; a line without form takes no pass."""
    lanes = ["x\npeer 1 enter 192.0.2.1\npeer 2 enter 192.0.2.1\nuser a rpc 0 1\nchain 0 0\noperator bloom off\npeer 1 leave", "", "#\n\nx\n", "peer 2 leave\n"]
    prints(gate, laned([lanes[0] + "\n"] + lanes[1:]), lines(
        ["lane 1", "refused L1 bad-line", "entered none"] + ["fault wrong-caller"] * 4 + ["left", "lane 2", "lane 3", "refused L1 bad-line", "lane 4", "denied P1 keep peer-unknown", "settled 3"]))


def test_two_lanes_of_one_caller(gate):
    """They have a pass each: of two who enter with one number one is refused."""
    found, count, journal = raced(gate, laned(["peer 1 enter 192.0.2.1\n"] * 2))
    same("replies", (sorted(found), count), ([["denied P3 keep peer-known"], ["entered none"]], 2))
    same("journal", journal, [("peer 1 enter 192.0.2.1", "entered none"), ("peer 1 enter 192.0.2.1", "denied P3 keep peer-known")])


def test_breaks_between_lanes(gate):
    """A line `---` ends a lane, also where the lane is empty; the last line needs no newline."""
    prints(gate, OPENING, "lane 1\nsettled 0\n")
    prints(gate, OPENING + "---", "lane 1\nsettled 0\n")
    prints(gate, OPENING + "---\n---", "lane 1\nlane 2\nsettled 0\n")
    prints(gate, OPENING + "---\npeer 1 leave\n--- \n---\r\n----\n---\npeer 1 leave", lines(
        ["lane 1", "denied P1 keep peer-unknown"] + ["refused L1 bad-line"] * 3 + ["lane 2", "denied P1 keep peer-unknown", "settled 2"]))


def test_the_journal_is_asked_for(gate):
    """Without `--journal` it is not printed; with it, it stands behind the number of calls."""
    prints(gate, laned(["peer 1 leave\n"]), "lane 1\ndenied P1 keep peer-unknown\nsettled 1\n")
    prints(gate, laned(["peer 1 leave\n"]), "lane 1\ndenied P1 keep peer-unknown\nsettled 1\n> peer 1 leave\n< denied P1 keep peer-unknown\n", "lanes --journal")
    prints(gate, laned([""]), "lane 1\nsettled 0\n", "lanes --journal")


def test_lanes_past_a_limit(gate):
    """65 lanes, a line too long and too many lines: nothing is printed, since no lane was run."""
    prints(gate, laned([""] * 64), lines("lane %d" % number for number in range(1, 65)) + "settled 0\n")
    before = OPENING.count("\n")
    fails(gate, laned([""] * 65), past(before + 65, TOO_MANY_LANES))
    fails(gate, laned(["peer 1 leave\n", "x" * 16777217]), past(before + 4, TOO_LONG))
    fails(gate, laned(["peer 1 leave\n", "\n" * 999999]), past(before + 1000002, TOO_MANY))
    prints(gate, laned(["peer 1 leave\n", "\n" * 999998]), "lane 1\ndenied P1 keep peer-unknown\nlane 2\nsettled 1\n")
    prints(gate, laned(["#".ljust(16777216, "x") + "\n"]), "lane 1\nsettled 0\n")


def test_a_full_device(gate):
    """Where nothing can be written the status is 1, and one line says why."""
    for words, text in (("lanes", laned(["peer 1 leave\n"])), ("lanes", laned(["peer 1 leave\n" * 60000])), ("lanes --journal", laned([""])),
                        ("audit", OPENING), ("audit", OPENING + "---\nx\n"), ("lanes --help", ""), ("audit --help", "")):
        with open("/dev/full", "wb") as full:
            done = gate.run(words, text, stdout=full)
        same("standard error", done.stderr, UNWRITTEN)
        same("status", done.status, 1)


def test_an_input_that_cannot_be_read(gate):
    """A folder as standard input: status 1, and one line says why."""
    for words in ("lanes", "lanes --journal", "audit"):
        folder = os.open(ROOT, os.O_RDONLY)
        try:
            fails(gate, folder, UNREAD, words)
        finally:
            os.close(folder)


def test_a_caller_that_goes(gate):
    """A caller that closes its end of the pipe ends the program, by its signal or by status 1, and nothing hangs."""
    goes_with_its_caller(gate, "lanes", laned(["peer %d leave\n" % peer * 10000 for peer in range(8)]))
    goes_with_its_caller(gate, "audit", OPENING + "---\n" + "> peer 1 leave\n< denied P1 keep peer-unknown\n" * 50000)


def test_the_program_ends_when_its_output_is_whole(gate):
    """Nothing is printed before the input's end, and all of it after that."""
    process = subprocess.Popen(gate.words("lanes"), stdin=subprocess.PIPE, stdout=subprocess.PIPE)
    process.stdin.write(laned(["peer 1 leave\n"]).encode())
    process.stdin.flush()
    time.sleep(0.1)
    true("it ended before its input", process.poll() is None)
    same("standard output", process.communicate(timeout=SECONDS)[0], b"lane 1\ndenied P1 keep peer-unknown\nsettled 1\n")
    same("status", process.returncode, 0)
