"""Inputs and outputs that fail anywhere, or give and take a few bytes at a time; and that nothing is read past a limit."""

from bitcoin import Input, Output, Transaction, coin, number_hash, payment
from failing import ALWAYS, EINTR, EIO, ENOSPC, failing
from gate import lines, same, true
from sizes import ENTER, admitted, opening, submitted
from streams import SECONDS, TOO_LONG, TOO_MANY, TOO_MANY_LANES, UNREAD, UNWRITTEN, Talk, past

BUFFER = 65536
LONGEST = 16777216
MOST_LINES = 1000000
MOST_DIGITS = 67108864
UNDECODABLE = "denied A1 tx-decode\n"
HEAD = lines(opening(coin(1))) + "---\n"
HEAD_LINES = HEAD.count("\n")
FORM = past(1, '"2" is unknown; expected 0 or 1')
TX = payment(1, 99000)
TALK = [
    ENTER,
    (submitted(TX), admitted(TX, 1000, 1)),
    ("# a comment", None),
    ("nonsense", "refused L1 bad-line"),
    ("peer 1 mempool", "listing 1 " + TX.txid()),
    ("peer 1 leave", "left"),
]
EVENTS = lines(event for event, _ in TALK)
REPLIES = [reply for _, reply in TALK]
JOURNAL = "".join("> %s\n< %s\n" % pair for pair in TALK if pair[1] and not pair[1].startswith("refused"))
RIGHT = {
    "run": (HEAD + EVENTS, lines(filter(None, REPLIES))),
    "lanes --journal": (HEAD + EVENTS, lines(["lane 1"] + [it for it in REPLIES if it] + ["settled 4"]) + JOURNAL),
    "audit": (HEAD + JOURNAL, "legal 4\n"),
    "check -": ("\n " + TX.hex() + " \n", "%s %s %d\nstandard\n" % (TX.txid(), TX.wtxid(), TX.weight())),
}


def answered(read):
    """The reply lines to the whole lines of so many bytes of the input of `gate run`."""
    told = (HEAD + EVENTS)[len(HEAD) : read].count("\n")
    return lines(filter(None, REPLIES[:told]))


def each_read(gate, words, most, error, status=1):
    """Fails each read in turn, once; what was read before it, and what the program came to."""
    text, right = RIGHT[words]
    for number in range(1, len(text) // most + 10):
        done = failing(gate.program, words, text, read=number, read_error=error, reads_most=most)
        if done.status == 0:
            same("gate %s after all reads" % words, (done.stdout.decode(), done.stderr), (right, b""))
            true("gate %s ended before its input did" % words, number > len(text) // most)
            return
        what = "gate %s, read %d" % (words, number)
        same(what, (done.status, done.stderr), (status, UNREAD))
        same(what + ": it was the last", done.read, min(most * (number - 1), len(text)))
        yield what, done


def test_a_failed_read_of_a_run(gate):
    """The replies to the whole lines before it are out, and nothing is read after it; an interrupted read is a failed read."""
    for most, error in ((16, EIO), (7, EINTR)):
        for what, done in each_read(gate, "run", most, error):
            same(what, done.stdout.decode(), answered(done.read))


def test_a_failed_read_of_lanes_and_audits(gate):
    """Nothing is printed."""
    for words in ("lanes --journal", "audit"):
        for most, error in ((32, EIO), (51, EINTR)):
            for what, done in each_read(gate, words, most, error):
                same(what, done.stdout, b"")


def test_a_failed_read_of_a_check(gate):
    """An interrupted read is a failed read here too."""
    for most, error in ((5, EIO), (7, EINTR)):
        for what, done in each_read(gate, "check -", most, error):
            same(what, done.stdout, b"")


def test_a_few_bytes_at_a_time(gate):
    """Inputs that give one, three or 4,096 bytes at a time, and outputs that take so many, make no difference."""
    for words, (text, right) in RIGHT.items():
        for most in (1, 3, 4096):
            done = failing(gate.program, words, text, reads_most=most, writes_most=most)
            same("gate %s, %d bytes at a time" % (words, most), (done.status, done.stdout.decode(), done.stderr), (0, right, b""))


def is_front(what, found, right, least):
    """At least so many bytes went out, and they are a front of the right text."""
    same(what, found, right[: max(len(found), least)])


def test_a_failed_write(gate):
    """Each write fails in turn, once, where each takes a byte: a front of the right text goes out, and the status tells of it.

    What a write did not take may be tried once more as the program ends.
    """
    for words, (text, right) in RIGHT.items():
        step = 1 if words == "run" else 7
        for error, numbers in ((ENOSPC, range(1, len(right) + 1, step)), (EIO, (1, 2, len(right) // 2, len(right)))):
            for number in numbers:
                done = failing(gate.program, words, text, write=number, write_error=error, writes_most=1)
                what = "gate %s, write %d" % (words, number)
                same(what, (done.status, done.stderr), (1, UNWRITTEN))
                is_front(what, done.stdout, right.encode(), number - 1)


def test_failed_writes_of_long_outputs(gate):
    """The same where a write takes many replies: a front of whole writes."""
    count = 20000
    text, right = HEAD + "peer 1 leave\n" * count, b"denied P1 keep peer-unknown\n" * count
    went = 0
    for number in range(1, 100):
        done = failing(gate.program, "run", text, write=number)
        if done.status == 0:
            same("the whole output", done.stdout, right)
            break
        same("write %d" % number, (done.status, done.stderr), (1, UNWRITTEN))
        is_front("write %d" % number, done.stdout, right, went + 1 if went else 0)
        went = len(done.stdout)
    true("there were some writes, and the first that failed ended the run", number > 2)


def test_all_reads_and_all_writes_fail(gate):
    for words, (text, _) in RIGHT.items():
        done = failing(gate.program, words, text, read=ALWAYS)
        same("gate %s without an input" % words, (done.status, done.stdout, done.stderr), (1, b"", UNREAD))
        done = failing(gate.program, words, text, write=ALWAYS)
        same("gate %s without an output" % words, (done.status, done.stdout, done.stderr), (1, b"", UNWRITTEN))


def test_no_random_numbers(gate):
    """Tables that peers' ids go into have keys that nobody knows, or the program ends."""
    for words in ("run", "lanes", "audit"):
        done = failing(gate.program, words, RIGHT["run"][0], entropy=1)
        same("gate " + words, (done.status, done.stdout, done.stderr), (1, b"", b"gate: no random numbers for the hash tables\n"))


def test_no_threads(gate):
    """Where a thread can't be made, and where none can, every lane is answered all the same, and two inputs are checked."""
    both = Transaction([Input(number_hash(1)), Input(number_hash(2))], [Output(199000)])
    lanes = [lines(["peer 0 enter 192.0.2.1", "peer 0 tx 5000 " + both.hex()])] + ["peer %d leave\n" % peer * 3 for peer in range(1, 4)]
    text = lines(opening(coin(1), coin(2))) + "".join("---\n" + lane for lane in lanes)
    replies = [["entered none", admitted(both, 1000, 2)]] + [["denied P1 keep peer-unknown"] * 3] * 3
    wanted = "".join(lines(["lane %d" % (number + 1)] + told) for number, told in enumerate(replies)) + "settled 11\n"
    for words in ("lanes", "lanes --workers 3"):
        for thread in (*range(1, 8), ALWAYS):
            done = failing(gate.program, words, text, thread=thread)
            same("gate %s without thread %d" % (words, thread), (done.status, done.stdout.decode(), done.stderr), (0, wanted, b""))


def reads_no_further(gate, words, text, limit, status, stdout, stderr=b""):
    """Of a long input no more is read than a buffer behind the limit."""
    done = failing(gate.program, words, text + "x" * (8 * BUFFER))
    same("gate %s on %d bytes" % (words, len(text)), (done.status, done.stdout.decode(), done.stderr), (status, stdout, stderr))
    true("gate %s read %d bytes behind its limit" % (words, done.read - limit), done.read <= limit + BUFFER)


def test_files_are_read_to_the_limit(gate):
    """An input that goes on behind a limit is left unread."""
    long = "x" * (LONGEST + 1)
    reads_no_further(gate, "run", "bloom 2\n", 0, 2, "opening 1 bad-line\n", FORM)
    reads_no_further(gate, "run", long, LONGEST, 2, "opening 1 bad-line\n", past(1, TOO_LONG))
    reads_no_further(gate, "run", "\n" * MOST_LINES, MOST_LINES, 2, "opening 1000001 bad-line\n", past(MOST_LINES + 1, TOO_MANY))
    reads_no_further(gate, "run", HEAD + long, len(HEAD) + LONGEST, 0, "refused L2 line-too-long\n")
    reads_no_further(gate, "run", HEAD + "\n" * MOST_LINES, len(HEAD) + MOST_LINES, 0, "refused L3 too-many-lines\n")
    reads_no_further(gate, "lanes", HEAD + long, len(HEAD) + LONGEST, 1, "", past(HEAD_LINES + 1, TOO_LONG))
    reads_no_further(gate, "lanes", HEAD + "\n" * MOST_LINES, len(HEAD) + MOST_LINES, 1, "", past(HEAD_LINES + MOST_LINES + 1, TOO_MANY))
    reads_no_further(gate, "lanes", HEAD + "---\n" * 64, len(HEAD), 1, "", past(HEAD_LINES + 64, TOO_MANY_LANES))
    reads_no_further(gate, "audit", HEAD + "> peer 1 leave\n< left\n", len(HEAD), 1, "illegal 1\n")
    reads_no_further(gate, "audit", HEAD + "> " + long, len(HEAD) + LONGEST, 1, "", past(HEAD_LINES + 1, TOO_LONG))
    reads_no_further(gate, "audit", HEAD + "\n" * MOST_LINES, len(HEAD) + MOST_LINES, 1, "", past(HEAD_LINES + MOST_LINES + 1, TOO_MANY))
    reads_no_further(gate, "check " + TX.hex(), "", 0, 0, RIGHT["check -"][1])
    for text in ("0" * MOST_DIGITS, "\n" * MOST_DIGITS, "ab\n" * (MOST_DIGITS // 3) + "ab"):
        reads_no_further(gate, "check -", text, MOST_DIGITS, 1, UNDECODABLE)


def ends_while_open(gate, words, text, status, stdout, stderr=b""):
    """The program ends while its input is still open."""
    with Talk(gate, words) as talk:
        try:
            talk.say(text)
        except BrokenPipeError:
            pass
        found = talk.process.wait(SECONDS)
        same("gate " + words, (found, talk.process.stdout.read().decode(), talk.process.stderr.read()), (status, stdout, stderr))


def test_the_program_ends_at_a_limit(gate):
    """At a limit the program ends, though its input is held open."""
    many, long = "\n" * MOST_LINES + "x", "x" * (LONGEST + 1)
    ends_while_open(gate, "run", long, 2, "opening 1 bad-line\n", past(1, TOO_LONG))
    ends_while_open(gate, "run", many, 2, "opening 1000001 bad-line\n", past(MOST_LINES + 1, TOO_MANY))
    ends_while_open(gate, "run", HEAD + many, 0, "refused L3 too-many-lines\n")
    ends_while_open(gate, "lanes", HEAD + many, 1, "", past(HEAD_LINES + MOST_LINES + 1, TOO_MANY))
    ends_while_open(gate, "lanes", HEAD + long, 1, "", past(HEAD_LINES + 1, TOO_LONG))
    ends_while_open(gate, "lanes", "bloom 2\n", 2, "opening 1 bad-line\n", FORM)
    ends_while_open(gate, "audit", HEAD + many, 1, "", past(HEAD_LINES + MOST_LINES + 1, TOO_MANY))
    ends_while_open(gate, "audit", HEAD + "> " + long, 1, "", past(HEAD_LINES + 1, TOO_LONG))
    ends_while_open(gate, "audit", HEAD + "> peer 1 leave\n< left\n", 1, "illegal 1\n")
    ends_while_open(gate, "audit", HEAD + "> nonsense\n", 1, "illegal 1\n")
    ends_while_open(gate, "audit", "bloom 2\n", 2, "opening 1 bad-line\n", FORM)
    ends_while_open(gate, "check " + TX.hex(), "x", 0, RIGHT["check -"][1])
    ends_while_open(gate, "check -", "0" * (MOST_DIGITS + 1), 1, UNDECODABLE)
    ends_while_open(gate, "check -", "\n" * (MOST_DIGITS + 1), 1, UNDECODABLE)


def test_a_check_to_the_limit(gate):
    """What stands before the limit is read: a transaction with white space around it, up to the last byte that is read."""
    room = MOST_DIGITS - len(TX.hex())
    for text in (TX.hex() + "\n" * room, " " * room + TX.hex(), " " * (room // 2) + TX.hex() + "\n" * (room - room // 2)):
        done = gate.run("check -", text)
        same("a transaction in %d bytes" % len(text), (done.status, done.stdout.decode(), done.stderr), (0, RIGHT["check -"][1], b""))
    done = gate.run("check -", TX.hex() + "\n" * (room + 1))
    same("a byte more", (done.status, done.stdout.decode(), done.stderr), (1, UNDECODABLE, b""))
