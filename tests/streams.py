"""Standard input and output: what is out when, what fails, and what is said then."""

import os
import resource
import select
import signal
import socket
import subprocess
import tempfile
import time

from bitcoin import coin, payment
from gate import ROOT, Differs, lines, same, true

SECONDS = 20
OPENING = "times 101 1000 600\nverdict * ok\nbloom 1\n---\n"
UNWRITTEN = b"gate: the output could not be written\n"
UNREAD = b"gate: the input could not be read\n"
TOO_LONG, TOO_MANY, TOO_MANY_LANES = "more than 16,777,216 bytes", "1,000,000 lines are the most", "a 65th lane; 64 are the most"
NO_MEMORY = b"gate: out of memory\n"


def past(line, limit):
    """What is said of an input that goes past a limit at this line."""
    return ("gate: line %d: %s\n" % (line, limit)).encode()


def said(done, status, line):
    """A failed run: one line on standard error, and status 1."""
    same("standard error", done.stderr, line)
    same("status", done.status, status)


class Talk:
    """The program with its standard input held open."""

    def __init__(self, gate, words="run"):
        self.process = subprocess.Popen(gate.words(words), stdin=subprocess.PIPE, stdout=subprocess.PIPE, stderr=subprocess.PIPE)
        self.got = b""

    def __enter__(self):
        return self

    def __exit__(self, *error):
        self.process.kill()
        self.process.communicate()

    def say(self, text):
        self.process.stdin.write(text.encode())
        self.process.stdin.flush()

    def hears(self, wanted):
        """Reads exactly this, which has to come while nothing more is written."""
        end = time.monotonic() + SECONDS
        while len(self.got) < len(wanted):
            ready, _, _ = select.select([self.process.stdout], [], [], max(0, end - time.monotonic()))
            if not ready:
                raise Differs("no reply within %d seconds: %r, wanted %r" % (SECONDS, self.got, wanted))
            piece = os.read(self.process.stdout.fileno(), 65536)
            if not piece:
                break
            self.got += piece
        same("heard", self.got, wanted.encode())
        self.got = b""

    def ends(self, status):
        rest, error = self.process.communicate(timeout=SECONDS)
        same("the rest of standard output", rest, b"")
        same("standard error", error, b"")
        same("status", self.process.returncode, status)


def test_each_reply_is_out(gate):
    """A caller that waits for each reply before it writes the next line gets it."""
    with Talk(gate) as talk:
        talk.say(OPENING)
        for peer in range(50):
            talk.say("peer %d enter 192.0.2.1\n" % peer)
            talk.hears("entered none\n")
        talk.say("peer 1 leave\npeer 2 leave\npeer 2 leave\n")
        talk.hears("left\nleft\ndenied P2 keep peer-closed\n")
        talk.process.stdin.close()
        talk.process.stdin = None
        talk.ends(0)


def test_a_reply_is_out_before_half_a_line(gate):
    """Half of the next line does not hold back the reply, and neither does a comment."""
    with Talk(gate) as talk:
        talk.say(OPENING + "peer 1 enter 192.0.2.1\npeer 1 le")
        talk.hears("entered none\n")
        talk.say("ave\n# a comment")
        talk.hears("left\n")
        talk.say("\n\npeer 1 leave\n#\n\n# half a com")
        talk.hears("denied P2 keep peer-closed\n")
        talk.say("ment\npeer 1 mempool")
        talk.process.stdin.close()
        talk.process.stdin = None
        talk.process.wait(SECONDS)
        talk.hears("denied P2 keep peer-closed\n")
        talk.ends(0)


def test_a_reply_is_out_after_many(gate):
    """Many replies at once are out before the program waits for more."""
    with Talk(gate) as talk:
        talk.say(OPENING)
        for _ in range(5):
            talk.say("peer 7 leave\n" * 1000)
            talk.hears("denied P1 keep peer-unknown\n" * 1000)


def test_a_fault_of_the_opening_is_out(gate):
    """The line of a fault is out, and the program ends, while the input is open."""
    with Talk(gate) as talk:
        talk.say("times 101 1000 600\nbudget\n")
        talk.hears("opening 2 bad-line\n")
        same("status", talk.process.wait(SECONDS), 2)


def test_a_line_too_long_is_out(gate):
    """L2 is out, and the program ends, while the input is open."""
    with Talk(gate) as talk:
        talk.say(OPENING)
        try:
            talk.say("x" * 16777217)
        except BrokenPipeError:
            pass
        talk.hears("refused L2 line-too-long\n")
        same("status", talk.process.wait(SECONDS), 0)


def test_a_full_device(gate):
    """Where nothing can be written the status is 1, and one line says why; what is wrong with an opening is told before."""
    events = OPENING + "peer 1 enter 192.0.2.1\n"
    for words, stdin in (("run", events), ("run", events * 5000), ("check 00", ""), ("check -", "00"), ("--help", ""), ("check --help", ""), ("--version", "")):
        with open("/dev/full", "wb") as full:
            said(gate.run(words, stdin, stdout=full), 1, UNWRITTEN)
    for words in ("run", "lanes", "audit"):
        with open("/dev/full", "wb") as full:
            said(gate.run(words, "bloom 2\n", stdout=full), 1, past(1, '"2" is unknown; expected 0 or 1') + UNWRITTEN)


def test_nothing_to_write_on_a_full_device(gate):
    """A run without replies writes nothing, so nothing fails."""
    with open("/dev/full", "wb") as full:
        done = gate.run("run", OPENING + "# nothing\n", stdout=full)
    same("status", (done.status, done.stderr), (0, b""))


def test_standard_error_full(gate):
    """Where standard error takes nothing either, the status says it."""
    with open("/dev/full", "wb") as full:
        done = subprocess.run(gate.words("run"), input=b"x\n", stdout=full, stderr=full, timeout=SECONDS)
        same("status", done.returncode, 1)
        done = subprocess.run(gate.words("run x"), stdout=subprocess.PIPE, stderr=full, timeout=SECONDS)
        true("status %d" % done.returncode, done.returncode in (1, 2))


def test_an_input_that_cannot_be_read(gate):
    """A folder as standard input: status 1, and one line says why."""
    for words in ("run", "check -"):
        folder = os.open(ROOT, os.O_RDONLY)
        try:
            done = gate.run(words, folder)
        finally:
            os.close(folder)
        same("standard output", done.stdout, b"")
        said(done, 1, UNREAD)


def test_want_of_memory(gate):
    """Little memory: status 1, and one line says why."""
    def little():
        resource.setrlimit(resource.RLIMIT_AS, (48 << 20, 48 << 20))

    coins = [coin(number) for number in range(1, 200001)]
    with tempfile.TemporaryFile() as file:
        file.write(("times 101 1000 600\n" + lines(coins) + "---\n").encode())
        file.seek(0)
        done = gate.run("run", file, preexec_fn=little)
    same("standard output", done.stdout, b"")
    said(done, 1, NO_MEMORY)
    with tempfile.TemporaryFile() as file:
        file.write(b"00" * 33000000)
        file.seek(0)
        done = gate.run("check -", file, preexec_fn=little)
    same("standard output", done.stdout, b"")
    said(done, 1, NO_MEMORY)


def goes_with_its_caller(gate, words, text):
    """The program ends, by its signal or by status 1, where its caller closes its end of the pipe."""
    process = subprocess.Popen(gate.words(words), stdin=subprocess.PIPE, stdout=subprocess.PIPE, stderr=subprocess.PIPE)
    process.stdout.close()
    process.stdout = None
    try:
        _, error = process.communicate(text.encode(), timeout=SECONDS)
    except subprocess.TimeoutExpired:
        process.kill()
        process.communicate()
        raise Differs("it did not end within %d seconds" % SECONDS)
    if process.returncode != -signal.SIGPIPE:
        same("status", (process.returncode, error), (1, UNWRITTEN))


def test_a_caller_that_goes(gate):
    """A caller that closes its end of the pipe ends the program, by its signal or by status 1, and nothing hangs."""
    for text in (OPENING + "peer 1 leave\n" * 100000, OPENING + "x\n"):
        goes_with_its_caller(gate, "run", text)


def test_few_writes(gate):
    """3,000 replies to a file take at most 300 writes. Each write to this socket is one message, so they are counted."""
    count = 3000
    ours, theirs = socket.socketpair(socket.AF_UNIX, socket.SOCK_SEQPACKET)
    ours.settimeout(SECONDS)
    with ours, tempfile.TemporaryFile() as file:
        file.write((OPENING + "peer 1 leave\n" * count).encode())
        file.seek(0)
        process = subprocess.Popen(gate.words("run"), stdin=file, stdout=theirs, stderr=subprocess.PIPE)
        theirs.close()
        messages = []
        try:
            while True:
                message = ours.recv(1 << 20)
                if not message:
                    break
                messages.append(message)
        except socket.timeout:
            raise Differs("it did not end within %d seconds" % SECONDS)
        finally:
            process.kill()
            process.communicate()
    same("the replies", b"".join(messages), b"denied P1 keep peer-unknown\n" * count)
    true("%d writes for %d replies" % (len(messages), count), len(messages) <= 300)


def test_the_same_from_any_input(gate):
    """A file, a pipe, and a pipe that gives a byte at a time lead to the same replies."""
    tx = payment(1, 99000)
    text = OPENING.replace("---", coin(1) + "\n---") + lines(["peer 1 enter 192.0.2.1", "", "# x", "peer 1 tx 5000 " + tx.hex(), "peer 1 mempool", "peer 1 leave"])
    wanted = lines(["entered none", "admitted %s fee 1000 vsize %d replaced 0" % (tx.txid(), tx.virtual_size(1)), "listing 1 " + tx.txid(), "left"]).encode()
    same("from a pipe", gate.run("run", text).stdout, wanted)
    with tempfile.TemporaryFile() as file:
        file.write(text.encode())
        file.seek(0)
        same("from a file", gate.run("run", file).stdout, wanted)
    process = subprocess.Popen(gate.words("run"), stdin=subprocess.PIPE, stdout=subprocess.PIPE)
    for byte in text.encode():
        os.write(process.stdin.fileno(), bytes([byte]))
    same("from a byte at a time", process.communicate(timeout=SECONDS)[0], wanted)
