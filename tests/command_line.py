"""The words of the command line, help, usage, and `gate check`."""

import os
import re
import subprocess
import tempfile

from bitcoin import Input, Output, Transaction, WITNESS_KEY_HASH, padded, payment, printed
from gate import ROOT, lines, same, true
from kinds import heavy

# the transaction of the genesis block
GENESIS = (
    "01000000" "01" + "00" * 32 + "ffffffff"
    "4d" "04ffff001d0104455468652054696d65732030332f4a616e2f32303039204368616e63656c6c6f72206f6e206272696e6b"
    "206f66207365636f6e64206261696c6f757420666f722062616e6b73" "ffffffff"
    "01" "00f2052a01000000" "43"
    "4104678afdb0fe5548271967f1a67130b7105cd6a828e03909a67962e0ea1f61deb649f6bc3f4cef38c4f35504e51ec112de5c384df7ba0b8d578a4c702b6bf11d5fac"
    "00000000"
)
GENESIS_ID = "4a5e1e4baab89f3a32518a88c31bc87f618f76673e2cc77ab2127b7afdeda33b"
GENESIS_CHECK = "%s %s 816\ndenied A11 coinbase\n" % (GENESIS_ID, GENESIS_ID)
UNDECODABLE = b"denied A1 tx-decode\n"
TRIED = "gate try --tip 100 --coin %s:0,100000,1,%s - < examples/payment.hex" % ("11" * 32, "0014" + "22" * 20)
COIN = b"\x11" * 32


def ends(gate, words, stdin, status, stdout, stderr=b""):
    """The program prints this, and this on standard error, and ends with this status."""
    done = gate.run(words, stdin)
    same("standard output", done.stdout, stdout.encode() if isinstance(stdout, str) else stdout)
    same("standard error", done.stderr, stderr)
    same("status", done.status, status)


def is_usage(gate, words):
    """A fault of usage: nothing on standard output, the usage on standard error, status 2."""
    done = gate.run(words)
    same("standard output of gate " + words, done.stdout, b"")
    true("no usage on standard error of gate %s: %r" % (words, done.stderr), b"Usage: gate" in done.stderr)
    same("status of gate " + words, done.status, 2)


def help_of(gate, words):
    done = gate.run(words)
    same("standard error of gate " + words, done.stderr, b"")
    same("status of gate " + words, done.status, 0)
    text = done.stdout.decode()
    true("no usage in the help of gate %s: %r" % (words, text), "Usage: gate" in text)
    return text


def here_documents(text):
    """The here-documents of a help text, each with its command."""
    return re.findall(r"^gate \S[^\n]* <<'END'\n.*?^END$", text, re.MULTILINE | re.DOTALL)


def examples(text):
    """The commands that stand as examples in a help text."""
    return [line.strip() for line in text.splitlines() if line.startswith("  gate ") and "Usage" not in line] + here_documents(text)


def test_gate_alone(gate):
    """`gate` alone is a fault of usage."""
    is_usage(gate, "")


def test_words_that_ask_for_nothing(gate):
    """Unknown commands, missing words, words too many and unknown options are faults of usage."""
    for words in ("check", "check 00 00", "check - -", "run x y", "admit", "--nothing", "run --nothing", "check --nothing", "RUN",
                  "lanes x", "lanes -", "lanes --workers 0", "lanes --workers 65", "lanes --workers 02", "lanes --workers +2", "lanes --workers -1", "lanes --workers two", "lanes --workers 18446744073709551617",
                  "lanes --workers 2 --workers 2", "run --workers 2 --workers 2", "audit --workers 2", "--workers 2 lanes", "--workers 2 run", "lanes --journal x", "lanes --journal=1", "lanes --journal --journal", "lanes -j",
                  "run --journal", "--journal lanes", "audit x", "audit -", "audit --journal", "audit lanes", "rules x", "rules A1", "settings x", "settings --explain", "explain", "explain A1 -x",
                  "explain -x", "--explain run", "run --explain --explain", "run --strict --strict", "run --explain=xml", "lanes --strict", "audit --explain=1", "rules --explain", "check --explain 00"):
        is_usage(gate, words)


def test_workers_without_a_number(gate):
    """Standard error names what is missing."""
    for words in ("lanes --workers", "lanes --journal --workers", "run --workers", "run --explain --workers"):
        done = gate.run(words)
        same("standard output of gate " + words, done.stdout, b"")
        true("standard error of gate %s: %r" % (words, done.stderr), b"'--workers <N>'" in done.stderr)
        same("status of gate " + words, done.status, 2)


def test_workers_of_a_run(gate):
    """`gate run --workers` is gone: standard error says so, and where lines that are read on several threads are told of."""
    for words in ("run --workers 1", "run --workers 4", "run --workers=2", "run --explain --workers 64", "run --workers 0", "run --workers two --explain"):
        done = gate.run(words)
        same("standard output of gate " + words, done.stdout, b"")
        true("standard error of gate %s: %r" % (words, done.stderr), done.stderr.startswith(b"error: '--workers' of gate run is gone") and b"docs/LIBRARY.md" in done.stderr)
        same("status of gate " + words, done.status, 2)
    true("the help of gate run names no workers", "--workers" not in help_of(gate, "run --help"))


def test_words_that_are_no_text(gate):
    """A word that is not UTF-8 is a fault of usage, told in one line."""
    done = subprocess.run([os.fsencode(gate.program), b"check", b"\xff"], capture_output=True)
    same("standard output", done.stdout, b"")
    same("standard error", done.stderr, b"gate: a word of the command line is not UTF-8\n")
    same("status", done.returncode, 2)


def test_help(gate):
    """`gate --help` names the commands, on standard output with status 0."""
    for words in ("--help", "-h", "help"):
        text = help_of(gate, words)
        for word in ("try", "run", "check", "lanes", "audit", "rules", "settings", "explain", "--version"):
            true("the help does not name %s" % word, word in text)


def test_version(gate):
    """`gate --version` prints the name and the number."""
    for words in ("--version", "-V"):
        ends(gate, words, b"", 0, "gate 0.1.0\n")


def test_examples_in_the_help(gate):
    """The help of each command has an example, which works as it stands at the top of the repository."""
    wanted = {
        "gate run < examples/first-path.txt": 0,
        "gate run < examples/replacement.txt": 0,
        "gate run < examples/permissions.txt": 0,
        "gate run < examples/policies.txt": 0,
        "gate run < examples/rpc.txt": 0,
        "gate run < examples/reorganisation.txt": 0,
        "gate run < examples/living-chain.txt": 0,
        "gate run --explain examples/own-payment.txt": 0,
        "gate run --strict examples/own-payment.txt": 1,
        TRIED: 0,
        "gate try --tip 100 --psbt examples/payment.psbt --height 90": 0,
        "gate check - < examples/payment.hex": 0,
        "gate check 01000000000000000000": 1,
        "gate lanes --journal < examples/lanes.txt": 0,
        "gate lanes --workers 4 < examples/lanes.txt": 0,
        "gate lanes < examples/rounds.txt": 0,
        "gate audit < examples/journal.txt": 0,
        "gate audit < examples/rounds-journal.txt": 0,
        "gate rules": 0,
        "gate settings": 0,
        "gate explain A36": 0,
        "gate explain insufficient fee": 0,
        "gate run <<'END'\ntimes 101 1000 600\n---\npeer 1 enter 192.0.2.1\nEND": 0,
        "gate check - <<'END'\n01000000000000000000\nEND": 1,
        "gate lanes <<'END'\ntimes 101 1000 600\n---\npeer 1 enter 192.0.2.1\n---\nuser a rpc 0 {\"method\":\"getmempoolinfo\",\"id\":1}\nEND": 0,
        "gate audit <<'END'\ntimes 101 1000 600\n---\n> peer 1 enter 192.0.2.1\n< entered none\nEND": 0,
    }
    everywhere = [command for command in wanted if command.startswith("gate run <<") or "<<" not in command]
    for word in ("", "try", "run", "check", "lanes", "audit", "rules", "settings", "explain"):
        found = examples(help_of(gate, (word + " --help").strip()))
        own = [command for command in wanted if command.startswith("gate " + word)] if word else everywhere
        same("examples of gate " + word, sorted(found), sorted(own))
        for page in ("docs/FORMATS.md", "docs/POLICY.md"):
            true("the help of gate %s does not name %s" % (word, page), page in help_of(gate, (word + " --help").strip()))
    with tempfile.TemporaryDirectory() as folder:
        os.symlink(gate.program, os.path.join(folder, "gate"))
        path = dict(os.environ, PATH=folder + os.pathsep + os.environ["PATH"])
        for command in wanted:
            done = subprocess.run(["sh", "-c", command], cwd=ROOT, env=path, capture_output=True)
            same("status of " + command, done.returncode, wanted[command])
            same("standard error of " + command, bool(done.stderr), "--explain" in command or " try " in command)
            true("nothing is printed by " + command, done.stdout)


def spending(hash, value):
    return Transaction([Input(hash, witness=[b"\x30" * 72, b"\x02" * 33])], [Output(value)])


def replacement():
    """The events of examples/replacement.txt, each with what is said of it and its reply."""
    parent = spending(COIN, 99890)
    child, cheap, dear = spending(parent.hash(), 99780), spending(COIN, 99671), spending(COIN, 99670)
    granted = "admitted %s fee %d vsize 110 replaced %d"
    return [
        ("a peer connects", "enter 192.0.2.1", "entered none"),
        ("it spends the coin, and says by its sequence that it may be replaced", "tx 5000 " + parent.hex(), granted % (parent.txid(), 110, 0)),
        ("a child of that", "tx 5001 " + child.hex(), granted % (child.txid(), 110, 0)),
        ("it spends the coin again: 329 satoshi pay for the two that would go, and one too few for its own 110 bytes", "tx 5002 " + cheap.hex(), "denied A42 keep insufficient fee"),
        ("with one satoshi more it takes the place of both", "tx 5003 " + dear.hex(), granted % (dear.txid(), 330, 2)),
        ("and it alone is left", "mempool", "listing 1 " + dear.txid()),
    ]


def replacement_text():
    """The text of examples/replacement.txt."""
    opening = ["# a coin is spent, by a parent and its child, and then by one that pays more than both", "times 101 1000 600"]
    opening += ["coin %s 0 100000 1 plain %s" % (printed(COIN), WITNESS_KEY_HASH.hex()), "verdict * ok", "bloom 1", "---"]
    return lines(opening) + lines("# %s\npeer 1 %s" % (about, event) for about, event, _ in replacement())


def test_example_of_a_replacement(gate):
    """examples/replacement.txt stands as it is made here, and each event gets the reply that is told."""
    with open(os.path.join(ROOT, "examples", "replacement.txt")) as file:
        text = file.read()
    same("the example", text, replacement_text())
    ends(gate, "run", text, 0, lines(reply for _, _, reply in replacement()))


def test_check_of_other_digits(gate):
    """What is no hexadecimal text of a transaction prints the denial A1 alone; standard error says where it is none of digits."""
    size = len(GENESIS) // 2
    odd, other = "has an odd number of hexadecimal digits", "is not hexadecimal: character %d is '%s'"
    for word, cause in (
        (GENESIS[:-2], "is cut behind byte %d, in the locktime" % (size - 1)),
        (GENESIS[:2], "is cut behind byte 1, in the version"),
        (GENESIS[:-1], odd),
        ("0", odd),
    ):
        ends(gate, "check " + word, b"", 1, UNDECODABLE, ("gate: the transaction %s\n" % cause).encode())
    ends(gate, "check " + GENESIS + "00", b"", 1, UNDECODABLE, b"gate: bytes are left over behind the transaction: 1 of %d\n" % (size + 1))
    ends(gate, "check " + GENESIS_ID, b"", 1, UNDECODABLE, b"gate: 32 bytes, as a txid has; expected those of the transaction\n")
    for word, cause in (("0x" + GENESIS, other % (2, "x")), (GENESIS + "g", odd), ("zz", other % (1, "z")), ("examples/payment.hex", other % (2, "x"))):
        ends(gate, "check " + word, b"", 1, UNDECODABLE, ("gate: the transaction %s; gate check - reads standard input\n" % cause).encode())
    psbt = "a PSBT; expected the transaction that is extracted from it once it is final"
    ends(gate, "check 70736274ff0100", b"", 1, UNDECODABLE, ("gate: %s\n" % psbt).encode())
    ends(gate, "check cHNidP8BAA==", b"", 1, UNDECODABLE, ("gate: %s; gate check - reads standard input\n" % psbt).encode())


def test_check_takes_either_case(gate):
    ends(gate, "check " + GENESIS.upper(), b"", 1, GENESIS_CHECK)


def test_check_of_the_input(gate):
    """`gate check -` reads the digits from standard input, without the white space around them."""
    for digits in (GENESIS, GENESIS.upper() + "\n", " \t\r\n\f" + GENESIS + "\r\n \t\f\n"):
        ends(gate, "check -", digits, 1, GENESIS_CHECK)
    good = payment(1, 1000).hex()
    ends(gate, "check -", good + "\n", 0, "%s %s %d\nstandard\n" % (payment(1, 1000).txid(), payment(1, 1000).wtxid(), payment(1, 1000).weight()))


def test_check_of_an_input_without_digits(gate):
    """Nothing, white space within the digits, other white space and other bytes are no transaction."""
    half = len(GENESIS) // 2
    for digits in (b"", b"\n", GENESIS[:half] + "\n" + GENESIS[half:], "\v" + GENESIS, "\u00a0" + GENESIS, b"\xff" + GENESIS.encode(), b"\0", GENESIS + " " + GENESIS, "-"):
        ends(gate, "check -", digits, 1, UNDECODABLE)


def test_check_of_a_long_input(gate):
    """A transaction of 200,000 digits, the most that is standard, and one byte more."""
    one = padded(100000, 1, 1000)
    same("digits", len(one.hex()), 200000)
    ends(gate, "check -", one.hex() + "\n", 0, "%s %s 400000\nstandard\n" % (one.txid(), one.wtxid()))
    more = padded(100001, 1, 1000)
    ends(gate, "check -", more.hex() + "\n", 1, "%s %s 400004\ndenied A13 tx-size\n" % (more.txid(), more.wtxid()))


@heavy
def test_check_of_too_many_bytes(gate):
    """The greatest text of a transaction has 33,554,432 bytes."""
    ends(gate, "check -", "00" * 33554433, 1, UNDECODABLE)


def test_check_reads_no_further_than_it_says(gate):
    """`gate check HEX` and `gate run` differ in what they read: a check of a word leaves standard input alone."""
    folder = os.open(ROOT, os.O_RDONLY)
    try:
        done = gate.run("check " + GENESIS, folder)
    finally:
        os.close(folder)
    same("standard output", done.stdout, GENESIS_CHECK.encode())
    same("standard error", done.stderr, b"")


def test_help_fits(gate):
    """Help, in lines of at most 80 columns, names the statuses; a command that doesn't fit one is given on its own."""
    for word in ("", "try", "run", "check", "lanes", "audit", "rules", "settings", "explain"):
        text = help_of(gate, (word + " --help").strip())
        true("the help of gate %s has no statuses" % word, "\nExit status:\n  0  " in text)
        for line in text.splitlines():
            true("a line of the help of gate %s is too long: %s" % (word, line), len(line) <= 80 or line.startswith("  gate "))


def test_the_manual(gate):
    """The manual page is the one that is made of the help, and has the statuses."""
    made = subprocess.run([os.path.join(ROOT, "tools", "manual"), gate.program], capture_output=True, check=True).stdout
    with open(os.path.join(ROOT, "share", "gate.1"), "rb") as file:
        same("share/gate.1", file.read(), made)
    true("the manual page has no statuses", b".SH EXIT STATUS" in made)


def events_file(folder, name, text):
    path = os.path.join(folder, name)
    with open(path, "w") as file:
        file.write(text)
    return path


def test_a_run_of_a_file(gate):
    """`gate run FILE` does with the file what `gate run` does with standard input; `-` is standard input."""
    text = replacement_text()
    replies = lines(reply for _, _, reply in replacement())
    with tempfile.TemporaryDirectory() as folder:
        path = events_file(folder, "events", text)
        ends(gate, "run " + path, b"not read", 0, replies)
        explained = gate.run("run --explain", text)
        ends(gate, "run --explain " + path, b"", 0, replies, explained.stderr)
        ends(gate, "run %s --explain" % path, b"", 0, replies, explained.stderr)
        ends(gate, "run -", text, 0, replies)
        missing = os.path.join(folder, "none")
        done = gate.run("run " + missing, text)
        same("status", (done.status, done.stdout), (2, b""))
        true("standard error: %r" % done.stderr, re.fullmatch(rb"gate: %s: .*No such file.*\n" % re.escape(missing.encode()), done.stderr))
        refused = events_file(folder, "refused", "bloom 2\n")
        same("an opening that fails", gate.run("run " + refused), gate.run("run", "bloom 2\n"))


def test_a_strict_run(gate):
    """`--strict` changes the status alone: 3 if a line was refused, or else 1 if something was denied, or else 0."""
    opened = "times 101 1000 600\nbloom 0\nrpcwhitelist a:getmempoolinfo,testmempoolaccept,getmempoolentry\n---\n"
    enter, denied = "peer 1 enter 192.0.2.1\n", "peer 1 mempool\n"
    call = 'user a rpc 0 {"method":"%s","params":%s,"id":1}\n'
    for events, status in (
        ("", 0),
        (enter, 0),
        (enter + denied, 1),
        (enter + "peer 1 tx 5000 00\n", 1),
        (enter + "nonsense\n", 3),
        (enter + denied + "nonsense\n" + denied, 3),
        ("chain forget 1\n" + denied, 3),
        (call % ("getmempoolinfo", "[]"), 0),
        (call % ("testmempoolaccept", '[["%s"]]' % payment(1, 1000).hex()), 1),
        (call % ("getmempoolentry", '["%s"]' % GENESIS_ID), 1),
        (call % ("getrawmempool", "[]"), 1),
        ("user a rpc 0 {\n", 1),
    ):
        plain = gate.run("run", opened + events)
        for words in ("run --strict", "run --strict --explain"):
            done = gate.run(words, opened + events)
            same("status of gate %s with %r" % (words, events), done.status, status)
            same("standard output of gate %s with %r" % (words, events), done.stdout, plain.stdout)
    same("an opening that fails", gate.run("run --strict", "bloom 2\n").status, 2)


def test_explained_words(gate):
    """`gate explain` takes a name or a token as a reply prints it, in either case, in one word or in several."""
    def first_of(words):
        done = gate.run_words(["explain"] + words)
        same("status of gate explain %r" % words, done.status, 0)
        return [line.split(":")[0] for line in done.stdout.decode().splitlines()]
    same("a rule", first_of(["a35"]), ["A35 min relay fee not met"])
    for words in (["insufficient fee"], ["insufficient", "fee"], ["Insufficient", "FEE"]):
        same("a token", first_of(words), ["A38 insufficient fee", "A41 insufficient fee", "A42 insufficient fee"])
    same("a name of testmempoolaccept", first_of(["missing-inputs"]), ["call missing-inputs"])
    same("an error of a call", first_of(["Invalid", "params"]), ["call Invalid params"])
    for words, near in ((["insuficient", "fee"], "insufficient fee"), (["missing-input"], "missing-inputs"), (["A355"], "A35"), (["relay fee"], "min relay fee not met")):
        done = gate.run_words(["explain"] + words)
        same("status of gate explain %r" % words, (done.status, done.stdout), (1, b""))
        same("standard error", done.stderr.decode(), 'gate: no rule and no token is named "%s"; is it %s?\n' % (" ".join(words), near))
    done = gate.run_words(["explain", "what", "is", "this"])
    same("standard error", done.stderr.decode(), 'gate: no rule and no token is named "what is this"; gate rules lists them\n')
