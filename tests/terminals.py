"""What a terminal shows of `--explain`: each reply before what is said of it, and colours; a pipe, or who asks for none, gets no colours."""

import os
import select
import subprocess
import termios
import time
from collections import namedtuple

import examples
from gate import ROOT, SECONDS, lines, same, true

RED, GREEN, YELLOW, USUAL = "\x1b[31m", "\x1b[32m", "\x1b[33m", "\x1b[0m"
OPENING = ["times 101 1000 600", "verdict * ok", "bloom 1"]
REPLACEMENT = os.path.join(ROOT, "examples", "replacement.txt")
PARENT, CHILD, INSTEAD = (it.txid() for it in (examples.PARENT, examples.CHILD, examples.spending(examples.COIN, 99670)))
SUMMARY = "gate: 6 events: 3 admitted, 2 replaced, 1 denied (A42 1), 0 lines refused; pool: 1 entry, 110 of 300000000 virtual bytes, floor 0"
NOTHING = "gate: %d events: 0 admitted, 0 replaced, %s, %s refused; pool: 0 entries, 0 of 300000000 virtual bytes, floor 0"
# where an environment says nothing of colours
SILENT = {"TERM": "xterm"}

Shown = namedtuple("Shown", "status screen stdout stderr")


def plain(text):
    for colour in (RED, GREEN, YELLOW, USUAL):
        text = text.replace(colour, "")
    return text


def terminal():
    """Our side of a terminal and the program's, which shows each byte as it is."""
    ours, theirs = os.openpty()
    mode = termios.tcgetattr(theirs)
    mode[1] &= ~termios.OPOST
    termios.tcsetattr(theirs, termios.TCSANOW, mode)
    return ours, theirs


def waited(ours, seconds, ends=None):
    """What a terminal shows, up to this text, or until nobody writes there any more."""
    shown, last = b"", time.monotonic() + seconds
    while ends is None or not shown.endswith(ends.encode()):
        ready, _, _ = select.select([ours], [], [], max(0, last - time.monotonic()))
        true("a terminal shows %r and then nothing for %d seconds" % (shown, seconds), ready)
        try:
            part = os.read(ours, 100000)
        except OSError:
            part = b""
        if not part:
            break
        shown += part
    return shown.decode()


def shown(gate, words, given="", stdout=True, stderr=True, **environment):
    """What a run shows at a terminal, which is its standard output or its standard error, or both."""
    ours, theirs = terminal()
    variables = {name: value for name, value in os.environ.items() if name not in ("NO_COLOR", "TERM")}
    pipes = [theirs if it else subprocess.PIPE for it in (stdout, stderr)]
    with subprocess.Popen(
        gate.words(words), stdin=subprocess.PIPE, stdout=pipes[0], stderr=pipes[1], env={**variables, **(environment or SILENT)}
    ) as running:
        os.close(theirs)
        # what is written to a terminal fits into it
        said = running.communicate(given.encode(), timeout=gate.seconds)
        screen = waited(ours, SECONDS)
        os.close(ours)
        return Shown(running.returncode, screen, *((it or b"").decode() for it in said))


def replacement():
    with open(REPLACEMENT, encoding="utf-8") as file:
        return file.read()


# the example of a replacement, line by line, with its colours
COLOURED = [
    "entered none",
    "admitted %s fee 110 vsize 110 replaced 0" % PARENT,
    "gate: line 10: %s+%s %s" % (GREEN, USUAL, PARENT),
    "admitted %s fee 110 vsize 110 replaced 0" % CHILD,
    "gate: line 12: %s+%s %s" % (GREEN, USUAL, CHILD),
    "denied A42 keep insufficient fee",
    "gate: line 14: %sA42%s 329 - 220 = 109, needs 110; the least fee is 330" % (RED, USUAL),
    "admitted %s fee 330 vsize 110 replaced 2" % INSTEAD,
    "gate: line 16: %s-%s %s" % (RED, USUAL, PARENT),
    "gate: line 16: %s-%s %s" % (RED, USUAL, CHILD),
    "gate: line 16: %s+%s %s" % (GREEN, USUAL, INSTEAD),
    "listing 1 %s" % INSTEAD,
    SUMMARY,
]


def test_each_reply_stands_before_its_explanation(gate):
    """At a terminal that has both streams each reply stands before what is said of it, from a file and from a pipe."""
    for words, given in (("run --explain " + REPLACEMENT, ""), ("run --explain", replacement())):
        done = shown(gate, words, given)
        same(words, (done.status, done.screen.splitlines()), (0, COLOURED))


def test_no_reply_waits(gate):
    """Reply and explanation are both there before the next line is given, and nothing is held back that has no reply."""
    ours, theirs = terminal()
    opening = OPENING + ["policy knots-29"]
    # by line what the terminal shows before the next one is given; nothing for None
    asked = [
        *((line, None) for line in opening[:-1]),
        # what of a release can't be said is told at once
        (opening[-1], "gate: line 4: "),
        ("---", None),
        ("peer 1 enter 192.0.2.1", "entered none\n"),
        ("peer 1 tx 5000 00", "denied A1 keep tx-decode\n"),
        ("per 1 leave", "refused L1 bad-line\n"),
        ("peer 1 leave", "left\n"),
    ]
    with subprocess.Popen(gate.words("run --explain"), stdin=subprocess.PIPE, stdout=theirs, stderr=theirs, env={**os.environ, "NO_COLOR": "1"}) as running:
        os.close(theirs)
        told = {}
        for line, begins in asked:
            running.stdin.write(lines([line]).encode())
            running.stdin.flush()
            if begins:
                told[line] = waited(ours, SECONDS, "\n")
                while told[line].count("\n") < (3 if line.endswith(" 00") else 2 if line.startswith("per ") else 1):
                    told[line] += waited(ours, SECONDS, "\n")
                true("the answer to %r begins with %r: %r" % (line, begins, told[line]), told[line].startswith(begins))
        running.stdin.close()
        last = waited(ours, SECONDS)
        os.close(ours)
    same("a line without a form", told["per 1 leave"].splitlines(), ["refused L1 bad-line", 'gate: line 8: "per" is unknown; is it peer?'])
    why = told["peer 1 tx 5000 00"].splitlines()
    same("a transaction that does not decode", [why[0]] + [it[:13] for it in why[1:]], ["denied A1 keep tx-decode", "gate: line 7:", "gate: line 7:"])
    same("the end", last.splitlines(), [NOTHING % (3, "1 denied (A1 1)", "1 line")])


def test_what_is_wrong_is_yellow(gate):
    """The number of a line that is refused is yellow, in an opening and behind it."""
    done = shown(gate, "run --explain", lines(OPENING) + "---\nper 1 leave\n")
    same("a line", done.screen.splitlines(), [
        "refused L1 bad-line", 'gate: %sline 5%s: "per" is unknown; is it peer?' % (YELLOW, USUAL), NOTHING % (0, "0 denied", "1 line")
    ])
    done = shown(gate, "run", "times 101 1000 600\ntime\n---\n")
    true("an opening: %r" % done.screen, done.screen.startswith("opening 2 bad-line\ngate: %sline 2%s: " % (YELLOW, USUAL)))
    same("its status", done.status, 2)


def test_who_asks_for_no_colours(gate):
    """There are none with NO_COLOR, unless that is empty, nor at a terminal that has none, nor in a pipe."""
    for environment in ({"NO_COLOR": "1", **SILENT}, {"NO_COLOR": "0", **SILENT}, {"TERM": "dumb"}):
        done = shown(gate, "run --explain", replacement(), **environment)
        same(str(environment), done.screen.splitlines(), [plain(it) for it in COLOURED])
    for environment in ({"NO_COLOR": "", **SILENT}, {"TERM": "vt100"}, {"PATH": os.environ.get("PATH", "")}):
        done = shown(gate, "run --explain", replacement(), **environment)
        same(str(environment), done.screen.splitlines(), COLOURED)
    of_replies = [it for it in COLOURED if not it.startswith("gate: ")]
    of_others = [it for it in COLOURED if it.startswith("gate: ")]
    done = shown(gate, "run --explain", replacement(), stdout=False)
    same("standard error alone", (done.stdout.splitlines(), done.screen.splitlines()), (of_replies, of_others))
    done = shown(gate, "run --explain", replacement(), stderr=False)
    same("standard output alone", (done.screen.splitlines(), done.stderr.splitlines()), (of_replies, [plain(it) for it in of_others]))
    piped = gate.run("run --explain", replacement(), env={**os.environ, **SILENT})
    true("a pipe has no escape byte", b"\x1b" not in piped.stdout + piped.stderr)


def test_objects_have_no_colours(gate):
    """Objects stand behind their replies, and have no colours."""
    done = shown(gate, "run --explain=json", replacement())
    true("an escape byte", "\x1b" not in done.screen)
    said = done.screen.splitlines()
    same("replies, each before its objects", [it.split(" ")[0] if it[0] != "{" else it.split('"')[3 if '"line"' in it else 1] for it in said], [
        "entered", "admitted", "entered", "admitted", "entered", "denied", "rule", "admitted", "left", "left", "entered", "listing", "events",
    ])


def test_a_trial_and_an_audit(gate):
    """A trial says why behind its answer, and an audit what was due behind its verdict."""
    done = shown(gate, "try --tip 100 02000000000101c23f45e637fe94d795bc86e127eb09739961e383cdb7eb794c7c59aa89ebb05a", NO_COLOR="1")
    true("a trial: %r" % done.screen, done.screen.index("\ndenied A1 keep tx-decode\n") < done.screen.index(": A1 "))
    same("its status", done.status, 1)
    journal = lines(OPENING) + "---\n> peer 1 enter 192.0.2.1\n< entered none\n> peer 1 mempool\n< listing 1\n"
    done = shown(gate, "audit --explain", journal)
    same("an audit", done.screen.splitlines(), ["illegal 2", 'gate: line 8: entry 2: the reply to "peer 1 mempool" is "listing 0"'])
