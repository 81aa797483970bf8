"""Running the program, and comparing what it does with what is written."""

import os
import subprocess
import unittest
from collections import namedtuple

ROOT = os.path.join(os.path.dirname(os.path.abspath(__file__)), "..")
SECONDS = 120
SHOWN = 20

Done = namedtuple("Done", "status stdout stderr")
Range = namedtuple("Range", "least most usual")


class Differs(AssertionError):
    """What was found is not what is wanted."""


class NotTried(unittest.SkipTest):
    """What a test needs is not on this machine."""


class Gate:
    """The program under test, and beside it the one that makes calls of the crates, where it is there.

    A host of the library in its place says nothing on standard error.
    """

    def __init__(self, program, calls=None, says_causes=True, seconds=SECONDS):
        self.program, self.calls, self.says_causes, self.seconds = program, calls, says_causes, seconds

    def words(self, words):
        return [self.program] + words.split()

    def run(self, words, stdin=b"", stdout=subprocess.PIPE, **more):
        """Runs it on an input, text, bytes or an open file, to its end."""
        given = {"input": as_bytes(stdin)} if isinstance(stdin, (str, bytes)) else {"stdin": stdin}
        done = subprocess.run(self.words(words), stdout=stdout, stderr=subprocess.PIPE, timeout=self.seconds, **given, **more)
        return Done(done.returncode, done.stdout, done.stderr)

    def run_words(self, words):
        """Runs it on words that may hold spaces, without input."""
        done = subprocess.run([self.program] + words, stdin=subprocess.DEVNULL, capture_output=True, timeout=self.seconds, check=False)
        return Done(done.returncode, done.stdout, done.stderr)

    def settings(self):
        """What `gate settings` prints: by its word the range of each setting, whose usual number may be None. The row
        `settings-of-an-opening` has it by hand."""
        printed = self.run("settings").stdout.decode().splitlines()
        return {word: Range(*(None if it == "none" else int(it) for it in numbers)) for word, *numbers in (line.split(" ")[:4] for line in printed)}

    def replies(self, opening, events):
        """The reply lines of `gate run`, which has to end with status 0."""
        done = self.run("run", lines(opening) + "---\n" + lines(events))
        same("status", done.status, 0)
        same("standard error", done.stderr, b"")
        return done.stdout.decode().splitlines()

    def answers(self, opening, events):
        """Runs events, each with the reply line that it has to get."""
        same_lines(self.replies(opening, [event for event, _ in events]), [reply for _, reply in events])


def as_bytes(text):
    return text.encode() if isinstance(text, str) else text


def lines(texts):
    return "".join(text + "\n" for text in texts)


def short(value):
    text = repr(value)
    return text if len(text) <= 200 else text[:160] + " .. (%d characters)" % len(text)


def same(what, found, wanted):
    if found != wanted:
        raise Differs("%s: %s\nwanted: %s" % (what, short(found), short(wanted)))


def true(what, holds):
    if not holds:
        raise Differs(what)


def same_lines(found, wanted):
    """Compares lists of lines, and shows the first that differ."""
    if found == wanted:
        return
    told = ["%d lines, wanted %d" % (len(found), len(wanted))]
    for number in range(max(len(found), len(wanted))):
        one = found[number] if number < len(found) else None
        other = wanted[number] if number < len(wanted) else None
        if one != other and len(told) <= SHOWN:
            told.append("line %d: %s\n  wanted: %s" % (number + 1, short(one), short(other)))
    raise Differs("\n".join(told))
