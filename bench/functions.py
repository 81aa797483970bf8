"""Where the instructions of an event go, by function: `bench/run --functions` counts them."""

import os
import re
import subprocess
import sys
from collections import Counter

COUNTER = ("valgrind", "--tool=callgrind")
# what a type parameter stands for, which two programs number differently
NUMBERED = re.compile(r"(::<#?\w+>)+$")
NAMED = re.compile(r"\((\d+)\)(?: (.*))?$")
COST = re.compile(r"(?:0x[0-9a-f]+|[+-]?\d+|\*) (\d+)$")


class Profile:
    """The instructions of a run: each function's own, and those of each call with what it calls in turn."""

    def __init__(self, lines):
        self.own, self.calls, self.within = Counter(), Counter(), Counter()
        self.names = {}
        function = called = None
        for line in map(str.rstrip, lines):
            word, is_named, value = line.partition("=")
            if is_named and word == "fn":
                function = self.name(value)
            elif is_named and word == "cfn":
                called = self.name(value)
            elif is_named and word == "calls":
                self.calls[function, called] += int(value.split()[0])
            elif found := COST.match(line):
                if called is None:
                    self.own[function] += int(found[1])
                else:
                    # the line behind that of a call has what the call took
                    self.within[function, called] += int(found[1])
                    called = None

    def name(self, told):
        """The name of a function, which a profile tells once, with a number that stands for it later."""
        number, name = NAMED.match(told).groups()
        if name:
            self.names[number] = NUMBERED.sub("", name)
        return self.names[number]


def profiled(program, path, folder):
    """The profile of one run. `program` are the words that call it."""
    out = os.path.join(folder, "profile")
    with open(path, "rb") as source:
        words = [*COUNTER, "--callgrind-out-file=" + out, *program]
        done = subprocess.run(words, stdin=source, stdout=subprocess.DEVNULL, stderr=subprocess.PIPE, text=True, check=False)
    if done.returncode:
        sys.exit("valgrind did not profile %s:\n%s" % (program[0], done.stderr[-2000:]))
    with open(out, encoding="utf-8") as lines:
        return Profile(lines)


def each(copies, program, folder):
    """What an event takes: of each function its own instructions, those with what it calls, and how often it is called."""
    shorter, longer = (profiled(program, path, folder) for path in copies.paths)

    def shared(counts):
        before, now = counts(shorter), counts(longer)
        return {key: copies.each(before[key], count) for key, count in now.items()}

    def by_called(counts):
        added = Counter()
        for (function, called), count in counts.items():
            # a call of itself is part of the call that it is in
            added[called] += count if function != called else 0
        return added

    return shared(lambda it: it.own), shared(lambda it: by_called(it.within)), shared(lambda it: by_called(it.calls))
