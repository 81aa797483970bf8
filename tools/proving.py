"""Proving crates, several at once, and saying meanwhile which are at work."""

import os
import re
import subprocess
import sys
import threading
import time

import crates
from checks import places

SECONDS_BETWEEN = 5
SHOWN = 20
# a crate that was proved, or that was kept by an earlier run
ENDED = re.compile(r"== gate|rt: gate\w* is kept")


def at_work(tree):
    """The crates of a tree whose proofs or code the toolchain works at now."""
    home, found = os.path.join(tree, "crates", ""), set()
    for process in filter(str.isdigit, os.listdir("/proc")):
        try:
            name = os.readlink("/proc/%s/exe" % process)
            folder = os.readlink("/proc/%s/cwd" % process)
        except OSError:
            continue
        if os.path.basename(name) in ("rattle", "clang") and folder.startswith(home):
            found.add(os.path.relpath(folder, home).split(os.sep)[0])
    return sorted(found)


class Progress(threading.Thread):
    """Says what is at work, each time that it is something else."""

    def __init__(self, tree, crate):
        super().__init__(daemon=True)
        self.tree, self.crate, self.count = tree, crate, len(crates.below(crate, crates.uses()))
        # how many crates have ended; None while nothing tells
        self.done, self.ended = None, threading.Event()

    def run(self):
        said = None
        while not self.ended.wait(SECONDS_BETWEEN):
            names = at_work(self.tree)
            about = names and self.about(names)
            if names and about != said:
                print(about, file=sys.stderr, flush=True)
                said = about

    def about(self, names):
        """What is said of the crates at work."""
        if self.done is None:
            return "building %s; at work: %s" % (self.crate, ", ".join(names))
        left = self.count - self.done
        # it stands on all others: so before they are proved its sources are only read, and theirs with them
        if names == [self.crate] and left > 1:
            return "reading the sources of %d crates" % self.count
        return "at work: %s; %d of %d crates left" % (", ".join(names), left, self.count)


class Proving:
    """Commands of rt in one crate's folder, of this tree or of a copy, whose output goes to a log in this tree."""

    def __init__(self, crate, tree=crates.ROOT):
        self.began = time.monotonic()
        self.tree = tree
        self.folder = os.path.join(tree, "crates", crate)
        self.path = os.path.join("crates", crate, "out", "build.log")
        os.chdir(crates.ROOT)
        os.makedirs(os.path.dirname(self.path), exist_ok=True)
        self.log = open(self.path, "w", encoding="utf-8")
        self.progress = Progress(tree, crate)

    def __enter__(self):
        self.progress.start()
        return self

    def __exit__(self, *_):
        self.progress.ended.set()
        self.log.close()

    def ran(self, *words, cwd=None, **variables):
        """Whether a command succeeds, with these variables set beside those of the environment."""
        run = subprocess.Popen(
            words,
            cwd=cwd or self.folder,
            env={**os.environ, **variables},
            stdin=subprocess.DEVNULL,
            stdout=subprocess.PIPE,
            stderr=subprocess.STDOUT,
            text=True,
            errors="replace",
        )
        for line in run.stdout:
            self.log.write(line)
            if self.progress.done is not None and ENDED.match(line):
                self.progress.done += 1
        return run.wait() == 0

    def proved(self):
        """Whether the crate and all that it stands on are proved. Each of them has a line in the output as it ends."""
        self.progress.done = 0
        is_proved = self.ran("rt", "all", "check", "--jobs", str(places()))
        self.progress.done = None
        return is_proved

    def kept(self):
        """Whether all crates of the tree pass `rt ci`, which may keep on this machine what passes."""
        self.progress.done = 0
        is_proved = self.ran("rt", "ci", cwd=self.tree, RT_JOBS=str(places()), PYTHONUNBUFFERED="1")
        self.progress.done = None
        return is_proved

    def said(self, is_built, what):
        """Says how long it took, or ends if nothing was built."""
        if not is_built:
            with open(self.path, encoding="utf-8", errors="replace") as lines:
                sys.stderr.write("".join(lines.readlines()[-SHOWN:]))
            sys.exit("%s was not built; the whole log is %s" % (what, self.path))
        minutes = (time.monotonic() - self.began) / 60
        if minutes >= 1:
            print("proved and built in %.0f minutes" % minutes, file=sys.stderr)
