"""The commands that stand in the pages, behind `$`, are run exactly as they stand, and have to print what stands below them.

They run in bash, in a folder that has what the top of the repository has, with `gate` and a `bitcoin-cli` on the path: the
program under test, and a stand-in that answers from a recording. What they print at a terminal counts, so standard error
does too. A command with nothing below it has to end with status 0.
"""

import glob
import os
import shutil
import subprocess
import tempfile

from cases import HERE
from gate import ROOT, NotTried, lines, same, same_lines, true
from beside_node import calls, node, result_of, trials, written

import crates  # of tools/, which beside_node puts on the path

PAGES = [os.path.relpath(it, ROOT) for home in ("", "docs") for it in sorted(glob.glob(os.path.join(ROOT, home, "*.md")))]
# pages whose commands have a test of their own
ELSEWHERE = ("docs/LIBRARY.md",)
# what proves, and so is not run: a command, and the variable of the Makefile whose value it prints
NOT_RUN = {"make gate": "PROGRAM"}
# the targets of the Makefile that samples may run
TARGETS = ("demo", "install", "uninstall")
SECONDS = 300
# the node whose answers stand for those of a reader's
NODE = "knots-29"


def samples(text):
    """Each command of a page, with the lines that stand below it."""
    found, inside = [], False
    for line in text.split("\n"):
        if line.startswith("    $ "):
            found.append((line[6:], []))
            inside = True
        elif inside and line.startswith("    "):
            found[-1][1].append(line[4:])
        else:
            inside = False
    return found


def text_of(page):
    with open(os.path.join(ROOT, page), encoding="utf-8") as file:
        return file.read()


def program_of(text):
    """A command without the remark behind it."""
    return text.split("  #")[0].strip()


def in_path(folder, name, text):
    """Puts a command into a folder of the path."""
    path = os.path.join(folder, name)
    with open(path, "w", encoding="utf-8") as file:
        file.write("#!/bin/sh\n%s\n" % text)
    os.chmod(path, 0o755)


def small_recording(recorded, folder):
    """A recording of a node whose pool is cut to three entries, since each question to a running node starts a process."""
    pool = result_of(recorded, "getrawmempool")
    for txid in sorted(pool, key=lambda it: pool[it]["ancestorcount"])[3:]:
        del pool[txid]
    return written(folder, recorded)


def some_transactions(recorded):
    """Three of the transactions that were tried, which spend coins of the chain alone."""
    coins = {tuple(call["params"][:2]) for call in recorded if call["method"] == "gettxout"}
    found = [it for it in node.digits_in(trials(NODE)) if {(spent.txid, spent.index) for spent in node.read_transaction(it).spent} <= coins]
    true("few transactions", len(found) > 3)
    return lines(found[:3])


class Place:
    """A folder in which the commands of a page are run, one after another."""

    def __init__(self, gate, folder):
        self.top, path = os.path.join(folder, "top"), os.path.join(folder, "path")
        os.makedirs(self.top)
        os.makedirs(path)
        for name in os.listdir(ROOT):
            there, here = os.path.join(ROOT, name), os.path.join(self.top, name)
            if os.path.isdir(there):
                os.symlink(os.path.abspath(there), here)
            else:
                shutil.copy2(there, here)
        # transactions that a reader would have
        recorded = calls(NODE)
        with open(os.path.join(self.top, "transactions.txt"), "w", encoding="utf-8") as file:
            file.write(some_transactions(recorded))
        in_path(path, "gate", 'exec "%s" "$@"' % gate.program)
        in_path(path, "bitcoin-cli", 'exec "%s" "%s" "$@"' % (os.path.join(HERE, "recorded_node.py"), small_recording(recorded, folder)))
        # as a reader has it, and not as a target of the Makefile
        outside = {name: it for name, it in os.environ.items() if name not in ("MAKELEVEL", "MFLAGS")}
        self.surroundings = dict(
            outside,
            PATH=path + os.pathsep + os.environ["PATH"],
            HOME=folder,
            MAKEFLAGS=" -- PROGRAM=%s LIBRARY=%s" % (gate.program, os.path.join(folder, "none")),
        )

    def run(self, command):
        return subprocess.run(
            ["bash", "-c", command],
            cwd=self.top,
            env=self.surroundings,
            stdin=subprocess.DEVNULL,
            stdout=subprocess.PIPE,
            stderr=subprocess.STDOUT,
            text=True,
            timeout=SECONDS,
            check=False,
        )


def value_of(variable):
    """What a variable of the Makefile is, if nobody sets it."""
    words = ["make", "--silent", "--no-print-directory", "--eval", "shown: ; @echo $(%s)" % variable, "shown"]
    plain = {name: it for name, it in os.environ.items() if name != "MAKEFLAGS"}
    return subprocess.run(words, cwd=ROOT, env=plain, capture_output=True, text=True, check=True).stdout.splitlines()


def passes(place, command, wanted):
    """A command prints what stands below it."""
    variable = NOT_RUN.get(program_of(command))
    if variable:
        same_lines(wanted, value_of(variable))
        return
    word, _, rest = command.partition(" ")
    true("no test can run %s" % command, word != "rt" and (word != "make" or rest.split(" ")[0] in TARGETS))
    done = place.run(command)
    if wanted:
        true("%s\n%s" % (command, "\n".join(["wanted:", *wanted, "printed:", done.stdout])), done.stdout.splitlines() == wanted)
    else:
        same("status of %s, which prints %s" % (command, done.stdout[-1000:]), done.returncode, 0)


def needs_a_new_program(gate):
    """`make demo` asks the program that is there only if it is newer than its sources."""
    if not crates.is_new(gate.program):
        raise NotTried("the program is older than its sources")


def run_page(gate, page):
    needs_a_new_program(gate)
    with tempfile.TemporaryDirectory() as folder:
        place = Place(gate, folder)
        for command, wanted in samples(text_of(page)):
            passes(place, command, wanted)


def test_the_page_at_the_top(gate):
    """README.md, whose sample is the first that a reader sees."""
    true("no sample in README.md", samples(text_of("README.md")))
    run_page(gate, "README.md")


def test_the_commands_by_example(gate):
    """docs/USE.md."""
    true("few samples in docs/USE.md", len(samples(text_of("docs/USE.md"))) > 10)
    run_page(gate, "docs/USE.md")


def test_the_other_pages(gate):
    """What stands behind `$` on any other page, but for that of the library."""
    for page in PAGES:
        if page not in ("README.md", "docs/USE.md", *ELSEWHERE) and samples(text_of(page)):
            run_page(gate, page)


def test_each_example_of_the_demo(gate):
    """`make demo EXAMPLE=..` prints what `gate run --explain` prints of each example that it reads, the replies first, and names the
    examples if there is no such one."""
    needs_a_new_program(gate)
    with tempfile.TemporaryDirectory() as folder:
        place = Place(gate, folder)
        explained = "gate run --explain < examples/%s.txt 2>said.txt; cat said.txt"
        same("of none", place.run("make --silent demo").stdout, place.run(explained % "first-path").stdout)
        done = place.run("make --silent demo EXAMPLE=lanes 2>&1 >replies.txt | head -n 1")
        names = done.stdout.strip().partition("there are: ")[2].split()
        true("few examples: %s" % done.stdout, len(names) > 5)
        for name in names:
            same(name, place.run("make --silent demo EXAMPLE=%s" % name).stdout, place.run(explained % name).stdout)
