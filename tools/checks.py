"""What the check of each crate took when it was last measured (tools/checks.tsv, which tools/peaks writes), and what follows.

As many crates are proved at once as there are processors, if each gets the memory that the greatest check took and a third
more. No check may take more than a twentieth of the whole, which is known once all crates were measured; and the lines of
code may not grow by more than a tenth beyond what tools/lines.txt says, unless that file is changed with them and says why.
"""

import os
import re
from dataclasses import dataclass, replace

import crates
import documents

MEASURED = os.path.join(crates.ROOT, "tools", "checks.tsv")
LINES = "tools/lines.txt"
HEAD = ("crate", "megabytes", "longest", "seconds", "checks")
# of the memory that a check took, what each gets
SPARE = 4 / 3
# what a check may take of the whole
SHARE = 1 / 20
GROWTH = 1.1


@dataclass(frozen=True)
class Check:
    """The checks of a crate: resident memory of the greatest, processor seconds of the longest and of all, and how many."""

    crate: str
    megabytes: int
    longest: float
    seconds: float
    count: int


def by_crate(found):
    """One row for each crate, the dearest first."""
    rows = {}
    for it in found:
        so_far = rows.get(it.crate, replace(it, megabytes=0, longest=0, seconds=0, count=0))
        peak, longest = max(so_far.megabytes, it.megabytes), max(so_far.longest, it.longest)
        rows[it.crate] = Check(it.crate, peak, longest, so_far.seconds + it.seconds, so_far.count + it.count)
    return sorted(rows.values(), key=lambda it: -it.seconds)


def table(rows):
    lines = [HEAD] + [(it.crate, it.megabytes, round(it.longest), round(it.seconds), it.count) for it in rows]
    return "".join("%s\n" % "\t".join(map(str, line)) for line in lines)


def write(rows):
    """Keeps the rows of the repository's crates, in the order of crates.txt."""
    known = {it.crate: it for it in rows}
    with open(MEASURED, "w", encoding="utf-8") as file:
        file.write(table([known[it] for it in crates.uses() if it in known]))


def measured():
    """The rows as they were last written."""
    with open(MEASURED, encoding="utf-8") as file:
        rows = [line.split("\t") for line in file.read().splitlines()[1:]]
    return [Check(name, int(peak), float(longest), float(seconds), int(count)) for name, peak, longest, seconds, count in rows]


def places():
    """How many crates may be proved at once."""
    memory = os.sysconf("SC_PAGE_SIZE") * os.sysconf("SC_PHYS_PAGES") / 2**20
    each = SPARE * max(it.megabytes for it in measured())
    return max(1, min(len(os.sched_getaffinity(0)), int(memory / each)))


def code_lines():
    """How many lines of all crates' sources are neither blank nor comments."""
    texts = (text for crate in crates.uses() for text in documents.sources(crate))
    return sum(bool(line.strip()) and not line.lstrip().startswith("//") for text in texts for line in text.splitlines())


def not_measured():
    """The crates that tools/checks.tsv lacks."""
    known = {it.crate for it in measured()}
    return [it for it in crates.uses() if it not in known]


def faults():
    """What has grown too much."""
    rows = measured()
    most = SHARE * sum(it.seconds for it in rows)
    for it in rows:
        if it.longest > most and not not_measured():
            yield "the check of %s takes %.0f processor seconds, more than a twentieth of the whole: part it" % (it.crate, it.longest)
    at = re.search(r"^(\d+) ", documents.text_of(LINES), re.MULTILINE)
    if at and code_lines() > GROWTH * int(at[1]):
        yield "%d lines of code are more than a tenth above the %s of %s: say there why" % (code_lines(), at[1], LINES)
    if not at:
        yield "%s has no line that begins with a number" % LINES


if __name__ == "__main__":
    print(places())
