"""What `make gate` and `make lib` say of their progress."""

import os
import sys

from gate import ROOT, same

sys.path.insert(0, os.path.join(ROOT, "tools"))

import crates
import proving


def test_what_is_said_of_progress(gate):
    """The crates at work, and how many are left; nothing of proofs while sources are read, and no count while one is built."""
    progress = proving.Progress(crates.ROOT, "gate_c")
    count = len(crates.below("gate_c", crates.uses()))
    for done, names, wanted in (
        (0, ["gate_c"], "reading the sources of %d crates" % count),
        (0, ["gate_bytes"], "at work: gate_bytes; %d of %d crates left" % (count, count)),
        (3, ["gate_script", "gate_tx"], "at work: gate_script, gate_tx; %d of %d crates left" % (count - 3, count)),
        (count - 1, ["gate_c"], "at work: gate_c; 1 of %d crates left" % count),
        (None, ["gate_c"], "building gate_c; at work: gate_c"),
    ):
        progress.done = done
        same(str((done, names)), progress.about(names), wanted)
