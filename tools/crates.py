"""The repository's crates as crates.txt has them: which stand on which, and in which order they are proved."""

import os

ROOT = os.path.dirname(os.path.dirname(os.path.abspath(__file__)))


def lines():
    """The line of each crate of the repository in crates.txt, in their order."""
    with open(os.path.join(ROOT, "crates.txt"), encoding="utf-8") as file:
        return {line.split(":")[0].split()[0]: line for line in file if ":" in line.partition("#")[0]}


def uses():
    """Each crate of the repository, in the order of crates.txt, with the crates of the repository that it uses."""
    found = {name: line.partition("#")[0].partition(":")[2].split() for name, line in lines().items()}
    return {crate: [lower for lower in used if lower in found] for crate, used in found.items()}


def below(crate, used):
    """The crate and all that it stands on, each after what it uses."""
    order = []

    def visit(name):
        if name not in order:
            for lower in used[name]:
                visit(lower)
            order.append(name)

    visit(crate)
    return order


def below_all(used):
    """All crates, each after what it uses."""
    order = []
    for crate in used:
        order += [it for it in below(crate, used) if it not in order]
    return order


def folder(crate):
    return os.path.join(ROOT, "crates", crate)


def is_new(built, parts=("src", "specs", "proofs"), made_of=None):
    """Whether what was built is there, and newer than all that it is made of: these folders of these crates, or of all."""
    if not os.access(built, os.R_OK):
        return False
    files = [os.path.join(ROOT, "crates.txt")]
    for crate in uses() if made_of is None else made_of:
        files += (os.path.join(at, name) for part in parts for at, _, names in os.walk(os.path.join(folder(crate), part)) for name in names)
    return max(map(os.path.getmtime, files)) < os.path.getmtime(built)


def unproved(program):
    """Where the program without its proofs lies, beside the proved one."""
    return program + "-unproved"


def is_product(crate):
    """Whether the crate is part of the product, or one of its tests."""
    return not crate.endswith("_tests") and crate != "gate_growth"
