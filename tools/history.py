"""Whether the commits that the pages name are in the history. Figures cite the commit whose program was measured."""

import os
import re
import subprocess

import crates
from documents import pages_of_all, text_of

COMMIT = re.compile(r"\bcommits? `?([0-9a-f]{7,40})\b")


def git(*words):
    return subprocess.run(["git", *words], cwd=crates.ROOT, capture_output=True, text=True, check=False)


def cited():
    """Each commit that a page names, with the page."""
    for page in pages_of_all() + ["gated/README.md"] + ["crates/%s/README.md" % it for it in crates.uses()]:
        for commit in re.findall(COMMIT, text_of(page)):
            yield page, commit


def why_not_looked_up():
    """Why commits can't be looked up, or None."""
    shallow = git("rev-parse", "--is-shallow-repository") if os.path.exists(os.path.join(crates.ROOT, ".git")) else None
    if shallow is None or shallow.returncode:
        return "there is no history here"
    if shallow.stdout.strip() == "true":
        return "the clone is shallow"
    return None


def faults():
    """Commits that a page names, and that are not what this tree comes from."""
    for page, commit in cited():
        if git("cat-file", "-e", commit + "^{commit}").returncode:
            yield "%s: there is no commit %s in the history" % (page, commit)
        elif git("merge-base", "--is-ancestor", commit, "HEAD").returncode:
            yield "%s: commit %s is not in the history of this one" % (page, commit)
