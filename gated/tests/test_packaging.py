"""gated as it is installed: what it runs and what it doesn't, as a package of pip, and under systemd."""

import os
import re
import shutil
import subprocess
import sys
import tempfile
import unittest
from pathlib import Path

import hosting
from gate import same, true
from hosting import GATED, IN_PROCESS, ROOT, environment_of, library_of
from test_following import Beside
from test_journal import written

SECONDS = 300
# what a stranger may put into a folder, in the hope that it is run
BAIT = ("node", "differences", "gate", "gated", "tomllib", "aiohttp", "logging", "sitecustomize", "usercustomize", "beside")


def done_by(*words, cwd=None, **variables):
    done = subprocess.run(words, cwd=cwd, env=environment_of(**variables), capture_output=True, text=True, timeout=SECONDS, check=False)
    return done.returncode, done.stdout, done.stderr


def test_the_folder_is_not_run(gate):
    """An audit of a stranger's folder, in that folder, runs none of the modules that lie there, nor those of PYTHONPATH."""
    with tempfile.TemporaryDirectory() as folder:
        written(folder)
        mark = os.path.join(folder, "mark")
        for name in BAIT:
            Path(folder, name + ".py").write_text("open(%r, 'w').close()\n" % mark)
            Path(folder, "package", name).mkdir(parents=True)
            Path(folder, "package", name, "__init__.py").write_text("open(%r, 'w').close()\n" % mark)
        for path in ("", folder, os.path.join(folder, "package"), ":"):
            for words in (("audit", ".", "--gate", gate.program), ("--version",)):
                status, out, said = done_by(GATED, *words, cwd=folder, PYTHONPATH=path)
                same("%s with PYTHONPATH=%r: %s" % (words, path, said), (status, os.path.exists(mark)), (0, False))
                same("what it prints", out, "gated 0.1.0\n" if words == ("--version",) else "gate-000001.journal legal 3\n")


def copied(folder):
    """The sources that a package is built of, in a folder of their own."""
    for part in ("gated", "lib/python"):
        shutil.copytree(os.path.join(ROOT, part), os.path.join(folder, part), ignore=shutil.ignore_patterns("__pycache__", "build", "tests"))
    return os.path.join(folder, "gated")


def test_a_package_of_pip(gate):
    """What pip builds of gated runs in another folder: the version, and an audit. It finds the library's package within it."""
    builder = next((it for it in (sys.executable, "/usr/bin/python3") if not done_by(it, "-c", "import setuptools, wheel, pip")[0]), None)
    if builder is None:
        raise unittest.SkipTest("pip, setuptools and wheel are not on this machine")
    with tempfile.TemporaryDirectory() as folder:
        place = os.path.join(folder, "installed")
        sources = copied(os.path.join(folder, "sources"))
        words = ("-m", "pip", "install", "--quiet", "--no-deps", "--no-index", "--no-build-isolation", "--target", place, sources)
        status, _, said = done_by(builder, *words)
        same("pip: %s" % said[-500:], status, 0)
        written(os.path.join(folder, "journal"))
        start = "import sys; sys.path.insert(0, %r); from gated.__main__ import main; sys.exit(main())" % place
        asks = "import sys; sys.path.insert(0, %r); from gated import beside; beside.load_library(); import gate; print(gate.__file__)" % place
        for words, wanted in (
            ((start, "--version"), "gated 0.1.0\n"),
            ((start, "audit", "journal", "--gate", gate.program), "gate-000001.journal legal 3\n"),
            ((asks,), os.path.join(place, "gated", "library", "gate", "__init__.py") + "\n"),
        ):
            status, out, said = done_by(sys.executable, "-P", "-c", *words, cwd=folder)
            same("%s: %s" % (words[1:], said[-500:]), (status, out), (0, wanted))


def test_the_manual_page(gate):
    """gated.1 has the words of the help, in its order."""
    status, out, said = done_by(GATED, "--help")
    same("the help: %s" % said, status, 0)
    words = [it for it in re.findall(r"^  (--[a-z-]+)", out, re.MULTILINE) if it not in ("--version", "--settings")]
    page = Path(ROOT, "gated", "share", "gated.1").read_text().replace("\\-", "-")
    same("its words", re.findall(r"^\\fB(--[a-z-]+)", page, re.MULTILINE), words)
    true("there are some", len(words) > 20)


def test_the_unit(gate):
    """systemd's own list of what a service may do gives the unit less than 3 of 10; it is bounded, and its gate isn't ended by others."""
    unit = os.path.join(ROOT, "gated", "share", "gated.service")
    text = Path(unit).read_text()
    for line in ("WatchdogSec=", "MemoryMax=", "UMask=0077", "LimitNOFILE=", "KillMode=mixed", "MemoryDenyWriteExecute=true"):
        true("it has %s" % line, "\n" + line in text)
    if not shutil.which("systemd-analyze"):
        raise unittest.SkipTest("systemd-analyze is not on this machine")
    status, out, said = done_by("systemd-analyze", "security", "--offline=yes", "--no-pager", unit)
    found = re.search(r"Overall exposure level for gated.service: ([0-9.]+)", out)
    if not found:
        raise unittest.SkipTest("systemd-analyze can't look at a unit that is not installed: %s" % (said.splitlines() or [status])[-1])
    true("its level is %s" % found[1], float(found[1]) < 3)


# goes on as another program, which may no more make memory executable than the unit lets it; 77 if the system can't forbid it
DENIED = """
import ctypes, mmap, os, sys
if ctypes.CDLL(None).prctl(65, 1, 0, 0, 0):
    sys.exit(77)
try:
    mmap.mmap(-1, 4096, prot=mmap.PROT_READ | mmap.PROT_WRITE | mmap.PROT_EXEC)
except PermissionError:
    os.execv(sys.argv[1], sys.argv[1:])
"""


def test_no_memory_is_made_executable(gate):
    """gated and its gate go on under MemoryDenyWriteExecute, as a child and as the library in the process."""
    before = [sys.executable, "-c", DENIED]
    if done_by(*before, "/bin/true")[0] == 77:
        raise unittest.SkipTest("this system has no PR_SET_MDWE (Linux 6.3)")
    for is_child in {not hosting.LIBRARY, False}:
        with Beside(gate) as it:
            if not is_child:
                it.gated.takes_the_library()
            it.gated.before = before
            it.gated.start(GATE_LIBRARY=library_of(gate, it.folder.name))
            same("the gate", it.gated.kinds() == [IN_PROCESS], not is_child)
            it.pay()
            it.is_alike()
            same("status", it.gated.end(), 0)
            it.gated.is_legal(1)
