"""docs/LIBRARY.md: what stands there in C, C++, Rust, Python and CMake is compiled and run exactly as it stands, and so are its
commands.

`/usr/local` stands for a folder that the test makes; there the library is installed, as the page says. Without a library the
samples are compiled in embedding.py.
"""

import os
import re
import shutil
import subprocess
import tempfile

from gate import ROOT, NotTried, same, same_lines, true
from library import LIBRARY, done_by, library
from samples import NOT_RUN, program_of, text_of, value_of

PAGE = "docs/LIBRARY.md"
PREFIX = "/usr/local"
NOT_RUN_HERE = dict(NOT_RUN, **{"make lib": "LIBRARY"})


def blocks(text):
    """The indented blocks of a page, each as its lines."""
    found, between = [], []
    for line in text.split("\n"):
        if line.startswith("    "):
            if between is None:
                found.append([])
            else:
                found[-1] += between
            found[-1].append(line[4:])
            between = []
        elif not line and between is not None and found:
            between.append(line)
        else:
            between = None
    return found


def commands(block):
    """The commands of a block, each with what stands below it."""
    found = []
    for line in block:
        if line.startswith("$ "):
            found.append((line[2:], []))
        elif line:
            found[-1][1].append(line)
    return found


def parts(text):
    """The samples of the page in their order: of each its kind, and its lines."""
    kinds = (
        ("shell", r"\$ "),
        ("cpp", r'#include "gate.hpp"'),
        ("c", r'#include "gate.h"'),
        ("cmake", r"find_package\("),
        ("manifest", r"\[dependencies\]"),
        ("rust", "use gate::"),
        ("python", "import gate$"),
    )
    for block in blocks(text):
        kind = next((kind for kind, begins in kinds if re.match(begins, block[0])), None)
        # commands may follow a sample, behind an empty line
        at = next((at for at, line in enumerate(block) if line.startswith("$ ")), len(block)) if kind != "shell" else 0
        if kind != "shell" and at:
            yield kind, block[:at]
        if at < len(block):
            yield "shell", block[at:]


class Host:
    """A folder with the library below it, where the samples are compiled and run."""

    def __init__(self, gate, folder):
        self.gate, self.folder, self.prefix, self.exports = gate, folder, os.path.join(folder, "prefix"), []
        done_by(["make", "--silent", "PROGRAM=" + gate.program, "LIBRARY=" + LIBRARY, "PREFIX=" + self.prefix, "install"], cwd=ROOT)

    def put(self, name, text):
        with open(os.path.join(self.folder, name), "w", encoding="utf-8") as file:
            file.write(text + "\n")

    def shell(self, lines):
        for command, wanted in commands(lines):
            variable = NOT_RUN_HERE.get(program_of(command))
            if variable:
                same_lines(wanted, value_of(variable))
            elif command.startswith("export "):
                self.exports.append(command)
            elif not program_of(command).startswith("make install"):
                done = self.run("\n".join([*self.exports, command]))
                true("%s ends with status %d:\n%s" % (command, done.returncode, done.stdout), done.returncode == 0)
                if wanted:
                    same_lines(done.stdout.splitlines(), wanted)

    def run(self, command):
        path = os.path.join(self.prefix, "bin") + os.pathsep + os.environ["PATH"]
        words = ["bash", "-c", command.replace(PREFIX, self.prefix)]
        how = {"stdin": subprocess.DEVNULL, "stdout": subprocess.PIPE, "stderr": subprocess.STDOUT, "text": True, "check": False}
        return subprocess.run(words, cwd=self.folder, env=dict(os.environ, PATH=path), **how)

    def c(self, lines):
        self.put("host.c", "\n".join(lines))

    def cpp(self, lines):
        self.put("host.cpp", "\n".join(lines))

    def python(self, lines):
        self.put("host.py", "\n".join(lines))
        done = self.run("PYTHONPATH=%s/share/gate/python python3 host.py" % PREFIX)
        true("the sample in Python ends with status %d:\n%s" % (done.returncode, done.stdout), done.returncode == 0)

    def manifest(self, lines):
        text = '[package]\nname = "host"\nversion = "0.0.0"\nedition = "2021"\n\n' + "\n".join(lines)
        self.put("Cargo.toml", text.replace(PREFIX, self.prefix))

    def rust(self, lines):
        os.makedirs(os.path.join(self.folder, "src"), exist_ok=True)
        self.put(os.path.join("src", "main.rs"), "\n".join(lines))

    def cmake(self, lines):
        if not shutil.which("cmake"):
            raise NotTried("there is no cmake")
        self.put("CMakeLists.txt", "\n".join(["cmake_minimum_required(VERSION 3.5)", "project(host LANGUAGES C)", *lines]))
        done_by(["cmake", "-S", self.folder, "-B", os.path.join(self.folder, "built"), "-DCMAKE_PREFIX_PATH=" + self.prefix])
        done_by(["cmake", "--build", os.path.join(self.folder, "built")])
        same("the host that CMake makes", done_by([os.path.join(self.folder, "built", "host")]), "entered none\nlisting 0\n")


def test_the_samples_of_the_library(gate):
    """Each sample of docs/LIBRARY.md, and each command behind `$`."""
    library()
    for it in ("cc", "c++", "pkg-config", "cargo"):
        if not shutil.which(it):
            raise NotTried("there is no %s" % it)
    with tempfile.TemporaryDirectory() as folder:
        host, found = Host(gate, folder), list(parts(text_of(PAGE)))
        same("languages", sorted({kind for kind, _ in found if kind}), ["c", "cmake", "cpp", "manifest", "python", "rust", "shell"])
        true("a block of %s in no language: %s" % (PAGE, [lines for kind, lines in found if not kind]), all(kind for kind, _ in found))
        for kind, lines in found:
            getattr(host, kind)(lines)


def test_the_names_of_the_shared_library(gate):
    """A program that is linked with -lgate_c asks for libgate_c.so.0, and libgate_c.so leads to it."""
    library()
    folder = os.path.join(LIBRARY, "lib")
    same("the link", os.readlink(os.path.join(folder, "libgate_c.so")), "libgate_c.so.0")
    if not shutil.which("readelf"):
        raise NotTried("there is no readelf")
    shown = done_by(["readelf", "-d", os.path.join(folder, "libgate_c.so.0")])
    same("soname", re.findall(r"soname: \[(.*)\]", shown), ["libgate_c.so.0"])
