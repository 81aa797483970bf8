"""What embeds the library, beside it in its folder: headers, the files of pkg-config and CMake, the package and the wheel for
Python, the crate for Rust."""

import os
import re
import shutil
import subprocess
import sys
import tempfile

import crates

SOURCES = os.path.join(crates.ROOT, "lib")
# what programs load: its number is another one as soon as gate.h breaks what was compiled with it
SONAME = "libgate_c.so.0"
HEADERS = ("gate.h", "gate.hpp")
# files for tools that find libraries; @VERSION@ is the version
FINDERS = {
    "gate.pc.in": "lib/pkgconfig/gate.pc",
    "cmake/gate-config.cmake": "lib/cmake/gate/gate-config.cmake",
    "cmake/gate-config-version.cmake.in": "lib/cmake/gate/gate-config-version.cmake",
}
LANGUAGES = ("python", "rust")
# what tools for these languages leave behind
LEFT_BEHIND = shutil.ignore_patterns(".*", "__pycache__", "*.egg-info", "build", "target", "Cargo.lock", SONAME)
PYTHONS = (sys.executable, "/usr/bin/python3")
# what a python3 that makes wheels has; setuptools needs no other package for it since 70.1
MAKES_WHEELS = """
import importlib.util
import setuptools
assert importlib.util.find_spec("pip")
assert importlib.util.find_spec("setuptools.command.bdist_wheel") or importlib.util.find_spec("wheel")
"""


def version():
    """The version that gate_version gives."""
    with open(os.path.join(crates.folder("gate_print"), "src", "lib.rt"), encoding="utf-8") as file:
        return re.search(r'^pub const VERSION: &str = "(.*)";$', file.read(), re.MULTILINE)[1]


def put(folder):
    """Puts all but the wheel into a folder."""
    os.makedirs(os.path.join(folder, "include"), exist_ok=True)
    for name in HEADERS:
        shutil.copy(os.path.join(SOURCES, name), os.path.join(folder, "include"))
    for name, place in FINDERS.items():
        os.makedirs(os.path.dirname(os.path.join(folder, place)), exist_ok=True)
        with open(os.path.join(SOURCES, name), encoding="utf-8") as file:
            text = file.read().replace("@VERSION@", version())
        with open(os.path.join(folder, place), "w", encoding="utf-8") as file:
            file.write(text)
    shutil.rmtree(os.path.join(folder, "share", "gate"), ignore_errors=True)
    for language in LANGUAGES:
        shutil.copytree(os.path.join(SOURCES, language), os.path.join(folder, "share", "gate", language), ignore=LEFT_BEHIND)


def wheel_maker():
    """A python3 that makes wheels without asking a registry, or None."""
    for it in PYTHONS:
        if shutil.which(it) and subprocess.run([it, "-c", MAKES_WHEELS], capture_output=True, check=False).returncode == 0:
            return it
    return None


def put_wheel(folder, shared):
    """Makes the wheel, which carries the shared library, beside the package. Says why not, or None."""
    python = wheel_maker()
    if not python:
        return "no wheel for Python: python3 lacks pip, setuptools or wheel"
    with tempfile.TemporaryDirectory(prefix="gate-wheel-") as made:
        source = os.path.join(made, "python")
        shutil.copytree(os.path.join(SOURCES, "python"), source, ignore=LEFT_BEHIND)
        shutil.copy(shared, os.path.join(source, "gate", SONAME))
        to = os.path.join(folder, "share", "gate", "python")
        words = [python, "-m", "pip", "wheel", "--quiet", "--no-index", "--no-deps", "--no-build-isolation", "--disable-pip-version-check"]
        done = subprocess.run([*words, "--wheel-dir", to, source], capture_output=True, text=True, check=False)
        return "no wheel for Python:\n" + done.stdout + done.stderr if done.returncode else None
