"""The library for C from its compiled code: an archive with the functions of the heap, and what is linked from it."""

import os
import subprocess

import interface
from bindings import SONAME

ARCHIVE, SHARED = "libgate_c.a", "libgate_c.so"


def toolchain(*parts):
    """A file of the Rattle toolchain."""
    page = subprocess.run(["rt", "doc"], capture_output=True, text=True, check=True).stdout.strip()
    return os.path.join(os.path.dirname(page), *parts)


def put(compiled, folder):
    """Puts both into a folder, and gives the path of the shared one."""
    os.makedirs(folder, exist_ok=True)
    archive, shared = os.path.join(folder, ARCHIVE), os.path.join(folder, SONAME)
    archived(compiled, archive)
    linked(archive, shared)
    return shared


def archived(compiled, archive):
    """Joins the compiled code and the functions of the heap in one archive."""
    if os.path.exists(archive):
        os.remove(archive)
    words = [toolchain("toolchain", "bin", "llvm-ar"), "qcsL", archive, compiled, toolchain("c", "liblibc_c.a")]
    subprocess.run(words, check=True)


def linked(archive, shared):
    """Links the archive into a library for programs that load it, by its own name and by the one that linkers look for."""
    shown = shared + ".shown"
    with open(shown, "w", encoding="utf-8") as file:
        file.write("{ global: %s; local: *; };\n" % "; ".join(name for name, _, _ in interface.calls()))
    words = [toolchain("toolchain", "bin", "ld.lld"), "-shared", "-o", shared, "-soname", SONAME, "--version-script", shown]
    words += ["--no-undefined", "--whole-archive", archive, "--no-whole-archive"]
    words += [toolchain("toolchain", "lib", it) for it in ("libgcc.a", "libc.so.6")]
    subprocess.run(words, check=True)
    os.remove(shown)
    link = os.path.join(os.path.dirname(shared), SHARED)
    if os.path.lexists(link):
        os.remove(link)
    os.symlink(SONAME, link)
