"""Whether what embeds the library declares what crates/gate_c defines: the thirteen calls with their parameters, and the statuses.

One table of both is read from crates/gate_c/src (`calls`, `statuses`): lib.rt has the calls, status.rt the statuses. The texts
of lib/gate.h, lib/rust and lib/python are compared with it here, in each language's own types; tests/embedding.py has the
compilers of C, C++ and Rust and the package for Python compare what they declare. What C++ has stands on gate.h. The versions of
the package and of the crate are the program's.
"""

import os
import re

import bindings
import crates

SOURCES = os.path.join("crates", "gate_c", "src")
RUST, PYTHON = "lib/rust/src/calls.rs", "lib/python/gate/library.py"
# a parameter of the library: in C, in Rust and in Python; {} is its name
PARAMETERS = {
    "&mut GateHandle": ("struct gate *{0}", "{0}: *mut Handle", "handle"),
    "&mut GateEvent": ("struct gate_event *{0}", "{0}: *mut EventHandle", "event"),
    "&Keys": ("const struct gate_keys *{0}", "{0}: *const Keys", "ctypes.POINTER(Keys)"),
    "&[u8]": ("const uint8_t *{0}, size_t {0}_size", "{0}: *const u8, {0}_size: usize", "text, count"),
    "&mut [u8]": ("uint8_t *{0}, size_t room", "{0}: *mut u8, room: usize", "text, count"),
    "&mut usize": ("size_t *{0}", "{0}: *mut usize", "ctypes.POINTER(count)"),
    "u64": ("uint64_t {0}", "{0}: u64", "ctypes.c_uint64"),
}
# what a call that gives no status is given in Python
CLOSED = {"handle": "ctypes.POINTER(Handle)", "event": "ctypes.POINTER(EventHandle)"}


def text_of(*path):
    with open(os.path.join(crates.ROOT, *path), encoding="utf-8") as file:
        return file.read()


def plain(text):
    """A text whose white space is single spaces."""
    return re.sub(r"\s+", " ", text).strip()


def declared():
    """Each call of the library as its sources have it: its name, its parameters with their types, and its result."""
    for name, given, result in re.findall(r'pub extern "C" fn (\w+)\((.*?)\)(?: -> (\w+))?\s+ensures', text_of(SOURCES, "lib.rt"), re.DOTALL):
        yield name, [it.split(": ", 1) for it in plain(given).rstrip(", ").split(", ")], result


def calls():
    """Each call of the library: its name, its parameters with their types, and whether it gives a status."""
    for name, parameters, result in declared():
        yield name, [(it, kind) for it, kind in parameters if kind != "Global"], result == "u32"


def in_language(parameters, language):
    return ", ".join(PARAMETERS[kind][language].format(it) for it, kind in parameters)


def statuses():
    """Each status of the library, as `OutOfMemory`, with its number."""
    return {name: int(number) for name, number in re.findall(r"Status::(\w+) => (\d+),", text_of(SOURCES, "status.rt"))}


def screaming(name):
    """`OUT_OF_MEMORY` of `OutOfMemory`."""
    return re.sub(r"(?<!^)([A-Z])", r"_\1", name).upper()


def others(path, names):
    """What is declared and is no call of the library."""
    for name in sorted(set(names) - {name for name, _, _ in calls()}):
        yield "%s declares %s, which is no call of the library" % (path, name)


def in_c():
    """What gate.h lacks, or has otherwise."""
    text = plain(re.sub(r"/\*.*?\*/", "", text_of("lib", "gate.h"), flags=re.DOTALL))
    for name, parameters, has_status in calls():
        wanted = "%s %s(%s);" % ("uint32_t" if has_status else "void", name, in_language(parameters, 0))
        if wanted not in text:
            yield "lib/gate.h does not declare %s" % wanted
    yield from others("lib/gate.h", re.findall(r"\b(gate_\w+)\(", text))
    found = {name: int(number) for name, number in re.findall(r"\bGATE_(\w+) = (\d+)", text)}
    if found != {screaming(name): number for name, number in statuses().items()}:
        yield "lib/gate.h: the statuses are not those of %s/status.rt" % SOURCES


def in_rust():
    """What the crate for Rust lacks, or has otherwise."""
    text = plain(text_of(RUST)).replace("( ", "(").replace(", )", ")")
    for name, parameters, has_status in calls():
        wanted = "pub fn %s(%s)%s;" % (name, in_language(parameters, 1), " -> u32" if has_status else "")
        if wanted not in text:
            yield "%s does not declare %s" % (RUST, wanted)
    yield from others(RUST, re.findall(r"pub fn (gate_\w+)\(", text))
    body = re.search(r"pub enum Status \{(.*?)\}", text)[1]
    if {name: int(number) for name, number in re.findall(r"(\w+) = (\d+)", body)} != statuses():
        yield "%s: the statuses are not those of %s/status.rt" % (RUST, SOURCES)


def in_python():
    """What the package for Python lacks, or has otherwise."""
    text = plain(text_of(PYTHON))
    tables = {name: plain(given) for name, given in re.findall(r'\("(gate_\w+)", \[(.*?)\]\)', text)}
    if "buffer = [text, count, ctypes.POINTER(count)]" not in text:
        yield "%s: a buffer is not given as out, room and size" % PYTHON
    for name, parameters, has_status in calls():
        given = [it for it in parameters if it[0] not in ("out", "size")]
        wanted = ", ".join(filter(None, (in_language(given, 2), "*buffer" if given != parameters else "")))
        if has_status:
            if tables.get(name) != wanted:
                yield "%s: the parameters of %s are not %s" % (PYTHON, name, wanted)
        elif "loaded.%s.argtypes, loaded.%s.restype = [%s], None" % (name, name, CLOSED[wanted]) not in text:
            yield "%s does not declare %s" % (PYTHON, name)
    yield from others(PYTHON, re.findall(r"\b(gate_\w+)\b", text))
    body = re.search(r"class Status\(enum.IntEnum\):(.*?)class ", text)[1]
    if {name: int(number) for name, number in re.findall(r"(\w+) = (\d+)", body)} != {screaming(name): number for name, number in statuses().items()}:
        yield "%s: the statuses are not those of %s/status.rt" % (PYTHON, SOURCES)


def faults():
    """All that is amiss."""
    names = {name for name, _, _ in calls()}
    if len(names) != 13 or not statuses():
        yield "%s has %d calls and %d statuses, which is not what tools/interface.py reads" % (SOURCES, len(names), len(statuses()))
        return
    yield from in_c()
    yield from in_rust()
    yield from in_python()
    for path in ("lib/python/pyproject.toml", "lib/rust/Cargo.toml"):
        if '\nversion = "%s"\n' % bindings.version() not in text_of(path):
            yield "%s: the version is not %s" % (path, bindings.version())
