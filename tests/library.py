"""The library for C: hosts in C, C++, Rust and Python do what the program does, byte for byte, and its ends are tried.

Each host is a stand-in for the program: it does `run` and `check -` by the library, and hands other words to the program.
The library is that of `make lib`. Where it, or what makes a host, is not on this machine, the test says so.
"""

import contextlib
import functools
import glob
import importlib
import json
import os
import re
import shutil
import subprocess
import sys
import tempfile

from gate import ROOT, Differs, Gate, NotTried, same, true
from kinds import long
from moves import Watching, asked_often, rows

LIBRARY = os.path.join(ROOT, "crates", "gate_c", "out", "library")
HOSTS = os.path.join(ROOT, "tests", "hosts")
ARCHIVE = os.path.join(LIBRARY, "lib", "libgate_c.a")
SHARED = os.path.join(LIBRARY, "lib", "libgate_c.so.0")
SECONDS = 600
WARNINGS = ["-O1", "-Wall", "-Wextra", "-Werror"]
C = ["-std=c11", "-D_POSIX_C_SOURCE=200809L"]
WRAPPED = ["-Wl,--wrap=" + it for it in ("malloc", "realloc", "free")]
EXAMPLES = ("first-path.txt", "permissions.txt", "policies.txt", "replacement.txt", "reorganisation.txt", "rpc.txt", "living-chain.txt", "package.txt")
STREAMS = ("family_streams", "caller_streams", "chain_streams", "living_streams", "permissions", "calls", "heights", "openings", "json_texts", "decoding")


def done_by(words, **more):
    """What a command ends with; it has to end well."""
    done = subprocess.run(words, stdin=subprocess.DEVNULL, stdout=subprocess.PIPE, stderr=subprocess.STDOUT, timeout=SECONDS, check=False, **more)
    if done.returncode:
        raise Differs("%s ended with status %d:\n%s" % (" ".join(words), done.returncode, done.stdout.decode(errors="replace")[-2000:]))
    return done.stdout.decode()


def newest(*folders):
    """The last time that a file below these was changed."""
    return max(os.path.getmtime(os.path.join(at, name)) for folder in folders for at, _, names in os.walk(folder) for name in names)


@functools.lru_cache(None)
def why_no_library():
    """Why there is no library to try, or None."""
    if not os.path.exists(ARCHIVE) or not os.path.exists(SHARED):
        return "there is no library yet: `make lib` builds it"
    sources = [it for part in ("src", "specs", "proofs") for it in glob.glob(os.path.join(ROOT, "crates", "*", part))]
    if newest(*sources) > os.path.getmtime(ARCHIVE):
        return "the library is older than its sources: `make lib` builds it"
    return None


def library():
    if why_no_library():
        raise NotTried(why_no_library())
    return ARCHIVE


@functools.lru_cache(None)
def folder():
    """Where hosts are made. It goes when the tests end."""
    return tempfile.TemporaryDirectory(prefix="gate-hosts-")


@functools.lru_cache(None)
def compiler(variable, names, ending, text):
    """The first compiler that makes a program, with the headers of its language, or None."""
    source = os.path.join(folder().name, "try" + ending)
    with open(source, "w", encoding="utf-8") as file:
        file.write(text)
    for name in filter(None, (os.environ.get(variable), *names)):
        words = [name, "-o", os.path.join(folder().name, "try"), source]
        if shutil.which(name) and subprocess.run(words, capture_output=True, check=False).returncode == 0:
            return name
    return None


def c_compiler():
    found = compiler("CC", ("cc", "clang", "gcc"), ".c", "#include <stdio.h>\nint main(void) { return puts(\"\") < 0; }\n")
    if not found:
        raise NotTried("there is no C compiler")
    return found


def cpp_compiler():
    found = compiler("CXX", ("c++", "clang++", "g++"), ".cpp", "#include <iostream>\nint main() { std::cout << 1; }\n")
    if not found:
        raise NotTried("there is no C++ compiler")
    return found


def made(host, source, compiles, *more):
    """A host, made once by a compiler."""
    path = os.path.join(folder().name, host)
    if not os.path.exists(path):
        done_by([*compiles, "-o", path, os.path.join(HOSTS, source), *more])
    return path


def with_c(host, source, *flags):
    archive = library()
    return made(host, source, [c_compiler(), *WARNINGS, *C, *flags, "-I", os.path.join(LIBRARY, "include")], archive)


def in_c():
    return with_c("run-c", "run.c")


def with_threads():
    return with_c("threads-c", "threads.c", "-pthread")


def in_cpp():
    archive = library()
    return made("run-cpp", "run.cpp", [cpp_compiler(), *WARNINGS, "-std=c++17", "-I", os.path.join(LIBRARY, "include")], archive)


def cargos():
    """The cargo on the path, and the system's own."""
    found = []
    for it in filter(None, (shutil.which("cargo"), "/usr/bin/cargo")):
        if os.path.exists(it) and it not in found:
            found.append(it)
    if not found:
        raise NotTried("there is no cargo")
    return found


def run_cargo(cargo, at, *words, **more):
    """Runs a cargo on a package in a folder; warnings are errors, and what it makes lies in `target` there."""
    beside = {name.upper(): os.path.join(os.path.dirname(cargo), name) for name in ("rustc", "rustdoc")}
    surroundings = dict(os.environ, **beside, RUSTFLAGS="-D warnings", CARGO_TARGET_DIR=os.path.join(at, "target"))
    surroundings.pop("GATE_LIB_DIR", None)
    return done_by([cargo, *words, "--offline", "--quiet"], cwd=at, env={**surroundings, **more})


def package_of(at, crate, **programs):
    """A package of Rust whose programs use the crate for Rust; of each its name and its source."""
    os.makedirs(at)
    with open(os.path.join(at, "Cargo.toml"), "w", encoding="utf-8") as file:
        file.write('[package]\nname = "hosts"\nversion = "0.0.0"\nedition = "2021"\n\n[dependencies]\ngate = { path = "%s" }\n' % crate)
        for name, source in programs.items():
            file.write('\n[[bin]]\nname = "%s"\npath = "%s"\n' % (name, source))


def in_rust():
    library()
    at = os.path.join(folder().name, "rust")
    if not os.path.exists(at):
        package_of(at, os.path.join(ROOT, "lib", "rust"), run=os.path.join(HOSTS, "run.rs"))
        run_cargo(cargos()[0], at, "build", "--release", GATE_LIB_DIR=os.path.join(LIBRARY, "lib"))
    return os.path.join(at, "target", "release", "run")


def in_python():
    library()
    return os.path.join(HOSTS, "run.py")


def surroundings(gate, **more):
    """The variables that hosts read."""
    return {**os.environ, "GATE": gate.program, "GATE_LIBRARY": SHARED, **more}


def does_rows(gate, host, **more):
    """The host does every row as the program has to; the version is the program's."""
    printed = done_by([os.path.join(ROOT, "rows", "run"), host], env=surroundings(gate, **more)).splitlines()
    passed, _, rest = printed[-1].partition(" ")
    same("the last line", rest, "passed, 0 failed")
    true("few rows: " + passed, int(passed) > 100)
    same("the version", done_by([host, "version"], env=surroundings(gate, **more)), gate.run("--version").stdout.decode())


def does_examples(gate, host, **more):
    """What the host prints of each example is what the program prints; a PSBT is read by `gate try` alone."""
    for name in sorted(it for it in os.listdir(os.path.join(ROOT, "examples")) if not it.endswith(".psbt")):
        words = ["check", "-"] if name.endswith(".hex") else ["run"]
        with open(os.path.join(ROOT, "examples", name), "rb") as file:
            text = file.read()
        found = subprocess.run([host, *words], input=text, capture_output=True, timeout=SECONDS, check=False, env=surroundings(gate, **more))
        wanted = gate.run(" ".join(words), text)
        same(name, (found.returncode, found.stdout, found.stderr), (wanted.status, wanted.stdout, wanted.stderr))


@contextlib.contextmanager
def hosted(gate, **more):
    """Sets the variables that hosts read."""
    before = dict(os.environ)
    os.environ.update(surroundings(gate, **more))
    try:
        yield
    finally:
        os.environ.clear()
        os.environ.update(before)


def does_tests(gate, host, files):
    """The host passes the program's own tests of these files."""
    stand_in = Gate(host, says_causes=False)
    with hosted(gate):
        for file in files:
            tests = vars(importlib.import_module(file))
            names = [name for name in tests if name.startswith("test_")]
            true("no tests in " + file, names)
            for name in names:
                tests[name](stand_in)


def tells_changes(gate, host, **more):
    """The host tells of each line of random streams and of rows what the listings before and behind it show."""
    with hosted(gate, **more):
        asked_often(Watching(host, says_causes=False))
        rows(Watching(host, says_causes=False))


def objects_of_replies(stderr):
    """The objects that are said of replies, in their order."""
    objects = [json.loads(line) for line in stderr.decode().splitlines()]
    return [it for it in objects if "rule" in it or "error" in it]


def says_why(gate, host, **more):
    """What the host is told of each reply is what `gate run --explain=json` says of it; the replies are those without it."""
    told = 0
    for name in EXAMPLES:
        with open(os.path.join(ROOT, "examples", name), "rb") as file:
            text = file.read()
        wanted = gate.run("run --explain=json", text)
        asked = surroundings(gate, EXPLAIN="1", **more)
        found = subprocess.run([host, "run"], input=text, capture_output=True, timeout=SECONDS, check=False, env=asked)
        same(name, (found.returncode, found.stdout), (wanted.status, wanted.stdout))
        same("what is said of " + name, objects_of_replies(found.stderr), objects_of_replies(wanted.stderr))
        told += len(objects_of_replies(found.stderr))
    true("only %d replies were explained" % told, told > 10)


def test_rows_in_c(gate):
    """A host in C does the rows and the examples as the program does."""
    does_rows(gate, in_c())
    does_examples(gate, in_c())


def test_rows_in_c_with_little_room(gate):
    """So does one whose buffer has five bytes, which fetches each longer reply once more."""
    does_rows(gate, in_c(), ROOM="5")
    does_examples(gate, in_c(), ROOM="5")


def test_rows_in_cpp(gate):
    """A host in C++."""
    does_rows(gate, in_cpp())
    does_examples(gate, in_cpp())


def test_rows_in_rust(gate):
    """A host in Rust."""
    does_rows(gate, in_rust())
    does_examples(gate, in_rust())


def test_rows_in_python(gate):
    """A host in Python."""
    does_rows(gate, in_python())
    does_examples(gate, in_python())


def test_streams_in_c(gate):
    """A host in C passes the tests of random streams, and of all else that `run` and `check -` alone do."""
    does_tests(gate, in_c(), ("random_streams", *STREAMS))


def test_streams_in_cpp(gate):
    """The random streams in C++."""
    does_tests(gate, in_cpp(), ("random_streams",))


def test_streams_in_rust(gate):
    """The random streams in Rust."""
    does_tests(gate, in_rust(), ("random_streams",))


def test_streams_in_python(gate):
    """The random streams in Python."""
    does_tests(gate, in_python(), ("random_streams",))


def test_changes_in_c(gate):
    """A host in C is asked after each line what it moved: that is the difference of the listings before and behind it."""
    tells_changes(gate, in_c())


def test_changes_in_c_with_little_room(gate):
    """The same where the buffer has five bytes, so that what moved is asked for once more."""
    tells_changes(gate, in_c(), ROOM="5")


def test_changes_of_events(gate):
    """The same of lines that threads read before they are answered."""
    tells_changes(gate, with_threads(), THREADS="2")


def test_changes_in_cpp(gate):
    """What lines moved, in C++."""
    tells_changes(gate, in_cpp())


def test_changes_in_rust(gate):
    """What lines moved, in Rust."""
    tells_changes(gate, in_rust())


def test_changes_in_python(gate):
    """What lines moved, in Python."""
    tells_changes(gate, in_python())


def test_explanations_in_c(gate):
    """A host in C is told of each reply what the program says of it."""
    says_why(gate, in_c())


def test_explanations_in_c_with_little_room(gate):
    """The same where the buffer has five bytes, so that each object is asked for once more."""
    says_why(gate, in_c(), ROOM="5")


def test_explanations_in_cpp(gate):
    """What is said of replies, in C++."""
    says_why(gate, in_cpp())


def test_explanations_in_rust(gate):
    """What is said of replies, in Rust."""
    says_why(gate, in_rust())


def test_explanations_in_python(gate):
    """What is said of replies, in Python."""
    says_why(gate, in_python())


def test_failing_allocations(gate):
    """Each allocation of an opening, of lines, of what they moved and of what is said of them fails in turn: no reply is lost, and no
    memory is left at the end."""
    host, in_changes, in_sayings = with_c("failing", "failing_allocations.c", *WRAPPED), 0, 0
    for name in EXAMPLES:
        told = done_by([host, os.path.join(ROOT, "examples", name)])
        true("few allocations: " + told, int(told.split()[0]) > 20)
        in_changes += int(re.search(r"(\d+) in what a line moved", told)[1])
        in_sayings += int(re.search(r"(\d+) in what is said", told)[1])
    true("%d allocations in what lines moved" % in_changes, in_changes > 10)
    true("%d allocations in what is said of lines" % in_sayings, in_sayings > 10)


def test_threads(gate):
    """Lines that threads read before they are answered have the replies that the program gives, and those of the model."""
    for threads in ("1", "4"):
        does_examples(gate, with_threads(), THREADS=threads)
    does_tests(gate, with_threads(), ("random_streams",))


def test_misuse(gate):
    """Each status where it is due, with nothing changed there: closed, open already, too little room, a line too long."""
    same("what isn't so", done_by([with_c("misused", "misused.c")]), "")


def test_nothing_is_left(gate):
    """Valgrind finds neither an error nor memory that is left."""
    hosts = [with_c("misused", "misused.c")], [in_c(), "run"], [with_threads(), "run"]
    if not shutil.which("valgrind"):
        raise NotTried("there is no valgrind")
    watched = ["valgrind", "--quiet", "--error-exitcode=99", "--leak-check=full", "--show-leak-kinds=all", "--errors-for-leak-kinds=all"]
    same("misuse", done_by([*watched, *hosts[0]]), "")
    for name in EXAMPLES:
        with open(os.path.join(ROOT, "examples", name), "rb") as file:
            text = file.read()
        wanted = (0, gate.run("run", text).stdout, b"")
        for host in hosts[1:]:
            found = subprocess.run([*watched, *host], input=text, capture_output=True, timeout=SECONDS, check=False)
            same(name, (found.returncode, found.stdout, found.stderr), wanted)


@long
def test_a_million_events(gate):
    """A million events by the shared library, which learn and forget, leave its memory as it was after the first tenth."""
    library()
    print(done_by([os.path.join(ROOT, "bench", "living"), "--library", SHARED]))


def test_ends_in_python(gate):
    """The exceptions of the package for Python, and what the shared library shows."""
    library()
    same("what isn't so", done_by([sys.executable, os.path.join(HOSTS, "ends.py")], env=surroundings(gate)), "")


def install_to(gate, library_folder, to):
    """`make install` puts the library in its places below /opt in a folder."""
    words = ["make", "--silent", "PROGRAM=" + gate.program, "LIBRARY=" + library_folder, "DESTDIR=" + to, "PREFIX=/opt"]
    done_by([*words, "install"], cwd=ROOT)
    return [*words, "uninstall"]


def is_installed(prefix, version):
    """Each file is in its place, and the package for Python finds the library from there."""
    headers = ["include/gate.h", "include/gate.hpp", "lib/pkgconfig/gate.pc", "lib/cmake/gate/gate-config.cmake", "lib/cmake/gate/gate-config-version.cmake"]
    libraries = ["lib/libgate_c.a", "lib/libgate_c.so", "lib/libgate_c.so.0"]
    package = ["share/gate/python/" + it for it in ("pyproject.toml", "setup.py", "gate/__init__.py", "gate/changes.py", "gate/library.py", "gate/replies.py", "gate/py.typed")]
    crate = ["share/gate/rust/" + it for it in ("Cargo.toml", "build.rs", "src/lib.rs", "src/calls.rs", "src/changes.rs", "src/reply.rs")]
    for it in headers + libraries + package + crate:
        true(it + " is not installed", os.path.isfile(os.path.join(prefix, it)))
    same("the link", os.readlink(os.path.join(prefix, "lib", "libgate_c.so")), "libgate_c.so.0")
    alone = {name: it for name, it in os.environ.items() if name != "GATE_LIBRARY"}
    surroundings = dict(alone, PYTHONPATH=os.path.join(prefix, "share", "gate", "python"), PYTHONDONTWRITEBYTECODE="1")
    same("the package for Python", done_by([sys.executable, "-c", "import gate; print(gate.version())"], env=surroundings), version + "\n")


def with_pkg_config(prefix, host, source, compiler_words):
    """A program that is compiled with the flags that pkg-config gives, and finds the shared library."""
    if not shutil.which("pkg-config"):
        raise NotTried("there is no pkg-config")
    asked = dict(os.environ, PKG_CONFIG_PATH=os.path.join(prefix, "lib", "pkgconfig"))
    flags = done_by(["pkg-config", "--cflags", "--libs", "gate"], env=asked).split()
    done_by([*compiler_words, "-o", host, source, *flags, "-Wl,-rpath," + os.path.join(prefix, "lib")])
    return host


CMAKE = """cmake_minimum_required(VERSION 3.5)
project(host LANGUAGES C CXX)
set(CMAKE_CXX_STANDARD 17)
find_package(gate %s REQUIRED)
foreach(library gate archive)
  add_executable(host-${library} "%s")
  target_link_libraries(host-${library} gate::${library})
endforeach()
"""


def with_cmake(prefix, at, source, version):
    """Two programs that CMake makes with what find_package finds: with the shared library, and with the archive."""
    if not shutil.which("cmake"):
        raise NotTried("there is no cmake")
    os.makedirs(at)
    with open(os.path.join(at, "CMakeLists.txt"), "w", encoding="utf-8") as file:
        file.write(CMAKE % (version, source))
    done_by(["cmake", "-S", at, "-B", at, "-DCMAKE_PREFIX_PATH=" + prefix])
    done_by(["cmake", "--build", at])
    return [os.path.join(at, "host-" + it) for it in ("gate", "archive")]


def test_installing_the_library(gate):
    """`make install` puts the library in its places, where it works, and `make uninstall` takes it away."""
    library()
    with tempfile.TemporaryDirectory() as to:
        uninstall = install_to(gate, LIBRARY, to)
        is_installed(os.path.join(to, "opt"), gate.run("--version").stdout.decode().split()[1])
        done_by(uninstall, cwd=ROOT)
        same("what is left", [name for _, _, names in os.walk(to) for name in names], [])


def test_the_file_of_pkg_config(gate):
    """A host is compiled with the flags that pkg-config gives, and runs with the shared library."""
    library()
    host = with_pkg_config(LIBRARY, os.path.join(folder().name, "shared"), os.path.join(HOSTS, "misused.c"), [c_compiler(), *C])
    same("what isn't so", done_by([host]), "")


def test_the_package_of_cmake(gate):
    """Hosts that find_package makes with the shared library and with the archive."""
    library()
    for host in with_cmake(LIBRARY, os.path.join(folder().name, "cmake"), os.path.join(HOSTS, "misused.c"), "0.1"):
        same("what isn't so", done_by([host]), "")
