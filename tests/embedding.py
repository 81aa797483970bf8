"""What embeds the library, without the library: it compiles, declares the calls and the statuses of crates/gate_c, and works on
a library that takes each line for its own reply (hosts/fake_library.c), where each status can be had.
"""

import functools
import os
import shutil
import sys
import tempfile

from gate import ROOT, Differs, NotTried, same, true
from library import C, HOSTS, WARNINGS, c_compiler, cargos, cpp_compiler, done_by, install_to, is_installed, package_of, run_cargo, with_cmake, with_pkg_config

sys.path.insert(0, os.path.join(ROOT, "tools"))

import bindings
import interface
import library_samples

LIB = os.path.join(ROOT, "lib")
CPP = ["-std=c++17", "-Wshadow", "-Wconversion"]


def hosts(ending):
    return [os.path.join(HOSTS, it) for it in sorted(os.listdir(HOSTS)) if it.endswith(ending)]


@functools.lru_cache(None)
def folder():
    """Where the tests of this file make what they run. It goes when the tests end."""
    return tempfile.TemporaryDirectory(prefix="gate-embedding-")


def compile_text(compiler, name, text, *words):
    """A text that has to compile; nothing is linked."""
    path = os.path.join(folder().name, name)
    with open(path, "w", encoding="utf-8") as file:
        file.write(text)
    done_by([compiler, *WARNINGS, *words, "-fsyntax-only", "-I", LIB, path])


@functools.lru_cache(None)
def fake_prefix():
    """A folder as `make lib` fills it, with the library of fake_library.c."""
    prefix = os.path.join(folder().name, "fake")
    libraries = os.path.join(prefix, "lib")
    os.makedirs(libraries)
    archive, shared, made = (os.path.join(libraries, it) for it in ("libgate_c.a", "libgate_c.so.0", "fake.o"))
    done_by([c_compiler(), *WARNINGS, *C, "-fPIC", "-I", LIB, "-c", "-o", made, os.path.join(HOSTS, "fake_library.c")])
    done_by([c_compiler(), "-shared", "-Wl,-soname,libgate_c.so.0", "-o", shared, made])
    done_by(["ar", "rcs", archive, made])
    os.remove(made)
    os.symlink("libgate_c.so.0", os.path.join(libraries, "libgate_c.so"))
    bindings.put(prefix)
    return prefix


def test_hosts_in_c(gate):
    """lib/gate.h, and each host in C."""
    for it in hosts(".c"):
        done_by([c_compiler(), *WARNINGS, *C, "-fsyntax-only", "-I", LIB, it])


def test_hosts_in_cpp(gate):
    """lib/gate.hpp, and lib/gate.h in C++."""
    for it in hosts(".cpp"):
        done_by([cpp_compiler(), *WARNINGS, *CPP, "-fsyntax-only", "-I", LIB, it])


def test_hosts_in_rust(gate):
    """The crate and the hosts in Rust, by each compiler that is there; its page of documents."""
    for number, cargo in enumerate(cargos()):
        at = os.path.join(folder().name, "check-%d" % number)
        package_of(at, os.path.join(LIB, "rust"), **{os.path.basename(it)[:-3]: it for it in hosts(".rs")})
        run_cargo(cargo, at, "check")
        run_cargo(cargo, at, "doc", "--package", "gate", "--no-deps", RUSTDOCFLAGS="-D warnings")


def test_package_in_python(gate):
    """The package and the hosts in Python are read by Python; mypy finds no fault in the types of the package and of the samples."""
    for at, _, names in os.walk(os.path.join(LIB, "python")):
        for name in names:
            if name.endswith(".py"):
                with open(os.path.join(at, name), encoding="utf-8") as file:
                    compile(file.read(), name, "exec")
    for path in hosts(".py"):
        with open(path, encoding="utf-8") as file:
            compile(file.read(), path, "exec")
    if not shutil.which("mypy"):
        raise NotTried("there is no mypy")
    words = ["mypy", "--strict", "--python-version", "3.9", "--cache-dir", os.path.join(folder().name, "mypy")]
    done_by([*words, os.path.join(LIB, "python", "gate")])
    for number, (kind, lines) in enumerate(library_samples.parts(library_samples.text_of(library_samples.PAGE))):
        if kind == "python":
            path = os.path.join(folder().name, "typed_%d.py" % number)
            with open(path, "w", encoding="utf-8") as file:
                file.write("\n".join(lines) + "\n")
            done_by([*words, path], env=dict(os.environ, MYPYPATH=os.path.join(LIB, "python")))


def names_in_c():
    return {"GATE_" + interface.screaming(name): number for name, number in interface.statuses().items()}


def statuses_in_c(assertion):
    """Each status has its number, and the enumeration has no other."""
    found = ["%s(%s == %d, \"\");" % (assertion, name, number) for name, number in names_in_c().items()]
    cases = "\n".join("    case %s: return 1;" % name for name in names_in_c())
    return "\n".join([*found, "int is_status(enum gate_status status);", "int is_status(enum gate_status status) {\n    switch (status) {\n%s\n    }\n    return 0;\n}\n" % cases])


def calls_in_c():
    """A pointer to each call, of the type that the table gives."""
    for name, parameters, has_status in interface.calls():
        result = "uint32_t" if has_status else "void"
        yield "extern %s (*const of_%s)(%s);\n%s (*const of_%s)(%s) = %s;" % (*(result, name, interface.in_language(parameters, 0)) * 2, name)


def test_the_table_in_c(gate):
    """gate.h has the calls and the statuses of crates/gate_c, and none besides."""
    layout = '_Static_assert(sizeof(struct gate) == 16 && offsetof(struct gate, is_open) == 8 && sizeof(struct gate_keys) == 16, "");\n'
    layout += '_Static_assert(sizeof(struct gate_event) == 16 && offsetof(struct gate_event, is_open) == 8, "");\n'
    text = '#include "gate.h"\n' + layout + statuses_in_c("_Static_assert") + "\n".join(calls_in_c()) + "\n"
    compile_text(c_compiler(), "table.c", text, *C, "-Wswitch-enum")
    compile_text(cpp_compiler(), "table.cpp", text.replace("_Static_assert", "static_assert").replace("<stddef.h>", "<cstddef>"), "-std=c++17", "-Wswitch-enum")


def test_the_table_in_rust(gate):
    """The crate has them too."""
    if not shutil.which("rustc"):
        raise NotTried("there is no rustc")
    lines = ['#![allow(dead_code)]\n#[path = "%s"]\nmod calls;\nuse calls::{EventHandle, Handle, Keys, Status};' % os.path.join(LIB, "rust", "src", "calls.rs")]
    for name, parameters, has_status in interface.calls():
        kind = 'unsafe extern "C" fn(%s)%s' % (interface.in_language(parameters, 1), " -> u32" if has_status else "")
        lines.append("const OF_%s: %s = calls::%s;" % (name.upper(), kind, name))
    for name, number in interface.statuses().items():
        lines.append("const _: () = assert!(Status::%s as u32 == %d);" % (name, number))
    lines.append("fn number_of(status: Status) -> u32 {\n    match status {")
    lines += ["        Status::%s => %d," % it for it in interface.statuses().items()]
    lines.append("    }\n}\nfn main() {\n    assert_eq!((std::mem::size_of::<Handle>(), std::mem::size_of::<Keys>()), (16, 16));")
    lines.append("    assert_eq!(std::mem::size_of::<EventHandle>(), 16);")
    lines.append("    for code in 0..100 {\n        assert_eq!(Status::of(code).map(number_of), (code < %d).then(|| code));\n    }\n}\n" % len(interface.statuses()))
    path = os.path.join(folder().name, "table.rs")
    with open(path, "w", encoding="utf-8") as file:
        file.write("\n".join(lines))
    # the calls are cut away again, so no library is needed
    done_by(["rustc", "--edition", "2021", "-O", "-o", path[:-3], path])
    done_by([path[:-3]])


PYTHON_TABLE = """
import ctypes
from gate.library import EventHandle, Handle, Keys, Status, library
print({it.name: it.value for it in Status})
print(ctypes.sizeof(Handle), Handle.is_open.offset, ctypes.sizeof(Keys), ctypes.sizeof(EventHandle), EventHandle.is_open.offset)
for name in %r:
    call = getattr(library(), name)
    print(name, [it.__name__ for it in call.argtypes], getattr(call.restype, "__name__", None))
"""
# a parameter in Python, by the names of its types
CTYPES = {
    "&mut GateHandle": ["LP_Handle"],
    "&mut GateEvent": ["LP_EventHandle"],
    "&Keys": ["LP_Keys"],
    "&[u8]": ["c_char_p", "c_ulong"],
    "&mut [u8]": ["c_char_p", "c_ulong"],
    "&mut usize": ["LP_c_ulong"],
    "u64": ["c_ulong"],
}


def in_python(*words, **more):
    """What a python3 prints that has the package of the repository and the library of fake_library.c."""
    surroundings = {**os.environ, "PYTHONPATH": os.path.join(LIB, "python"), "PYTHONDONTWRITEBYTECODE": "1"}
    surroundings["GATE_LIBRARY"] = os.path.join(fake_prefix(), "lib", "libgate_c.so.0")
    return done_by([sys.executable, *words], env={**surroundings, **more})


def test_the_table_in_python(gate):
    """And so has the package."""
    lines = in_python("-c", PYTHON_TABLE % [name for name, _, _ in interface.calls()]).splitlines()
    same("statuses", lines[0], str({interface.screaming(name): number for name, number in interface.statuses().items()}))
    same("sizes", lines[1], "16 8 16 16 8")
    for line, (name, parameters, has_status) in zip(lines[2:], interface.calls()):
        types = [it for _, kind in parameters for it in CTYPES[kind]]
        same(name, line, "%s %s %s" % (name, types, "c_uint" if has_status else None))
    same("how many calls", len(lines), 15)


def test_faults_in_cpp(gate):
    """Moves and swaps of the class for C++, its exceptions, and replies in their parts; valgrind finds nothing left."""
    host = os.path.join(folder().name, "faults-cpp")
    archive = os.path.join(fake_prefix(), "lib", "libgate_c.a")
    done_by([cpp_compiler(), *WARNINGS, *CPP, "-I", LIB, "-o", host, os.path.join(HOSTS, "faults.cpp"), archive])
    same("what isn't so", done_by([host]), "")
    if not shutil.which("valgrind"):
        raise NotTried("there is no valgrind")
    same("what valgrind finds", done_by(["valgrind", "--quiet", "--error-exitcode=99", "--leak-check=full", host]), "")


def test_faults_in_rust(gate):
    """The errors of the crate, gates that go to another thread, and replies in their parts, by each compiler that is there."""
    for number, cargo in enumerate(cargos()):
        at = os.path.join(folder().name, "faults-%d" % number)
        package_of(at, os.path.join(LIB, "rust"), faults=os.path.join(HOSTS, "faults.rs"))
        run_cargo(cargo, at, "build", GATE_LIB_DIR=os.path.join(fake_prefix(), "lib"))
        same("what isn't so", done_by([os.path.join(at, "target", "debug", "faults")]), "")


def test_faults_in_python(gate):
    """The exceptions of the package, and replies in their parts."""
    same("what isn't so", in_python(os.path.join(HOSTS, "faults.py")), "")


VERSION_IN_C = """#include "gate.h"
#include <stdio.h>

int main(void) {
    uint8_t text[64];
    size_t size;
    return gate_version(text, sizeof text, &size) != GATE_DONE || printf("%.*s\\n", (int)size, (const char *)text) < 0;
}
"""


def version_in_c():
    """A program in C that prints the library's version."""
    source = os.path.join(folder().name, "version.c")
    with open(source, "w", encoding="utf-8") as file:
        file.write(VERSION_IN_C)
    return source


def test_installing_what_embeds_it(gate):
    """`make install` puts all of it in its places, and `make uninstall` takes it away."""
    with tempfile.TemporaryDirectory() as to:
        uninstall = install_to(gate, fake_prefix(), to)
        is_installed(os.path.join(to, "opt"), "0.0.0")
        done_by(uninstall, cwd=ROOT)
        same("what is left", [name for _, _, names in os.walk(to) for name in names], [])


def test_pkg_config_finds_it(gate):
    """gate.pc leads to the header and to the shared library."""
    host = with_pkg_config(fake_prefix(), os.path.join(folder().name, "shared"), version_in_c(), [c_compiler(), *C])
    same("the version", done_by([host]), "0.0.0\n")


def test_cmake_finds_it(gate):
    """find_package(gate) leads to both libraries, and takes this version for no later one."""
    c_compiler()
    for host in with_cmake(fake_prefix(), os.path.join(folder().name, "cmake"), version_in_c(), bindings.version()):
        same("the version", done_by([host]), "0.0.0\n")
    for number, wanted in enumerate(("0.2", "0.0", "1", "0.1.1")):
        try:
            with_cmake(fake_prefix(), os.path.join(folder().name, "cmake-%d" % number), version_in_c(), wanted)
        except Differs as refused:
            true("CMake ended otherwise: %s" % refused, "considered but not accepted" in str(refused))
        else:
            raise Differs("CMake takes version %s for %s" % (bindings.version(), wanted))


def test_cargo_finds_it(gate):
    """The crate finds the archive from where it is installed; the sample on its page compiles."""
    at, crate = os.path.join(folder().name, "installed"), os.path.join(fake_prefix(), "share", "gate", "rust")
    source = os.path.join(folder().name, "version.rs")
    with open(source, "w", encoding="utf-8") as file:
        file.write('fn main() {\n    println!("{}", gate::version().expect("a version"));\n}\n')
    package_of(at, crate, version=source)
    run_cargo(cargos()[0], at, "build")
    same("the version", done_by([os.path.join(at, "target", "debug", "version")]), "0.0.0\n")
    run_cargo(cargos()[0], crate, "test", "--doc")


def test_the_samples_compile(gate):
    """What docs/LIBRARY.md shows in each language compiles; with the library it is also run (library_samples.py)."""
    found = {}
    for kind, lines in library_samples.parts(library_samples.text_of(library_samples.PAGE)):
        found.setdefault(kind, []).append("\n".join(lines) + "\n")
    same("languages", sorted(map(str, found)), ["c", "cmake", "cpp", "manifest", "python", "rust", "shell"])
    for number, text in enumerate(found["c"]):
        compile_text(c_compiler(), "sample-%d.c" % number, text, *C)
    for number, text in enumerate(found["cpp"]):
        compile_text(cpp_compiler(), "sample-%d.cpp" % number, text, *CPP)
    for text in found["python"]:
        compile(text, library_samples.PAGE, "exec")
    crate = os.path.join(LIB, "rust")
    for number, text in enumerate(found["rust"]):
        source = os.path.join(folder().name, "sample-%d.rs" % number)
        with open(source, "w", encoding="utf-8") as file:
            file.write(text)
        for place, cargo in enumerate(cargos()):
            at = os.path.join(folder().name, "sample-%d-%d" % (number, place))
            package_of(at, crate, sample=source)
            run_cargo(cargo, at, "check")
    same("the manifest", found["manifest"], ['[dependencies]\ngate = { path = "/usr/local/share/gate/rust" }\n'])
    # the wheel that the page names is the one that is made
    true("the wheel on the page", "gate-%s-py3-none-linux_x86_64.whl`" % bindings.version() in library_samples.text_of(library_samples.PAGE))


def test_the_wheel(gate):
    """The wheel carries the shared library and the mark of types, and works where it alone is installed."""
    if not bindings.wheel_maker():
        raise NotTried("python3 lacks pip, setuptools or wheel")
    made, to = (os.path.join(folder().name, it) for it in ("wheel", "site"))
    same("why there is no wheel", bindings.put_wheel(made, os.path.join(fake_prefix(), "lib", "libgate_c.so.0")), None)
    wheels = os.listdir(os.path.join(made, "share", "gate", "python"))
    same("the wheel", wheels, ["gate-%s-py3-none-linux_x86_64.whl" % bindings.version()])
    words = [bindings.wheel_maker(), "-m", "pip", "install", "--quiet", "--no-index", "--no-deps", "--root-user-action=ignore", "--target", to]
    done_by([*words, os.path.join(made, "share", "gate", "python", wheels[0])])
    for it in ("__init__.py", "py.typed", "libgate_c.so.0"):
        true("the wheel lacks " + it, os.path.isfile(os.path.join(to, "gate", it)))
    same("the version", in_python("-c", "import gate; print(gate.version())", PYTHONPATH=to, GATE_LIBRARY=""), "0.0.0\n")
