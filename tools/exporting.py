"""The library for C, compiled without its proofs.

`rt try` compiles programs alone, and of a program what `main` reaches. So a copy of the crates has crates/gate_c as a program whose
`main` makes each call once. The bitcode that `rt try` hands to clang is kept, its calls get the names of gate.h, and clang compiles
it into code for a library.
"""

import os
import re
import shutil
import subprocess
import tempfile
import time

import bindings
import crates
import interface
import linking

LIBRARY_CRATE = "gate_c"
SECONDS_BETWEEN = 0.1
MAIN = """
use handle::{EventSlot, Slot};
use std::alloc::Alloc;
use std::rt::HostRuntime;

fn main(rt: HostRuntime) {
    let alloc = rt.alloc();
%s}
"""
# what `main` hands to a call for a parameter of this type
GIVEN = {
    "Global": "alloc",
    "&mut GateHandle": "&mut GateHandle { slot: Slot::empty(alloc), is_open: false }",
    "&mut GateEvent": "&mut GateEvent { slot: EventSlot::empty(alloc), is_open: false }",
    "&Keys": "&Keys { first: 1, second: 2 }",
    "&[u8]": "&[0]",
    "&mut [u8]": "&mut [0]",
    "&mut usize": "&mut 0",
    "u64": "1",
}


def put(folder, said):
    """Puts the library into a folder as tools/lib does, but for the wheel; whether it could. What is said goes to a file."""
    began = time.time()
    with tempfile.TemporaryDirectory(prefix="gate-unproved-") as made:
        bitcode = compiled_to_bitcode(made, said)
        if bitcode:
            shared = linking.put(compiled(bitcode), os.path.join(folder, "lib"))
            # what changed meanwhile is newer
            os.utime(shared, (began, began))
            bindings.put(folder)
    return bool(bitcode)


def copied(tree):
    """Copies the crates below the library, which becomes a program. Gives its folder there."""
    with open(os.path.join(tree, "crates.txt"), "w", encoding="utf-8") as file:
        file.writelines(it.replace("%s staticlib:" % LIBRARY_CRATE, "%s:" % LIBRARY_CRATE) for it in crates.lines().values())
    for crate in crates.uses():
        shutil.copytree(os.path.join(crates.folder(crate), "src"), os.path.join(tree, "crates", crate, "src"))
    crate = os.path.join(tree, "crates", LIBRARY_CRATE)
    root = os.path.join(crate, "src", "main.rt")
    os.rename(os.path.join(crate, "src", "lib.rt"), root)
    each = ["    let _ = %s(%s);\n" % (name, ", ".join(GIVEN[kind] for _, kind in parameters)) for name, parameters, _ in interface.declared()]
    with open(root, "a", encoding="utf-8") as file:
        file.write(MAIN % "".join(each))
    return crate


def compiled_to_bitcode(made, said):
    """The bitcode of that program, or None if it was not compiled."""
    tree, temporary, kept = (os.path.join(made, it) for it in ("tree", "temporary", "kept.bc"))
    os.mkdir(tree)
    os.mkdir(temporary)
    run = subprocess.Popen(
        ["rt", "try"], cwd=copied(tree), stdin=subprocess.DEVNULL, stdout=subprocess.DEVNULL, stderr=said, env=dict(os.environ, TMPDIR=temporary)
    )
    try:
        while run.poll() is None:
            for at, _, names in os.walk(temporary):
                # clang has begun, so it is whole; one before it, in a folder of its own, tries clang itself
                if "module.bc" in names and any(it.endswith(".o.tmp") for it in names) and has_calls(os.path.join(at, "module.bc")):
                    os.link(os.path.join(at, "module.bc"), kept)
                    return kept
            time.sleep(SECONDS_BETWEEN)
    finally:
        run.terminate()
        run.wait()
    return None


def has_calls(bitcode):
    with open(bitcode, "rb") as file:
        return b"%s::gate_open" % LIBRARY_CRATE.encode() in file.read()


def compiled(bitcode):
    """Compiles bitcode whose calls are shown under the names that C has for them, and gives the path of the code."""
    clang, text, code = linking.toolchain("toolchain", "bin", "clang"), bitcode + ".ll", bitcode + ".o"
    subprocess.run([clang, "-x", "ir", bitcode, "-S", "-emit-llvm", "-O0", "-Xclang", "-disable-llvm-passes", "-o", text], check=True)
    with open(text, encoding="utf-8") as file:
        ir = file.read()
    for name, _, _ in interface.calls():
        ir = re.sub(r'define internal (.*)@"%s::%s"\(' % (LIBRARY_CRATE, name), r"define \1@%s(" % name, ir)
        ir = ir.replace('@"%s::%s"(' % (LIBRARY_CRATE, name), "@%s(" % name)
    # nothing looks at its accesses, and C has a `main` of its own
    ir = ir.replace(" sanitize_address", "").replace("define i32 @main(", "define internal i32 @unused_main(")
    with open(text, "w", encoding="utf-8") as file:
        file.write(ir)
    subprocess.run([clang, "-x", "ir", text, "-c", "-O2", "-fPIC", "-o", code], check=True)
    return code
