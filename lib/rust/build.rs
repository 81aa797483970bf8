//! Says where the library lies that `make lib` builds: in the folder that GATE_LIB_DIR names, or in `lib` of the prefix that
//! this crate is installed in, or where the repository builds it. Else the linker looks for the shared library.

use std::env;
use std::path::{Path, PathBuf};

const ARCHIVE: &str = "libgate_c.a";

fn main() {
    println!("cargo:rerun-if-env-changed=GATE_LIB_DIR");
    let here = PathBuf::from(env::var_os("CARGO_MANIFEST_DIR").expect("cargo sets CARGO_MANIFEST_DIR"));
    let places = [here.join("../../../lib"), here.join("../../crates/gate_c/out/library/lib")];
    match env::var_os("GATE_LIB_DIR") {
        Some(folder) => link_from(Path::new(&folder)),
        None => match places.iter().find(|it| it.join(ARCHIVE).exists()) {
            Some(folder) => link_from(folder),
            None => println!("cargo:rustc-link-lib=dylib=gate_c"),
        },
    }
}

/// Links the archive of a folder, and libgcc, which divides its numbers of 128 bits.
fn link_from(folder: &Path) {
    println!("cargo:rerun-if-changed={}", folder.join(ARCHIVE).display());
    println!("cargo:rustc-link-search=native={}", folder.display());
    println!("cargo:rustc-link-lib=static=gate_c");
    println!("cargo:rustc-link-lib=gcc");
}
