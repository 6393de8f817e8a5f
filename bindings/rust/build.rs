//! Links the static library that `rt lib` makes in `crates/mubdrax_c` and the code of the toolchain that it needs.
use std::env;
use std::path::{Path, PathBuf};

fn main() {
    let here = PathBuf::from(env::var_os("CARGO_MANIFEST_DIR").expect("cargo names the folder of the package"));
    let repository = here.join("../..");
    link(&repository.join("crates/mubdrax_c/out"), "mubdrax_c");
    link(&toolchain().join("c"), "libc_c");
    println!("cargo:rerun-if-env-changed=RATTLE_HOME");
}

/// The toolchain's folder: `RATTLE_HOME`, or where it is installed by default.
fn toolchain() -> PathBuf {
    env::var_os("RATTLE_HOME").map_or_else(|| PathBuf::from("/opt/rattle"), PathBuf::from)
}

fn link(folder: &Path, library: &str) {
    let archive = folder.join(format!("lib{library}.a"));
    assert!(archive.exists(), "{} is missing: run bindings/build.sh", archive.display());
    println!("cargo:rerun-if-changed={}", archive.display());
    println!("cargo:rustc-link-search=native={}", folder.display());
    println!("cargo:rustc-link-lib=static={library}");
}
