//! Finds the static library and the kit's C parts, and has both linked.

use std::env;
use std::path::{Path, PathBuf};
use std::process::exit;

/// The value of a variable that is set and not empty.
fn set(name: &str) -> Option<PathBuf> {
    println!("cargo:rerun-if-env-changed={name}");
    env::var_os(name).filter(|value| !value.is_empty()).map(PathBuf::from)
}

/// Links `lib<name>.a` of the folder, or says what is missing and how to get it.
fn link(folder: &Path, name: &str, how: &str) {
    let file = folder.join(format!("lib{name}.a"));
    if !file.is_file() {
        eprintln!("linseedladle: no {}; {how}", file.display());
        exit(1);
    }
    println!("cargo:rerun-if-changed={}", file.display());
    println!("cargo:rustc-link-search=native={}", folder.display());
    println!("cargo:rustc-link-lib=static={name}");
}

fn main() {
    println!("cargo:rerun-if-changed=build.rs");
    let here = PathBuf::from(env::var_os("CARGO_MANIFEST_DIR").unwrap_or_default());
    let ladle = set("LADLE_LIB").unwrap_or_else(|| here.join("../../crates/ffi/out"));
    let kit = set("RATTLE_HOME").unwrap_or_else(|| PathBuf::from("/opt/rattle"));
    link(&ladle, "ffi", "run `rt lib` in crates/ffi of the repository, or set LADLE_LIB to the folder that has it");
    for name in ["os_c", "libc_c"] {
        link(&kit.join("c"), name, "set RATTLE_HOME to the folder of the kit");
    }
}
