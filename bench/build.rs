//! Finds the proved library, the C parts of the kit, and SQLite.
use std::env;
use std::path::PathBuf;

fn main() {
    let here = PathBuf::from(env::var("CARGO_MANIFEST_DIR").unwrap());
    let built = env::var("LADLE_LIB")
        .map(PathBuf::from)
        .unwrap_or_else(|_| here.join("../crates/ffi/out"));
    let kit = env::var("RATTLE_HOME").unwrap_or_else(|_| "/opt/rattle".to_string());
    println!("cargo:rustc-link-search=native={}", built.display());
    println!("cargo:rustc-link-search=native={kit}/c");
    println!("cargo:rustc-link-lib=static=ffi");
    println!("cargo:rustc-link-lib=static=os_c");
    println!("cargo:rustc-link-lib=static=libc_c");
    println!("cargo:rustc-link-lib=sqlite3");
    println!("cargo:rerun-if-env-changed=LADLE_LIB");
    println!("cargo:rerun-if-env-changed=RATTLE_HOME");
    println!("cargo:rerun-if-changed={}", built.join("libffi.a").display());
}
