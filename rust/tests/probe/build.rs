//! Links libprobe.a, from the same folder as the wrapper's build.rs links libsod.a: SOD_LIB_DIR, an
//! absolute path, or else target/staticlib in the repository's root.

use std::env;
use std::path::{Path, PathBuf};

fn main() {
    println!("cargo::rerun-if-changed=build.rs");
    println!("cargo::rerun-if-env-changed=SOD_LIB_DIR");
    let folder = folder();
    if folder.is_relative() {
        println!("cargo::error=SOD_LIB_DIR is not an absolute path");
        return;
    }
    let archive = folder.join("libprobe.a");
    println!("cargo::rerun-if-changed={}", archive.display());
    if !archive.exists() {
        println!(
            "cargo::error=the tests' probe {} is not there: run `tools/archives` in the \
             repository's root (the wrapper itself does not need it)",
            archive.display()
        );
        return;
    }
    println!("cargo::rustc-link-search=native={}", folder.display());
    println!("cargo::rustc-link-lib=static=probe");
}

fn folder() -> PathBuf {
    let crate_root = env::var("CARGO_MANIFEST_DIR").expect("cargo sets it");
    match env::var_os("SOD_LIB_DIR") {
        Some(folder) => PathBuf::from(folder),
        None => Path::new(&crate_root).join("../../../target/staticlib"),
    }
}
