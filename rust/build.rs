//! Links the proved engine's archive, libsod.a: that of the folder SOD_LIB_DIR, an absolute path, or
//! else of target/staticlib in the repository's root, where `tools/archives` writes it.

use std::env;
use std::path::{Path, PathBuf};

fn main() {
    println!("cargo::rerun-if-changed=build.rs");
    println!("cargo::rerun-if-env-changed=SOD_LIB_DIR");
    let folder = folder();
    if folder.is_relative() {
        // It would be looked for in one place here, and in another by the linker.
        println!("cargo::error=SOD_LIB_DIR is not an absolute path");
        return;
    }
    let archive = folder.join("libsod.a");
    println!("cargo::rerun-if-changed={}", archive.display());
    if !archive.exists() {
        println!(
            "cargo::error=the engine {} is not there: run `tools/archives` in the repository's \
             root, or name the folder that has libsod.a by SOD_LIB_DIR",
            archive.display()
        );
        return;
    }
    println!("cargo::rustc-link-search=native={}", folder.display());
    println!("cargo::rustc-link-lib=static=sod");
}

fn folder() -> PathBuf {
    let crate_root = env::var("CARGO_MANIFEST_DIR").expect("cargo sets it");
    match env::var_os("SOD_LIB_DIR") {
        Some(folder) => PathBuf::from(folder),
        None => Path::new(&crate_root).join("../target/staticlib"),
    }
}
