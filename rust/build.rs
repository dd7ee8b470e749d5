//! Says where `libexports.a` lies: in the folder that the environment variable
//! `GOFESHAN_LIB` names, or in `crates/exports/out` of the repository, where
//! `rt lib` in `crates/exports` writes it.

use std::path::PathBuf;

fn main() {
    println!("cargo:rerun-if-env-changed=GOFESHAN_LIB");
    let folder = match std::env::var_os("GOFESHAN_LIB") {
        Some(folder) => PathBuf::from(folder),
        None => PathBuf::from(std::env::var_os("CARGO_MANIFEST_DIR").unwrap()).join("../crates/exports/out"),
    };
    let archive = folder.join("libexports.a");
    println!("cargo:rerun-if-changed={}", archive.display());
    if !archive.exists() {
        println!("cargo:warning={} is missing: run `rt lib` in crates/exports, or set GOFESHAN_LIB", archive.display());
    }
    println!("cargo:rustc-link-search=native={}", folder.display());
    println!("cargo:rustc-link-lib=static=exports");
}
