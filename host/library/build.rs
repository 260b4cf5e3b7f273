//! Links target/staticlib/libgrommetide.a of the repository.

use std::env;
use std::path::PathBuf;

fn main() {
    let folder =
        PathBuf::from(env::var_os("CARGO_MANIFEST_DIR").expect("set by cargo")).join("../../target/staticlib");
    let archive = folder.join("libgrommetide.a");
    println!("cargo::rerun-if-changed={}", archive.display());
    if !archive.is_file() {
        println!("cargo::error=target/staticlib/libgrommetide.a is missing; `make` makes it");
    }
    println!("cargo::rustc-link-search=native={}", folder.display());
    println!("cargo::rustc-link-lib=static=grommetide");
}
