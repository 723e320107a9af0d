//! Finds the proved library, which `tools/library` writes to the repository's `target/staticlib`.

use std::env::var_os;
use std::path::PathBuf;
use std::process::exit;

fn main() {
    let here = PathBuf::from(var_os("CARGO_MANIFEST_DIR").expect("cargo says where the crate is"));
    let folder = here.join("../../target/staticlib");
    let archive = folder.join("libcimbrolau.a");
    println!("cargo:rerun-if-changed=build.rs");
    println!("cargo:rerun-if-changed={}", archive.display());
    if !archive.is_file() {
        eprintln!("The proved library is not there: {}", archive.display());
        eprintln!("Make it in the repository's root, with the command");
        eprintln!();
        eprintln!("    tools/library");
        eprintln!();
        exit(1);
    }
    println!("cargo:rustc-link-search=native={}", folder.display());
    println!("cargo:rustc-link-lib=static=cimbrolau");
}
