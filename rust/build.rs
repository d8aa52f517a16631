//! Links the static library of the proved code, which stands in the directory
//! that the environment variable PROVED_LIB_DIR names, or else in
//! `target/staticlib` of the repository.

use std::path::PathBuf;

fn main() {
    println!("cargo::rerun-if-env-changed=PROVED_LIB_DIR");
    let package = std::env::var_os("CARGO_MANIFEST_DIR").expect("cargo sets CARGO_MANIFEST_DIR");
    let package = PathBuf::from(package);
    let directory = match std::env::var_os("PROVED_LIB_DIR") {
        Some(directory) => package.join(directory),
        None => package.join("../target/staticlib"),
    };
    let archive = directory.join("libloader.a");
    println!("cargo::rerun-if-changed={}", archive.display());
    if !archive.is_file() {
        panic!(
            "{} is missing: run `tools/library` first",
            archive.display()
        );
    }
    println!("cargo::rustc-link-search=native={}", directory.display());
    println!("cargo::rustc-link-lib=static=loader");
}
