//! Links the static libraries of the proved code, which stand in the directory
//! that the environment variable PROVED_LIB_DIR names, or else in
//! `target/staticlib` of the repository. The loader's library is linked by
//! `ppspp`.

use std::path::{Path, PathBuf};

/// The crates that the libraries are made of. Each library exports the
/// functions of its own crate alone, so that none clashes.
const CRATES: [&str; 4] = ["hash_c", "held_c", "store_c", "wire_c"];

fn main() {
    println!("cargo::rerun-if-env-changed=PROVED_LIB_DIR");
    let package = std::env::var_os("CARGO_MANIFEST_DIR").expect("cargo sets CARGO_MANIFEST_DIR");
    let package = PathBuf::from(package);
    let directory = match std::env::var_os("PROVED_LIB_DIR") {
        Some(directory) => package.join(directory),
        None => package.join("../target/staticlib"),
    };
    println!("cargo::rustc-link-search=native={}", directory.display());
    for name in CRATES {
        link(&directory, name);
    }
}

/// Links a crate's library.
fn link(directory: &Path, name: &str) {
    let archive = directory.join(format!("lib{name}.a"));
    println!("cargo::rerun-if-changed={}", archive.display());
    if !archive.is_file() {
        panic!(
            "{} is missing: run `tools/library {name}` first",
            archive.display()
        );
    }
    println!("cargo::rustc-link-lib=static={name}");
}
