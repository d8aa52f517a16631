//! Programs made for a test, and directories.

use std::path::PathBuf;
use std::process::Command;

/// The replay program of `second`.
pub const SECOND: &str = env!("CARGO_BIN_EXE_second_replay");

/// A directory of this name, which is empty.
pub fn directory(name: &str) -> PathBuf {
    let directory = PathBuf::from(env!("CARGO_TARGET_TMPDIR")).join(name);
    // It need not be there.
    let _ = std::fs::remove_dir_all(&directory);
    std::fs::create_dir_all(&directory).unwrap();
    directory
}

/// A shell script. Another process writes it: a program that another test starts
/// in this one could have the file open for writing, and it could not be run.
pub fn script(name: &str, text: &str) -> PathBuf {
    let file = directory(&format!("script-{name}")).join(name);
    let written = Command::new("sh")
        .args([
            "-c",
            "printf '#!/bin/sh\\n%s\\n' \"$1\" >\"$2\" && chmod +x \"$2\"",
            "sh",
            text,
        ])
        .arg(&file)
        .status();
    assert!(written.unwrap().success());
    file
}
