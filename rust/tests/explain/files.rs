//! The command line and the files: what cannot be explained is told in a sentence, with the status 2.

use crate::support::{run, traces, File};
use std::path::{Path, PathBuf};

/// Asserts that nothing is explained, and what is told.
fn failed(arguments: &[PathBuf], told: &str) {
    let ran = run(arguments);
    assert_eq!((ran.status, &ran.text[..]), (Some(2), ""), "{}", ran.errors);
    assert!(
        ran.errors.starts_with(&format!("explain: {told}")),
        "{}",
        ran.errors
    );
    assert_eq!(ran.errors.lines().count(), 1, "{}", ran.errors);
}

#[test]
fn files_that_cannot_be_read() {
    let good = traces().join("example.hex");
    let nowhere = Path::new(env!("CARGO_TARGET_TMPDIR")).join("nowhere");
    let told = format!("{} cannot be read: ", nowhere.display());
    failed(std::slice::from_ref(&nowhere), &told);
    failed(&[good, nowhere], &told);
    let told = format!("{} cannot be read: ", traces().display());
    failed(&[traces()], &told);
}

#[test]
fn arguments_that_are_not_meant() {
    let of = |words: &[&str]| words.iter().map(PathBuf::from).collect::<Vec<_>>();
    failed(&of(&[]), "no INPUT is named");
    failed(&of(&["--json"]), "no INPUT is named");
    failed(&of(&["a", "b", "c"]), "two files are the most, 3 are named");
    failed(&of(&["a", "--colour"]), "--colour is no option");
    let named = "behind --addressing stands bins or ranges";
    failed(&of(&["a", "--addressing"]), named);
    failed(&of(&["--addressing", "a"]), named);
    failed(&of(&["--addressing", "bins"]), "no INPUT is named");
}

#[test]
fn help_is_written() {
    let ran = run(&["--help"]);
    assert_eq!((ran.status, &ran.errors[..]), (Some(0), ""));
    assert!(
        ran.text
            .starts_with("explain INPUT [OUTPUT] [--json] [--addressing bins]\n"),
        "{}",
        ran.text
    );
}

#[test]
fn empty_files() {
    let empty = File::new(b"");
    let ran = run(&[&empty]);
    assert_eq!(ran.status, Some(0));
    assert!(
        ran.text.contains("reason    there is no line at all\n"),
        "{}",
        ran.text
    );
    let ran = run(&[&empty, &empty]);
    assert_eq!(ran.status, Some(1));
    assert!(
        ran.text.contains("DIFFERENT the output has no 0c: "),
        "{}",
        ran.text
    );
}
