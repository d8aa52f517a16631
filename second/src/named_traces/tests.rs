//! The program answers every named trace as it was worked out by hand, and the
//! files of the repository are these.

use super::*;
use crate::replay::replay;
use std::collections::BTreeSet;
use std::path::PathBuf;

/// Where the files are.
fn directory() -> PathBuf {
    PathBuf::from(env!("CARGO_MANIFEST_DIR")).join("../tests/traces")
}

/// What the program answers.
fn answered(input: &[u8]) -> Vec<u8> {
    let mut output = Vec::new();
    replay(input, &mut output).unwrap();
    output
}

#[test]
fn the_program_answers_as_worked_out_by_hand() {
    for named in all() {
        let got = String::from_utf8(answered(&named.input)).unwrap();
        let wanted = String::from_utf8(named.wanted).unwrap();
        for (place, (got, wanted)) in got.lines().zip(wanted.lines()).enumerate() {
            assert_eq!(got, wanted, "{}: output line {}", named.name, place + 1);
        }
        assert_eq!(got, wanted, "{}", named.name);
    }
}

#[test]
fn the_files_are_these() {
    let mut names = BTreeSet::new();
    for named in all() {
        let file = directory().join(named.name);
        assert_eq!(file.extension(), None, "{}", named.name);
        let input = std::fs::read(file.with_extension("hex")).unwrap();
        assert!(input == named.input, "{}.hex", named.name);
        let output = std::fs::read(file.with_extension("out")).unwrap();
        assert!(output == answered(&input), "{}.out", named.name);
        assert!(names.insert(named.name.to_string()), "{} twice", named.name);
    }
    for entry in std::fs::read_dir(directory()).unwrap() {
        let path = entry.unwrap().path();
        let name = path.file_stem().unwrap().to_str().unwrap();
        assert!(name == "README" || names.contains(name), "{name}");
    }
}

#[test]
fn the_table_is_in_the_readme() {
    let readme = std::fs::read_to_string(directory().join("README.md")).unwrap();
    assert!(readme.ends_with(&table()));
}

#[test]
fn the_first_datagram_of_seven_has_1250_bytes() {
    let all = all();
    let least = all.iter().find(|named| named.name == "seven-least-hashes");
    let text = std::str::from_utf8(&least.unwrap().input).unwrap();
    // Behind the order, the opening and the clock.
    let line = text.lines().nth(2).unwrap();
    assert_eq!((line.len() - 16) / 2, 1_250);
}
