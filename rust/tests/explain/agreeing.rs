//! `explain` agrees with every output that is right, and has a reason for every refusal in it.

use crate::support::{run, traces, File};
use std::ffi::OsStr;

/// The named traces, by name.
fn named() -> Vec<String> {
    let entries = std::fs::read_dir(traces()).expect("the directory is there");
    let paths = entries.map(|entry| entry.expect("it can be read").path());
    let inputs = paths.filter(|path| path.extension().is_some_and(|ending| ending == "hex"));
    let names = inputs.filter_map(|path| Some(path.file_stem()?.to_str()?.to_string()));
    names.collect()
}

/// Asserts that the output is found right, each line is told, and each refusal has a reason.
fn agrees(name: &str, input: &OsStr, output: &OsStr) {
    let ran = run(&[input, output]);
    assert_eq!((ran.status, &ran.errors[..]), (Some(0), ""), "{name}");
    assert!(!ran.text.contains("DIFFER"), "{name}");
    let written = std::fs::read_to_string(output).expect("it can be read");
    let mut numbers: Vec<&str> = written.lines().map(|line| &line[..2]).collect();
    if numbers != ["0c"] {
        numbers.pop();
    }
    let rows: Vec<&str> = ran.text.lines().collect();
    let answers = rows.iter().filter_map(|row| row.strip_prefix("answer    "));
    let told: Vec<&str> = answers.map(|answer| &answer[..2]).collect();
    assert_eq!(told, numbers, "{name}");
    for pair in rows.windows(2) {
        if pair[0].starts_with("answer") && !pair[0].starts_with("answer    00") {
            assert!(pair[1].starts_with("reason    "), "{name}: {pair:?}");
        }
    }
}

#[test]
fn named_traces() {
    let names = named();
    assert_eq!(names.len(), 104);
    for name in names {
        let path = traces().join(&name);
        let files = ["hex", "out"].map(|ending| path.with_extension(ending));
        agrees(&name, files[0].as_ref(), files[1].as_ref());
    }
}

#[test]
fn random_traces_beside_the_second_program() {
    for seed in 0..150 {
        let input = second::traces::generate(seed);
        let mut output = Vec::new();
        second::replay::replay(&input[..], &mut output).expect("it writes to memory");
        let input = File::new(input);
        let output = File::new(output);
        agrees(&format!("seed {seed}"), input.as_ref(), output.as_ref());
    }
}

#[test]
fn without_output_the_answers_are_the_same() {
    let path = traces().join("every-number");
    let input = path.with_extension("hex");
    let both = run(&[&input, &path.with_extension("out")]).text;
    let alone = run(&[&input]).text;
    let told = "answers   those of this library, since no output is given\n";
    assert!(alone.contains(told), "{alone}");
    let agrees = "output    it has the answers of this library\n";
    assert_eq!(alone.replace(told, "") + agrees, both);
}
