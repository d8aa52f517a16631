//! The command line: its status, and what it tells.

mod scripts;

use scripts::{directory, script, SECOND};
use std::path::Path;
use std::process::Command;

/// The named traces of a test: one, for which this is the wanted output.
fn traces(name: &str, wanted: &str) -> std::path::PathBuf {
    let traces = directory(name);
    let order = format!("{}00000001\n", "00".repeat(32));
    std::fs::write(traces.join("order.hex"), order).unwrap();
    std::fs::write(traces.join("order.out"), wanted).unwrap();
    traces
}

/// The status and the output of a run.
fn run(program: &Path, traces: &Path, more: &[&str]) -> (Option<i32>, String) {
    let output = Command::new(env!("CARGO_BIN_EXE_compare"))
        .arg(program)
        .arg("--traces")
        .arg(traces)
        .args(more)
        .output()
        .unwrap();
    (
        output.status.code(),
        String::from_utf8(output.stdout).unwrap(),
    )
}

#[test]
fn no_difference() {
    let traces = traces("command-same", "f00000\n");
    let (status, output) = run(SECOND.as_ref(), &traces, &["--seeds", "0..20"]);
    assert_eq!(status, Some(0), "{output}");
    assert!(output.starts_with("1 named traces\n"), "{output}");
    assert!(output.ends_with("no difference\n"), "{output}");
    assert!(output.contains("\ntraces             21\n"), "{output}");
    let (status, output) = run(SECOND.as_ref(), &traces, &["--random", "20"]);
    assert_eq!(status, Some(0), "{output}");
    assert!(output.contains("\nseeds "), "{output}");
}

#[test]
fn a_difference_names_the_seed_and_keeps_the_trace() {
    let traces = traces("command-different", "f00000\n");
    let wrong = script("command-wrong", &format!("{SECOND} | sed 's/^05/06/'"));
    let kept = directory("command-kept");
    let more = ["--seeds", "0..200", "--kept", kept.to_str().unwrap()];
    let (status, output) = run(&wrong, &traces, &more);
    assert_eq!(status, Some(1), "{output}");
    assert!(output.contains("\nwanted: 05\ngot:    06\n"), "{output}");
    assert!(output.ends_with("DIFFERENT\n"), "{output}");
    let (_, rest) = output.split_once("\nseed ").unwrap();
    let seed: u64 = rest.split_once(':').unwrap().0.parse().unwrap();
    let file = kept.join(format!("seed-{seed}.hex"));
    assert_eq!(std::fs::read(file).unwrap(), second::traces::generate(seed));
}

#[test]
fn a_named_difference_is_told() {
    let traces = traces("command-named", "f00001\n");
    let (status, output) = run(SECOND.as_ref(), &traces, &[]);
    assert_eq!(status, Some(1), "{output}");
    assert!(
        output.contains("order: Second: output line 1 differs\n"),
        "{output}"
    );
    assert!(
        output.contains("order: Program: output line 1 differs\n"),
        "{output}"
    );
}

#[test]
fn what_cannot_be_run_is_neither() {
    let traces = traces("command-error", "f00000\n");
    assert_eq!(run("/nowhere/replay".as_ref(), &traces, &[]).0, Some(2));
    assert_eq!(run(SECOND.as_ref(), "/nowhere".as_ref(), &[]).0, Some(2));
    for bad in [
        &["--seeds", "5"][..],
        &["--seeds"],
        &["--threads", "0"],
        &["--other", "1"],
    ] {
        assert_eq!(run(SECOND.as_ref(), &traces, bad).0, Some(2));
    }
}
