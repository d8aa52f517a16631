//! The program itself: what it writes, and its status.

use std::process::{Command, Output};

fn yard(line: &str) -> Output {
    let mut program = Command::new(env!("CARGO_BIN_EXE_yard"));
    program.args(line.split_whitespace());
    program.output().expect("the program can be run")
}

#[test]
fn a_good_run_has_status_0() {
    let output = yard("--vans 4 --chunks 7 --seed 3");
    assert_eq!(output.status.code(), Some(0));
    let text = String::from_utf8(output.stdout).expect("text");
    assert!(
        text.ends_with("GOOD: 4 of 4 vans are whole, byte for byte\n"),
        "{text}"
    );
    assert!(output.stderr.is_empty());
}

/// The title tells of bins, and the attacker has one sort of datagram more.
#[test]
fn a_run_under_bins_says_so() {
    let output = yard("--vans 4 --chunks 7 --seed 3 --addressing bins");
    assert_eq!(output.status.code(), Some(0));
    let text = String::from_utf8(output.stdout).expect("text");
    assert!(
        text.starts_with("4 vans, 7 chunks, seed 3,") && text.contains(" attacker on, bins\n"),
        "{text}"
    );
    assert!(text.contains("\n  attacker: wrong bin "), "{text}");
    let ranges = yard("--vans 4 --chunks 7 --seed 3 --addressing ranges");
    let text = String::from_utf8(ranges.stdout).expect("text");
    assert!(
        text.contains(" attacker on\n") && !text.contains("wrong bin"),
        "{text}"
    );
}

#[test]
fn a_run_that_does_not_get_whole_has_status_1() {
    let output = yard("--vans 4 --chunks 7 --loss 100 --seconds 5");
    assert_eq!(output.status.code(), Some(1));
    let text = String::from_utf8(output.stdout).expect("text");
    assert!(text.contains("\nFAILED: 0 of 4 vans"), "{text}");
}

#[test]
fn a_wrong_argument_has_status_2_and_a_sentence() {
    let wrong = [
        (
            "--vans none",
            "The argument --vans needs a number from 1 to 500, not \"none\".\n",
        ),
        (
            "--addressing chunks",
            "The argument --addressing is bins or ranges, and not \"chunks\".\n",
        ),
    ];
    for (line, sentence) in wrong {
        let output = yard(line);
        assert_eq!(output.status.code(), Some(2));
        assert!(output.stdout.is_empty());
        assert_eq!(String::from_utf8(output.stderr).as_deref(), Ok(sentence));
    }
}

#[test]
fn help_names_every_argument() {
    let output = yard("--help");
    assert_eq!(output.status.code(), Some(0));
    let text = String::from_utf8(output.stdout).expect("text");
    for name in
        "vans chunks addressing seed loss duplicate reorder truncate flip attacker plot seconds"
            .split(' ')
    {
        assert!(text.contains(&format!("--{name} ")), "{name}");
    }
}

#[test]
fn a_plot_that_cannot_be_written_has_status_2() {
    let output = yard("--vans 1 --chunks 1 --plot no-such-directory/held.svg");
    assert_eq!(output.status.code(), Some(2));
    let text = String::from_utf8(output.stderr).expect("text");
    assert!(text.starts_with("The plot no-such-directory/held.svg cannot be written"));
}
