//! A difference is found and told, whatever it is; and none where there is none.

mod scripts;

use compare::difference::{find_in_output, Difference};
use compare::named::{self, Whose};
use compare::program::{second, Program};
use compare::seeds::{compare, Outcome};
use compare::tally::Tally;
use scripts::{directory, script, SECOND};
use std::time::Duration;

/// Long enough for any run.
const LONG: Duration = Duration::from_secs(60);

/// The outcome over some seeds of `second` with something done to its input or
/// output.
fn outcome(name: &str, text: &str) -> Outcome {
    let program = Program::new(script(name, text), LONG);
    compare(&program, 0..200, 2).unwrap()
}

#[test]
fn the_same_program_is_not_different() {
    let outcome = outcome("same", &format!("exec {SECOND}"));
    assert!(outcome.failure.is_none());
    let tally = outcome.tally;
    assert_eq!(tally.traces, 200);
    assert_eq!(tally.of(0xff) + tally.of(0xf0) + tally.of(0x0c), 200);
    let numbers: u64 = (0..0xf0).map(|number| tally.of(number)).sum();
    assert_eq!(numbers, tally.lines + tally.of(0x0c));
    for number in (0..=10).chain([12, 15, 0xf0, 0xff]) {
        assert!(tally.of(number) > 0, "{number}");
    }
}

#[test]
fn every_wrong_output_is_found() {
    for (name, text) in [
        ("number", "| sed 's/^0a/09/'"),
        ("reply", "| sed 's/^\\(00.*\\)./\\1x/'"),
        ("case", "| tr a-f A-F"),
        ("whole", "| sed 's/^ff0/f00/'"),
        ("count", "| sed 's/^\\(f0000\\)0$/\\11/'"),
        ("no_closing_line", "| sed '$d'"),
        ("one_line_more", "; echo"),
        ("no_line_feed", "| head -c -1"),
        ("carriage_return", "| sed 's/$/\\r/'"),
    ] {
        let outcome = outcome(name, &format!("{SECOND} {text}"));
        assert!(outcome.failure.is_some(), "{name}");
    }
}

#[test]
fn every_wrong_reading_is_found() {
    for (name, text) in [
        ("upper_case_refused", "tr A-F x"),
        ("zeros_dropped", "tr -d '\\000'"),
        ("last_line_dropped", "sed '$d'"),
        ("line_feed_added", "sed '$a\\'"),
        ("long_lines_cut", "cut -b 1-4112"),
        ("empty_lines_dropped", "sed '/^$/d'"),
    ] {
        let outcome = outcome(name, &format!("{text} | {SECOND}"));
        let harmless = name == "line_feed_added";
        assert_eq!(outcome.failure.is_none(), harmless, "{name}");
    }
}

#[test]
fn a_program_that_does_nothing_is_found() {
    for (name, text) in [("stops", "exit 0"), ("swallows", "cat >/dev/null")] {
        let failure = outcome(name, text).failure.unwrap();
        let Difference::Line {
            output_line, got, ..
        } = failure.difference
        else {
            panic!("{name}: {}", failure.difference);
        };
        assert_eq!((output_line, got), (1, None));
    }
}

#[test]
fn a_bad_status_is_found() {
    let failure = outcome("status", &format!("{SECOND}; exit 3")).failure;
    let difference = failure.unwrap().difference;
    assert!(matches!(difference, Difference::Status(_)), "{difference}");
}

#[test]
fn a_program_that_does_not_end_is_found() {
    let program = Program::new(script("hangs", "exec sleep 20"), Duration::from_millis(100));
    let failure = compare(&program, 0..10, 2).unwrap().failure.unwrap();
    assert_eq!(failure.difference, Difference::OverTime);
}

#[test]
fn no_program_is_an_error() {
    let program = Program::new("/nowhere/replay".into(), LONG);
    assert!(compare(&program, 0..10, 2).is_err());
}

/// The line that differs, the one it answers, and both answers.
fn told(input: &str, wanted: &str, got: &str) -> (usize, Option<usize>, String, String) {
    let found = find_in_output(input.as_bytes(), wanted.as_bytes(), got.as_bytes());
    let Some(Difference::Line {
        output_line,
        input_line,
        wanted,
        got,
    }) = found
    else {
        panic!("{found:?}");
    };
    let text =
        |line: Option<Vec<u8>>| line.map_or("-".into(), |line| String::from_utf8(line).unwrap());
    let answered = input_line.map(|(number, line)| {
        assert_eq!(input.lines().nth(number - 1).unwrap().as_bytes(), line);
        number
    });
    (output_line, answered, text(wanted), text(got))
}

#[test]
fn differences_are_told_by_their_lines() {
    let input = "order\none\ntwo\n";
    let wanted = "01\n02\nf00000\n";
    let line = |output, input, wanted: &str, got: &str| (output, input, wanted.into(), got.into());
    assert!(find_in_output(input.as_bytes(), wanted.as_bytes(), wanted.as_bytes()).is_none());
    assert_eq!(
        told(input, wanted, "03\n02\nf00000\n"),
        line(1, Some(2), "01", "03")
    );
    assert_eq!(
        told(input, wanted, "01\n0200\nf00000\n"),
        line(2, Some(3), "02", "0200")
    );
    assert_eq!(
        told(input, wanted, "01\n02\nf00001\n"),
        line(3, None, "f00000", "f00001")
    );
    assert_eq!(
        told(input, wanted, "01\n02\n"),
        line(3, None, "f00000", "-")
    );
    assert_eq!(
        told(input, wanted, "01\n02\nf00000\n\n"),
        line(4, None, "-", "")
    );
    assert_eq!(told(input, wanted, ""), line(1, Some(2), "01", "-"));
    assert_eq!(told(input, "0c\n", "00\n"), line(1, Some(1), "0c", "00"));
    assert_eq!(
        told(input, "0c\n", "0c\nf00000\n"),
        line(2, Some(2), "-", "f00000")
    );
    let found = find_in_output(input.as_bytes(), wanted.as_bytes(), b"01\n02\nf00000");
    assert_eq!(found, Some(Difference::NoLineFeed));
}

#[test]
fn named_traces_are_compared_with_their_files() {
    let traces = directory("named");
    let input = second::traces::generate(5);
    let write = |name: &str, bytes: &[u8]| std::fs::write(traces.join(name), bytes).unwrap();
    write("good.hex", &input);
    write("good.out", &second(&input));
    write("wrong.hex", &input);
    write("wrong.out", &[&second(&input)[..], b"00\n"].concat());
    write("README.md", b"not looked at");
    let all = named::read(&traces).unwrap();
    let names: Vec<&str> = all.iter().map(|named| &named.name[..]).collect();
    assert_eq!(names, ["good", "wrong"]);
    let program = Program::new(SECOND.into(), LONG);
    let mut tally = Tally::default();
    let failures = named::compare(&program, &all, &mut tally).unwrap();
    assert_eq!(tally.traces, 2);
    // Fed whole and in pieces, the program differs twice.
    let whose: Vec<_> = failures.iter().map(|failure| &failure.whose).collect();
    assert_eq!(whose, [&Whose::Second, &Whose::Program, &Whose::Program]);
    assert!(failures.iter().all(|failure| failure.name == "wrong"));
    write("half.out", b"0c\n");
    assert!(named::read(&traces).is_err());
    assert!(named::read(&directory("empty")).is_err());
}
