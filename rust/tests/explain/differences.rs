//! An output that is not of its input is noticed, line by line.

use crate::support::{rows, run, File, Ran, Trace, ABC};
use second::packets::data;

/// Opens, gives a wrong chunk, a short datagram and the right chunk.
fn trace() -> Trace {
    let trace = Trace::abc().take(&[&data(0, 0, 0, b"abd")]);
    trace.line(&"0".repeat(22)).take(&[&data(0, 0, 0, b"abc")])
}

/// What the replay program writes for it, by 01.
fn output() -> Vec<String> {
    let reply = format!("00000000110000000001000101010200 20{ABC}0301040206020900000400ff");
    let ack = format!("000000001102{}", "0".repeat(32));
    vec![
        reply.replace(' ', ""),
        "0a".into(),
        "01".into(),
        ack,
        "ff0001".into(),
    ]
}

/// A run with another output.
fn with(lines: &[String]) -> Ran {
    let text: String = lines.iter().map(|line| format!("{line}\n")).collect();
    let ran = run(&[File::new(trace().input()), File::new(text.as_bytes())]);
    assert_eq!(ran.errors, "");
    ran
}

/// The rows that tell of a difference, under that of their line.
fn differences(ran: &Ran) -> Vec<String> {
    let mut told = Vec::new();
    let mut under = String::new();
    for row in rows(&ran.text) {
        match row.strip_prefix("DIFFERENT ") {
            Some(difference) => told.push(format!("{under}: {difference}")),
            None if row.starts_with("line ") || row.starts_with("the end ") => {
                under = row[..7].trim().to_string()
            }
            None => {}
        }
    }
    told
}

const MEANING: &str = "the output is not of this input, or of another version";

/// A run with one line changed, and the one difference that is told.
fn changed(place: usize, line: &str, wanted: &str) -> Ran {
    let mut lines = output();
    lines[place] = line.to_string();
    let ran = with(&lines);
    assert_eq!(ran.status, Some(1), "{}", ran.text);
    assert_eq!(differences(&ran), [wanted], "{}", ran.text);
    assert!(ran
        .text
        .ends_with("output    it DIFFERS from this library, see above\n"));
    ran
}

#[test]
fn right_output_has_no_difference() {
    let ran = with(&output());
    assert_eq!(
        (ran.status, differences(&ran)),
        (Some(0), vec![]),
        "{}",
        ran.text
    );
}

#[test]
fn another_number() {
    let ran = changed(
        3,
        "05",
        &format!("line 5: the output says 05, this library says 00: {MEANING}"),
    );
    // It is explained as the output has it, without a reason that is not so.
    let told = "answer    05 no channel of ours has the datagram's destination\nDIFFERENT ";
    assert!(ran.text.contains(told), "{}", ran.text);
    assert!(
        ran.text.contains("          05: 1 (no channel"),
        "{}",
        ran.text
    );
    let ran = changed(
        1,
        "00",
        &format!("line 3: the output says 00, this library says 0a: {MEANING}"),
    );
    assert!(
        ran.text.contains("answer    00 done\nDIFFERENT "),
        "{}",
        ran.text
    );
    let ran = changed(
        1,
        "63",
        &format!("line 3: the output says 63, this library says 0a: {MEANING}"),
    );
    assert!(
        ran.text
            .contains("answer    63 this is no number of the table\n"),
        "{}",
        ran.text
    );
}

#[test]
fn another_reply() {
    let wanted = format!("line 5: the output's reply is another than this library's: {MEANING}");
    let mut other = output()[3].clone();
    other.replace_range(other.len() - 1.., "1");
    let ran = changed(3, &other, &wanted);
    assert!(
        ran.text
            .contains("reply     to channel 17: ACK of chunk 0, delay 1\n"),
        "{}",
        ran.text
    );
    changed(3, "00", &wanted);
    let ran = changed(3, "0000", &wanted);
    assert!(
        ran.text.contains("reply     1 byte, no datagram\n"),
        "{}",
        ran.text
    );
}

#[test]
fn line_that_is_no_answer() {
    let own = "explained is this library's";
    let ran = changed(1, "0a\r", &format!("line 3: line 2 of the output is no answer, character 3 is a carriage return, no hexadecimal digit: {own}"));
    assert!(
        ran.text
            .contains("\nreason    chunk 0 does not give the root, over chunk 0 (node 0)\n"),
        "{}",
        ran.text
    );
    changed(
        1,
        "0a0",
        &format!(
            "line 3: line 2 of the output is no answer, it has an odd number of digits: {own}"
        ),
    );
    changed(
        1,
        "",
        &format!("line 3: line 2 of the output is no answer, it is empty: {own}"),
    );
}

#[test]
fn another_closing_line() {
    let own = "this library with ff0001 (whole, 1 chunk)";
    changed(
        4,
        "f00000",
        &format!("the end: the output closes with f00000 (not whole, 0 chunks), {own}: {MEANING}"),
    );
    let mut cut = output();
    cut.pop();
    let ran = with(&cut);
    assert_eq!(
        differences(&ran),
        ["the end: the output has no closing line: it is cut short"]
    );
    assert_eq!(ran.status, Some(1));
}

#[test]
fn another_number_of_lines() {
    let mut fewer = output();
    fewer.remove(3);
    let ran = with(&fewer);
    let missing = "the output has no answer for this line: explained is this library's";
    let count =
        format!("the end: the output has 3 answers, this input 4 lines to be answered: {MEANING}");
    assert_eq!(differences(&ran), [format!("line 5: {missing}"), count]);
    assert_eq!(ran.status, Some(1));
    let mut more = output();
    more.insert(4, "05".to_string());
    let ran = with(&more);
    let count =
        format!("the end: the output has 5 answers, this input 4 lines to be answered: {MEANING}");
    assert_eq!(differences(&ran), [count]);
    let ran = with(&[]);
    assert_eq!(
        (ran.status, differences(&ran).len()),
        (Some(1), 6),
        "{}",
        ran.text
    );
}

#[test]
fn order_that_one_side_refuses() {
    let ran = with(&["0c".to_string()]);
    let told = differences(&ran);
    let first = format!("line 1: the output says 0c, this library takes the order: {MEANING}");
    assert_eq!((ran.status, &told[0]), (Some(1), &first), "{}", ran.text);
    let refused = |output: &str| {
        let ran = run(&[File::new(b"no order\n"), File::new(output.as_bytes())]);
        assert_eq!(ran.status, Some(1), "{}", ran.text);
        differences(&ran)
    };
    assert_eq!(
        refused("00\nf00000\n"),
        [format!(
            "line 1: the output says 00, this library says 0c: {MEANING}"
        )]
    );
    assert_eq!(
        refused("f00000\n"),
        [format!("line 1: the output has no 0c: {MEANING}")]
    );
    assert_eq!(
        refused(""),
        [format!("line 1: the output has no 0c: {MEANING}")]
    );
    assert_eq!(
        refused("0c\n0f\n"),
        [format!("line 1: the output has more than 0c: {MEANING}")]
    );
    assert_eq!(
        refused("0c0\n"),
        ["line 1: the output's line 1 is no answer: it has an odd number of digits"]
    );
}
