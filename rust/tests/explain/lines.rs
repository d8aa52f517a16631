//! The replay program's own numbers, `0c` and `0f`.

use crate::support::{refused, rows, run, File, Trace, ABC};

/// A later line that is no frame.
fn no_frame(line: &str, reason: &str) {
    refused(&Trace::abc().line(line), "0f", reason);
}

#[test]
fn lines_that_are_no_frame() {
    let digits = |count| "0".repeat(count);
    no_frame("", "the line is empty");
    no_frame(
        &digits(14),
        "the line has 14 digits, under the 16 of a clock",
    );
    no_frame(&digits(17), "the line has 17 digits, an odd number");
    no_frame(
        "0",
        "the line has 1 digit, an odd number and under the 16 of a clock",
    );
    no_frame(
        &digits(4_114),
        "the line has 4,114 digits, over the most, 4,112",
    );
    let clock = digits(16);
    no_frame(
        &format!("{clock}g"),
        "character 17 is 'g', no hexadecimal digit",
    );
    no_frame(
        &format!("{clock} "),
        "character 17 is a space, no hexadecimal digit",
    );
    no_frame(
        &format!("{clock}\r"),
        "character 17 is a carriage return, no hexadecimal digit",
    );
    no_frame(
        &format!("{clock}\0"),
        "character 17 is the byte 00, no hexadecimal digit",
    );
}

/// An input with a bad line one, and why it is bad.
fn no_order(input: &[u8], reason: &str, behind: &str) {
    let ran = run(&[File::new(input), File::new(b"0c\n")]);
    assert_eq!(ran.status, Some(0), "{}", ran.text);
    let wanted = [
        "line 1    no order".to_string(),
        "answer    0c line one is missing or bad, and nothing more is answered".to_string(),
        format!("reason    {reason}"),
        String::new(),
        format!("the end   {behind} behind line one, not answered"),
        "output    it has the answers of this library".to_string(),
    ];
    assert_eq!(rows(&ran.text), wanted);
}

#[test]
fn line_one_that_is_no_order() {
    no_order(b"", "there is no line at all", "0 lines");
    let counted = |count: &str| format!("it has {count}, a root and a length have 72");
    no_order(b"\n00\n", &counted("0 characters"), "1 line");
    let short = format!("{ABC}0000003\n\n\n");
    no_order(short.as_bytes(), &counted("71 characters"), "2 lines");
    let returned = format!("{ABC}00000003\r\n");
    let reason = "; character 73 is a carriage return, no hexadecimal digit";
    let reason = counted("73 characters") + reason;
    no_order(returned.as_bytes(), &reason, "0 lines");
    let other = format!("{ABC}0000000x");
    let reason = "character 72 is 'x', no hexadecimal digit";
    no_order(other.as_bytes(), reason, "0 lines");
    no_order(
        format!("{ABC}00000000").as_bytes(),
        "the length is 0",
        "0 lines",
    );
    let reason = "the length is 32,769, the program takes up to 32,768";
    no_order(format!("{ABC}00008001").as_bytes(), reason, "0 lines");
}
