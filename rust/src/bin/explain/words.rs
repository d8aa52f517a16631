//! Counts, ranges and numbers in words.

use ppspp::{Node, Refusal};

/// The replay program's number for a line one that is missing or bad.
pub const BAD_ORDER: u8 = 0x0c;
/// The replay program's number for a later line that is no frame.
pub const BAD_LINE: u8 = 0x0f;

/// A count with a comma before each three digits.
pub fn count(number: usize) -> String {
    let digits = number.to_string();
    let mut text = String::new();
    for (place, digit) in digits.chars().enumerate() {
        if place > 0 && (digits.len() - place).is_multiple_of(3) {
            text.push(',');
        }
        text.push(digit);
    }
    text
}

/// A count of things, such as `1 byte` or `1,024 bytes`.
pub fn counted(number: usize, thing: &str) -> String {
    let plural = if number == 1 { "" } else { "s" };
    format!("{} {thing}{plural}", count(number))
}

/// A range, such as `4..5` or `6`.
pub fn range(first: u32, last: u32) -> String {
    if first == last {
        return first.to_string();
    }
    format!("{first}..{last}")
}

/// A range with what it is of, such as `chunks 4..5` or `chunk 6`.
pub fn chunks(first: u32, last: u32) -> String {
    let plural = if first == last { "" } else { "s" };
    format!("chunk{plural} {}", range(first, last))
}

/// A node with what it is over, such as `chunks 4..5 (node 9)`.
pub fn node(node: Node) -> String {
    let chunks = chunks(node.first(), node.last());
    format!("{chunks} (node {})", node.number())
}

/// The ranges of chunks, which rise.
pub fn ranges(chunks: impl Iterator<Item = u32>) -> Vec<(u32, u32)> {
    let mut ranges: Vec<(u32, u32)> = Vec::new();
    for chunk in chunks {
        match ranges.last_mut() {
            Some((_, last)) if *last + 1 == chunk => *last = chunk,
            _ => ranges.push((chunk, chunk)),
        }
    }
    ranges
}

/// Ranges in one line, such as `0..3, 6`.
pub fn list(ranges: &[(u32, u32)]) -> String {
    if ranges.is_empty() {
        return "none".to_string();
    }
    let each = ranges.iter().map(|&(first, last)| range(first, last));
    each.collect::<Vec<_>>().join(", ")
}

/// The sentence of a number that the replay program writes.
pub fn sentence(number: u8) -> String {
    match (number, Refusal::of(number.into())) {
        (0, _) => "done".to_string(),
        (BAD_ORDER, _) => "line one is missing or bad, and nothing more is answered".to_string(),
        (BAD_LINE, _) => "the line is no frame: no clock and datagram in digits".to_string(),
        (_, Some(refusal)) => refusal.to_string(),
        (_, None) => "this is no number of the table".to_string(),
    }
}
