//! A line of the input: a clock and a datagram.

use crate::digits;
use crate::words::{count, counted};

/// The digits of a clock.
pub const CLOCK_DIGITS: usize = 16;
/// The most digits of a line.
const MOST_DIGITS: usize = 4_112;

/// A clock and a datagram.
pub struct Frame {
    /// The clock, in microseconds.
    pub clock: u64,
    /// The datagram.
    pub datagram: Vec<u8>,
}

/// The frame of a line; else why the replay program gives `0f`.
pub fn read(line: &[u8]) -> Result<Frame, String> {
    if let Some(fault) = fault(line) {
        return Err(fault);
    }
    let frame = digits::bytes(line).and_then(|bytes| {
        let (clock, datagram) = bytes.split_first_chunk()?;
        Some(Frame {
            clock: u64::from_be_bytes(*clock),
            datagram: datagram.to_vec(),
        })
    });
    frame.ok_or_else(|| "the digits are no frame".to_string())
}

/// Why a line is no frame. What is said of its digits is said only where it has no other character.
fn fault(line: &[u8]) -> Option<String> {
    let length = line.len();
    if length == 0 {
        return Some("the line is empty".to_string());
    }
    if let Some(other) = digits::other_character(line) {
        return Some(other);
    }
    let mut faults = Vec::new();
    if length % 2 == 1 {
        faults.push("an odd number".to_string());
    }
    if length < CLOCK_DIGITS {
        faults.push(format!("under the {CLOCK_DIGITS} of a clock"));
    }
    if length > MOST_DIGITS {
        faults.push(format!("over the most, {}", count(MOST_DIGITS)));
    }
    let digits = counted(length, "digit");
    (!faults.is_empty()).then(|| format!("the line has {digits}, {}", faults.join(" and ")))
}
