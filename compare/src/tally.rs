//! What was compared, in figures.

use crate::difference::lines;
use second::replay::BAD_LINE;
use std::fmt;

/// How much was compared, and what was answered.
pub struct Tally {
    pub traces: u64,
    /// Lines behind a good line one.
    pub lines: u64,
    /// How often each number came: the first two digits of each output line.
    numbers: [u64; 256],
}

impl Default for Tally {
    fn default() -> Self {
        Tally {
            traces: 0,
            lines: 0,
            numbers: [0; 256],
        }
    }
}

impl Tally {
    /// Counts the output for one trace.
    pub fn count(&mut self, output: &[u8]) {
        self.traces += 1;
        let lines = lines(output);
        // The closing line, or the answer to a bad line one, is besides.
        self.lines += lines.len().saturating_sub(1) as u64;
        for line in lines {
            if let Some(number) = number(line) {
                self.numbers[usize::from(number)] += 1;
            }
        }
    }

    /// Adds what another counted.
    pub fn add(&mut self, other: &Tally) {
        self.traces += other.traces;
        self.lines += other.lines;
        for (count, more) in self.numbers.iter_mut().zip(other.numbers) {
            *count += more;
        }
    }

    /// Lines that are frames: a clock and a datagram.
    pub fn datagrams(&self) -> u64 {
        self.lines - self.of(BAD_LINE)
    }

    /// How often a number came.
    pub fn of(&self, number: u8) -> u64 {
        self.numbers[usize::from(number)]
    }
}

/// The number at the front of a line.
fn number(line: &[u8]) -> Option<u8> {
    let digits = std::str::from_utf8(line.get(..2)?).ok()?;
    u8::from_str_radix(digits, 16).ok()
}

impl fmt::Display for Tally {
    fn fmt(&self, f: &mut fmt::Formatter) -> fmt::Result {
        writeln!(f, "traces     {:>10}", self.traces)?;
        writeln!(f, "lines      {:>10}", self.lines)?;
        writeln!(f, "datagrams  {:>10}", self.datagrams())?;
        for number in 0..0xf0 {
            if self.of(number) > 0 {
                writeln!(f, "number {number:02x}  {:>10}", self.of(number))?;
            }
        }
        writeln!(f, "whole      {:>10}", self.of(0xff))?;
        write!(f, "not whole  {:>10}", self.of(0xf0))
    }
}
