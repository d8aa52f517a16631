//! Where two outputs differ, and how that is told.

use crate::program::Run;
use std::fmt;
use std::process::ExitStatus;

/// The longest line that is shown whole.
const SHOWN: usize = 400;

/// How what a program did differs from what was wanted of it.
#[derive(Debug, PartialEq, Eq)]
pub enum Difference {
    /// A line of the output.
    Line {
        /// Its number, from 1.
        output_line: usize,
        /// The number and the characters of the line that it answers; none for
        /// the closing line, or where too many lines were written.
        input_line: Option<(usize, Vec<u8>)>,
        /// Without its line feed; none if there is to be no more line.
        wanted: Option<Vec<u8>>,
        /// The same of what the program wrote.
        got: Option<Vec<u8>>,
    },
    /// All lines are right, but the last line feed is not there.
    NoLineFeed,
    /// All is right, but the program did not end well.
    Status(ExitStatus),
    /// The program did not end in time.
    OverTime,
}

/// The difference, if there is one, between what is wanted for an input and what
/// a program did.
pub fn find(input: &[u8], wanted: &[u8], run: &Run) -> Option<Difference> {
    match run {
        Run::OverTime => Some(Difference::OverTime),
        Run::Ended { output, status } => {
            find_in_output(input, wanted, output).or_else(|| failed(*status))
        }
    }
}

/// 01 names no status: 0 says that all went well, as everywhere.
fn failed(status: ExitStatus) -> Option<Difference> {
    (!status.success()).then_some(Difference::Status(status))
}

/// The difference between two outputs.
pub fn find_in_output(input: &[u8], wanted: &[u8], got: &[u8]) -> Option<Difference> {
    if wanted == got {
        return None;
    }
    let (wanted, got) = (lines(wanted), lines(got));
    let place = (0..wanted.len().max(got.len())).find(|&place| wanted.get(place) != got.get(place));
    let Some(place) = place else {
        return Some(Difference::NoLineFeed);
    };
    let owned = |line: Option<&&[u8]>| line.map(|line| line.to_vec());
    Some(Difference::Line {
        output_line: place + 1,
        input_line: answered(input, &wanted, place),
        wanted: owned(wanted.get(place)),
        got: owned(got.get(place)),
    })
}

/// The lines of a text, a last one without line feed included.
pub fn lines(text: &[u8]) -> Vec<&[u8]> {
    let mut lines: Vec<_> = text.split(|&byte| byte == b'\n').collect();
    if lines.last().is_some_and(|last| last.is_empty()) {
        lines.pop();
    }
    lines
}

/// The line of the input that the output line at a place answers. Line one is
/// answered only where it is bad.
fn answered(input: &[u8], wanted: &[&[u8]], place: usize) -> Option<(usize, Vec<u8>)> {
    let bad_order = wanted == [b"0c"];
    let index = if bad_order { place } else { place + 1 };
    let line = lines(input).get(index)?.to_vec();
    Some((index + 1, line))
}

impl fmt::Display for Difference {
    fn fmt(&self, f: &mut fmt::Formatter) -> fmt::Result {
        match self {
            Difference::Line {
                output_line,
                input_line,
                wanted,
                got,
            } => {
                writeln!(f, "output line {output_line} differs")?;
                match input_line {
                    Some((number, line)) => writeln!(f, "input line {number}: {}", shown(line))?,
                    None => writeln!(f, "no input line: it is the closing line or behind it")?,
                }
                let text = |line: &Option<Vec<u8>>| line.as_deref().map_or("no line".into(), shown);
                writeln!(f, "wanted: {}", text(wanted))?;
                write!(f, "got:    {}", text(got))
            }
            Difference::NoLineFeed => write!(f, "the last line feed is missing"),
            Difference::Status(status) => write!(f, "the output is right, but: {status}"),
            Difference::OverTime => write!(f, "the program did not end in time"),
        }
    }
}

/// A line for reading: what is no printable ASCII is escaped, and of a long line
/// the front is shown.
pub fn shown(line: &[u8]) -> String {
    let front = &line[..line.len().min(SHOWN)];
    let mut text = front.escape_ascii().to_string();
    if front.len() < line.len() {
        text += &format!("... ({} characters)", line.len());
    }
    text
}
