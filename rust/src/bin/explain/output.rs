//! The output of a replay program.

use crate::digits;
use crate::words::BAD_ORDER;

/// What an output says of a line.
pub enum Said {
    /// A number and a reply.
    Answer(u8, Vec<u8>),
    /// A line that is no answer, and why.
    Unreadable(String),
    /// No line.
    Missing,
}

/// How an output ends.
#[derive(Clone, Copy, PartialEq, Eq)]
pub struct Closing {
    /// Whether the store is whole.
    pub whole: bool,
    /// The chunks held.
    pub held: u16,
}

/// An output: its answers, and its closing line if it has one.
#[derive(Default)]
pub struct Output<'a> {
    answers: Vec<&'a [u8]>,
    /// The closing line.
    pub closing: Option<Closing>,
}

impl<'a> Output<'a> {
    /// Reads an output.
    pub fn read(file: &'a [u8]) -> Output<'a> {
        let mut answers: Vec<&[u8]> = digits::lines(file).collect();
        let closing = answers.last().and_then(|line| closing(line));
        if closing.is_some() {
            answers.pop();
        }
        Output { answers, closing }
    }

    /// Whether it is what the replay program writes for a line one that is missing or bad.
    pub fn is_bad_order_alone(&self) -> bool {
        let said = (self.answers.len(), self.closing.is_none(), self.said(0));
        matches!(said, (1, true, Said::Answer(BAD_ORDER, reply)) if reply.is_empty())
    }

    /// How many answers it has.
    pub fn len(&self) -> usize {
        self.answers.len()
    }

    /// What it says at a place, counted from 0.
    pub fn said(&self, place: usize) -> Said {
        let Some(&line) = self.answers.get(place) else {
            return Said::Missing;
        };
        if let Some(other) = digits::other_character(line) {
            return Said::Unreadable(other);
        }
        match digits::bytes(line).as_deref() {
            Some([number, reply @ ..]) => Said::Answer(*number, reply.to_vec()),
            Some([]) => Said::Unreadable("it is empty".to_string()),
            None => Said::Unreadable("it has an odd number of digits".to_string()),
        }
    }
}

/// The closing line, if a line is one.
fn closing(line: &[u8]) -> Option<Closing> {
    let bytes = digits::bytes(line)?;
    let (whole, held) = match *bytes {
        [0xff, high, low] => (true, [high, low]),
        [0xf0, high, low] => (false, [high, low]),
        _ => return None,
    };
    let held = u16::from_be_bytes(held);
    Some(Closing { whole, held })
}
