//! What is told: the order, each line, and the end.

use crate::acknowledged::Acknowledged;
use crate::frame::Frame;
use crate::naming::Naming;
use crate::words;
use ppspp::{Channel, Node, Order};
use std::collections::BTreeMap;
use std::io;

/// An answer in words.
pub struct Answer {
    /// The number.
    pub number: u8,
    /// The node that the library names with it.
    pub node: Option<Node>,
    /// Why it was given, as far as it can be told.
    pub reason: Option<String>,
}

impl Answer {
    /// The number as the replay program writes it.
    pub fn code(&self) -> String {
        format!("{:02x}", self.number)
    }

    /// The number's sentence.
    pub fn text(&self) -> String {
        words::sentence(self.number)
    }
}

/// Line one.
pub struct First {
    /// The order, or the answer to a line one that is missing or bad.
    pub order: Result<Order, Answer>,
    /// Whether an output was given.
    pub given: bool,
    /// In what the output differs from the library here.
    pub difference: Option<String>,
}

/// A later line.
pub struct Line {
    /// Its number, counted from 1.
    pub line: usize,
    /// How its messages name chunks.
    pub naming: Naming,
    /// Its clock and datagram, if it is a frame.
    pub frame: Option<Frame>,
    /// The channel that it was for, if there was one.
    pub channel: Option<Channel>,
    /// The answer.
    pub answer: Answer,
    /// What the datagram did, if it was taken.
    pub effects: Vec<String>,
    /// What the library's ACK names, if the datagram was taken and is answered by one.
    pub acknowledged: Option<Acknowledged>,
    /// The reply; no byte where there is none.
    pub reply: Vec<u8>,
    /// In what the output differs from the library here.
    pub difference: Option<String>,
}

/// What is held of a pack.
pub struct Held {
    /// The ranges held.
    pub held: Vec<(u32, u32)>,
    /// The ranges missing.
    pub missing: Vec<(u32, u32)>,
}

/// The end.
pub struct End {
    /// What the library's store holds; none where there was no order.
    pub held: Option<Held>,
    /// How many lines behind line one there are.
    pub lines: usize,
    /// How often each number was given, 0 included.
    pub numbers: BTreeMap<u8, usize>,
    /// In what the output's end differs from the library's.
    pub differences: Vec<String>,
    /// Whether the output agrees with the library on all; none without an output.
    pub agrees: Option<bool>,
}

/// A form in which an explanation is written.
pub trait Form {
    /// Writes what line one is.
    fn first(&mut self, first: &First) -> io::Result<()>;
    /// Writes a later line.
    fn line(&mut self, line: &Line) -> io::Result<()>;
    /// Writes the end.
    fn end(&mut self, end: &End) -> io::Result<()>;
}
