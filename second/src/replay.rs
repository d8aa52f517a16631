//! The replay program: an order and datagrams, as lines of hexadecimal digits,
//! go in; the number and the reply of each come out, and at the end whether the
//! store is whole and how many chunks it holds.
//!
//! It keeps one store and the front of one line, however long the input and its
//! lines are.

mod lines;
mod session;
#[cfg(test)]
mod tests;

pub use session::{Session, MOST_LENGTH};

use crate::hex;
use lines::Lines;
use std::io::{self, BufRead, Write};

/// A missing or bad first line.
pub const BAD_FIRST_LINE: u8 = 0x0c;
/// A later line with another character, an odd length, or too few or too many
/// digits.
pub const BAD_LINE: u8 = 0x0f;
/// The closing line's lead where all chunks are held.
pub const WHOLE: u8 = 0xff;
/// The same where one is missing.
pub const NOT_WHOLE: u8 = 0xf0;

/// The most digits of a line that is read: eight bytes of clock and a datagram
/// of 2,048 bytes.
pub const MOST_DIGITS: usize = 4_112;

/// Answers an input to its end.
pub fn replay(input: impl BufRead, mut output: impl Write) -> io::Result<()> {
    let mut lines = Lines::new(input, MOST_DIGITS);
    let session = match lines.next()? {
        Some(line) => Session::start(line),
        None => None,
    };
    let mut answer = Vec::new();
    let Some(mut session) = session else {
        return write_line(&mut output, &mut answer, &[&[BAD_FIRST_LINE]]);
    };
    while let Some(line) = lines.next()? {
        let (number, reply) = session.answer(line);
        write_line(&mut output, &mut answer, &[&[number], reply])?;
    }
    write_line(&mut output, &mut answer, &[&session.closing()])
}

/// Writes bytes as digits in lower case, and a line feed; they are put together in
/// `line`.
fn write_line(output: &mut impl Write, line: &mut Vec<u8>, parts: &[&[u8]]) -> io::Result<()> {
    line.clear();
    for bytes in parts {
        hex::append(line, bytes);
    }
    line.push(b'\n');
    output.write_all(line)
}
