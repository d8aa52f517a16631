//! The datagrams made by hand: `tests/wire/datagrams.txt` under ranges, and
//! `tests/wire/bins.txt` under bins.
//!
//! A line of a text is `NUMBER HEX # why`: the number that 01 and 02 give for the
//! datagram's layout, worked out by hand, and the datagram's bytes, in groups
//! of hexadecimal digits or as `xx*N`, the byte `xx` repeated N times. Empty
//! lines and lines that begin with `#` say nothing.

use std::io;

#[cfg(test)]
mod tests;

/// A datagram made by hand.
#[derive(Debug, PartialEq, Eq)]
pub struct HandMade {
    /// Its line in the text, from 1.
    pub line: usize,
    /// The number of its layout.
    pub number: u8,
    /// Its bytes.
    pub datagram: Vec<u8>,
}

/// The datagrams of a text; the error names the line that cannot be read.
pub fn parse(text: &str) -> io::Result<Vec<HandMade>> {
    let mut all = Vec::new();
    for (line, content) in (1..).zip(text.lines()) {
        if content.is_empty() || content.starts_with('#') {
            continue;
        }
        let (number, datagram) =
            parse_line(content).ok_or_else(|| fault(line, "not `NUMBER HEX # why`"))?;
        all.push(HandMade {
            line,
            number,
            datagram,
        });
    }
    Ok(all)
}

fn parse_line(content: &str) -> Option<(u8, Vec<u8>)> {
    let (number, rest) = content.split_once(' ')?;
    let digits = rest.split('#').next()?;
    let mut datagram = Vec::new();
    for group in digits.split_ascii_whitespace() {
        match group.split_once('*') {
            Some((byte, times)) => {
                let [byte] = bytes(byte)?[..] else {
                    return None;
                };
                let times: u16 = times.parse().ok()?;
                datagram.extend(std::iter::repeat_n(byte, usize::from(times)));
            }
            None => datagram.extend(bytes(group)?),
        }
    }
    Some((number.parse().ok()?, datagram))
}

/// The bytes of a group of lower-case hexadecimal digits.
fn bytes(digits: &str) -> Option<Vec<u8>> {
    let half = |digit: u8| match digit {
        b'0'..=b'9' => Some(digit - b'0'),
        b'a'..=b'f' => Some(digit - b'a' + 10),
        _ => None,
    };
    let (pairs, rest) = digits.as_bytes().as_chunks::<2>();
    if !rest.is_empty() {
        return None;
    }
    pairs
        .iter()
        .map(|&[high, low]| Some(half(high)? << 4 | half(low)?))
        .collect()
}

fn fault(line: usize, what: &str) -> io::Error {
    io::Error::other(format!("line {line}: {what}"))
}
