//! The characters of lines, good and bad.

use super::kinds::Kind;
use super::maker::{Case, Maker};
use super::pack::Pack;
use crate::hex;
use crate::replay::{MOST_DIGITS, MOST_LENGTH};

/// Characters next to the digits in ASCII, and others that are none.
const NO_DIGITS: &[u8] = b"/:@G`g\0\t\r ,xX-+._\x01\x7f\x80\xb0\xe1\xff";

impl Pack {
    /// Line one for the order.
    pub fn order_line(&self) -> String {
        order(&self.root, self.length())
    }
}

/// Line one for a root and a length.
fn order(root: &[u8], length: u32) -> String {
    format!("{}{length:08x}", hex::encode(root))
}

impl Maker {
    /// A line of a kind, or of the nearest one; none if it cannot be made now.
    pub fn line(&mut self, kind: Kind) -> Option<(Kind, Vec<u8>)> {
        let line = match kind {
            Kind::EmptyLine => vec![],
            Kind::BadCharacter => {
                let line = self.good_line();
                self.with_no_digit(line)
            }
            Kind::OddLength => {
                let mut line = self.good_line();
                if self.random.one_in(2) {
                    line.pop();
                } else {
                    line.insert(self.random.below(line.len()), b'0');
                }
                line
            }
            Kind::FewDigits => self.digits(1, 15),
            Kind::ManyDigits => self.digits(MOST_DIGITS + 1, MOST_DIGITS + 12),
            Kind::LongLine => self.long_line(),
            Kind::Both(15, 1) => self.short_and_bad(),
            _ => {
                let (kind, datagram) = self.datagram(kind)?;
                return Some((kind, self.frame(&datagram)));
            }
        };
        Some((kind, line))
    }

    /// A clock and a datagram.
    fn frame(&mut self, datagram: &[u8]) -> Vec<u8> {
        let clock = self.random.time();
        let mut line = Vec::with_capacity(16 + 2 * datagram.len());
        hex::append(&mut line, &clock.to_be_bytes());
        hex::append(&mut line, datagram);
        self.set_case(&mut line);
        line
    }

    /// Gives digits the case of the trace.
    pub fn set_case(&mut self, line: &mut [u8]) {
        match self.case {
            Case::Lower => {}
            Case::Upper => line.make_ascii_uppercase(),
            Case::Mixed => {
                for digit in line.iter_mut().filter(|digit| **digit > b'9') {
                    if self.random.one_in(2) {
                        digit.make_ascii_uppercase();
                    }
                }
            }
        }
    }

    /// A line that would be a frame.
    fn good_line(&mut self) -> Vec<u8> {
        let kind = self
            .random
            .one_of(&[Kind::Keepalive, Kind::Plain, Kind::Opening]);
        match self.datagram(kind) {
            Some((_, datagram)) => self.frame(&datagram),
            None => self.frame(&[0; 4]),
        }
    }

    /// Another character in place of a digit, or anywhere among them.
    fn with_no_digit(&mut self, mut line: Vec<u8>) -> Vec<u8> {
        let character = match self.random.below(3) {
            0 => self.random.one_of(b"\0\r "),
            _ => self.random.one_of(NO_DIGITS),
        };
        let place = self.random.below(line.len() + 1);
        match self.random.below(6) {
            0 => line.push(character),
            1 => line.insert(0, character),
            2 => line.insert(place, character),
            3 => line.splice(0..0, *b"0x").for_each(drop),
            _ => line[place.saturating_sub(1)] = character,
        }
        line
    }

    /// From `least` to `most` digits.
    fn digits(&mut self, least: usize, most: usize) -> Vec<u8> {
        let count = least + self.random.below(most - least + 1);
        let digit = |_| self.random.one_of(b"0123456789abcdefABCDEF");
        (0..count).map(digit).collect()
    }

    /// Thousands of characters of any kind but line feeds.
    fn long_line(&mut self) -> Vec<u8> {
        let length = match self.random.below(8) {
            0 => 60_000 + self.random.below(80_000),
            _ => 4_200 + self.random.below(8_000),
        };
        let character = match self.random.below(4) {
            0 => 0,
            1 => 0xff,
            _ => b'0',
        };
        vec![character; length]
    }

    /// A datagram under 4 bytes, in a line that is at fault besides.
    fn short_and_bad(&mut self) -> Vec<u8> {
        let length = self.random.below(4);
        let datagram = self.random.bytes(length);
        let mut line = self.frame(&datagram);
        if self.random.one_in(2) {
            line.push(b'0');
            line
        } else {
            self.with_no_digit(line)
        }
    }

    /// A first line that is no order.
    pub fn bad_order(&mut self) -> Vec<u8> {
        let mut line = self.pack.order_line().into_bytes();
        let root = self.pack.root;
        match self.random.below(10) {
            0 => vec![],
            1 => order(&root, 0).into(),
            2 => order(&root, MOST_LENGTH + 1).into(),
            3 => {
                let over = self.random.next() as u32 | (MOST_LENGTH + 1);
                order(&root, over).into()
            }
            4 => self.digits(1, 71),
            5 => self.digits(73, 140),
            6 => [&line[..], b"\r"].concat(),
            7 => self.long_line(),
            8 => {
                line.pop();
                line
            }
            _ => self.with_no_digit(line),
        }
    }
}
