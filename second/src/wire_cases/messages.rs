//! Messages to be added, with the source slices of their bytes.

mod refused;
#[cfg(test)]
mod tests;

use super::Cases;
use crate::tree;
use crate::wire::{Addressing, Message, Options, HASH_SIZE};

/// A message and the slice of its bytes.
type WithSource = (Message, Vec<u8>);

/// The first `count` messages of a seed, each with the slice of its bytes.
///
/// Of 16, on average, 12 can be added to a datagram that has room for them and
/// no HANDSHAKE, DATA or node against them: 1 of these is a HANDSHAKE and 1 is
/// DATA; under bins, 1 in 8 of HAVE, REQUEST and CANCEL is empty or everything.
/// The others are 1 with its range reversed, 1 INTEGRITY over no node (under bins,
/// any message over no node) or DATA over several chunks, 1 with a place outside
/// its source (just or far outside), and 1 that is one of: HANDSHAKE with other
/// options or an empty message of any type, HANDSHAKE from source 0 with the fixed
/// ones, DATA of about as many bytes as a datagram has room for, or of more. The
/// DATA of the last two has any range in 1 of 4 cases.
///
/// Under bins there are 17: 1 more is over the chunks of a node that the message
/// cannot have as its bin.
pub fn messages(addressing: Addressing, seed: u64, count: usize) -> Vec<WithSource> {
    let mut cases = Cases::new(addressing, seed);
    std::iter::repeat_with(|| cases.message())
        .take(count)
        .collect()
}

impl Cases {
    fn message(&mut self) -> WithSource {
        let kinds = match self.addressing {
            Addressing::Bins => 17,
            Addressing::Ranges => 16,
        };
        match self.random.below(kinds) {
            0..12 => self.sound_message(),
            12 => self.reversed(),
            13 => match self.random.below(2) {
                0 => self.no_node(),
                _ => self.several_chunks(),
            },
            14 => self.outside(),
            15 => self.at_the_border(),
            _ => self.no_bin(),
        }
    }

    fn sound_message(&mut self) -> WithSource {
        let (first, last) = match self.addressing {
            Addressing::Bins => covered(self.random.some_bin()),
            Addressing::Ranges => self.random.range(),
        };
        let plain = match self.random.below(12) {
            0 => return self.message_handshake(),
            1 => {
                let (chunk, size) = (self.random.number(), self.random.chunk_size());
                let chunk = match self.addressing {
                    Addressing::Bins => chunk % (1 << 31),
                    Addressing::Ranges => chunk,
                };
                return self.message_data((chunk, chunk), size);
            }
            2..5 => return self.message_integrity(),
            5 => Message::Ack {
                first,
                last,
                delay: self.random.time(),
            },
            6 | 7 => self.perhaps_special(3, first, last),
            8 => self.perhaps_special(8, first, last),
            9 => self.perhaps_special(9, first, last),
            10 => Message::Choke,
            _ => Message::Unchoke,
        };
        let size = self.random.below(4);
        (plain, self.random.bytes(size))
    }

    /// A HAVE, REQUEST or CANCEL over these chunks; under bins, in 1 of 16 cases
    /// each, the empty one or over everything.
    fn perhaps_special(&mut self, kind: u8, mut first: u32, mut last: u32) -> Message {
        let bins = self.addressing == Addressing::Bins;
        if bins && self.random.one_in(16) {
            return Message::Empty { kind };
        }
        if bins && self.random.one_in(16) {
            (first, last) = (0, 0x7fff_ffff);
        }
        match kind {
            3 => Message::Have { first, last },
            8 => Message::Request { first, last },
            _ => Message::Cancel { first, last },
        }
    }

    /// A HANDSHAKE that can open, answer or close.
    fn message_handshake(&mut self) -> WithSource {
        let source = 1 + self.random.number() % u32::MAX;
        let (root, slice) = self.place(HASH_SIZE);
        let (source, options) = match self.random.below(4) {
            0 => (0, Options::EndOnly),
            1 => (source, Options::EndOnly),
            _ => (source, Options::Fixed { root }),
        };
        (Message::Handshake { source, options }, slice)
    }

    fn message_data(&mut self, range: (u32, u32), len: usize) -> WithSource {
        let (start, slice) = self.place(len);
        let data = Message::Data {
            first: range.0,
            last: range.1,
            time: self.random.time(),
            start,
            len,
        };
        (data, slice)
    }

    fn message_integrity(&mut self) -> WithSource {
        let (first, last) = match self.addressing {
            Addressing::Bins => covered(self.random.some_bin()),
            Addressing::Ranges => self.random.node(),
        };
        let (hash, slice) = self.place(HASH_SIZE);
        (Message::Integrity { first, last, hash }, slice)
    }

    /// A place for `len` bytes and a slice that has them: in half of the cases
    /// nothing is before them, in half nothing behind.
    fn place(&mut self, len: usize) -> (usize, Vec<u8>) {
        let before = self.random.below(2) * self.random.below(50);
        let behind = self.random.below(2) * self.random.below(50);
        (before, self.random.bytes(before + len + behind))
    }
}

/// The first and the last chunk of a bin that is not empty.
fn covered(bin: u32) -> (u32, u32) {
    let node = u64::from(bin);
    (
        tree::first_chunk(node) as u32,
        tree::last_chunk(node) as u32,
    )
}
