//! Messages to be added that are refused, most of them on any datagram.

use super::{Cases, WithSource};
use crate::wire::{Addressing, Message, Options, HASH_SIZE};

impl Cases {
    pub(super) fn reversed(&mut self) -> WithSource {
        let (low, high) = self.random.range();
        let (first, last) = match high {
            u32::MAX => (high, low.min(high - 1)),
            _ => (high + 1, low),
        };
        let (hash, slice) = self.place(HASH_SIZE);
        let delay = self.random.time();
        let message = match self.random.below(6) {
            0 => Message::Ack { first, last, delay },
            1 => Message::Have { first, last },
            2 => Message::Integrity { first, last, hash },
            3 => Message::Request { first, last },
            4 => Message::Cancel { first, last },
            _ => return self.message_data((first, last), HASH_SIZE),
        };
        (message, slice)
    }

    /// DATA over two chunks or more.
    pub(super) fn several_chunks(&mut self) -> WithSource {
        let (low, high) = self.random.range();
        let (first, last) = match low {
            u32::MAX => (low - 1, high),
            _ => (low, high.max(low + 1)),
        };
        let size = self.random.chunk_size();
        self.message_data((first, last), size)
    }

    /// One chunk, or in 1 of 4 cases any two numbers.
    fn mostly_one(&mut self) -> (u32, u32) {
        let (first, other) = (self.random.number(), self.random.number());
        match self.random.below(4) {
            0 => (first, other),
            _ => (first, first),
        }
    }

    /// The chunks from one that is no multiple of their number, or with one more or
    /// one fewer at an end of a node of four or more. Under ranges, that is refused
    /// in an INTEGRITY alone.
    pub(super) fn no_node(&mut self) -> WithSource {
        let (first, last) = loop {
            let (first, last) = self.random.node();
            let half = u64::from(last - first).div_ceil(2) as u32;
            let range = match self.random.below(4) {
                0 => (first.checked_add(half), last.checked_add(half)),
                1 => (Some(first + 1), Some(last)),
                2 => (Some(first), last.checked_add(1)),
                _ => (Some(first), last.checked_sub(1)),
            };
            if let (2.., (Some(first), Some(last))) = (half, range) {
                break (first, last);
            }
        };
        let kind = match self.addressing {
            Addressing::Bins => self.random.one_of(&[2, 3, 4, 8, 9]),
            Addressing::Ranges => 4,
        };
        self.over(kind, first, last)
    }

    /// Under bins, the chunks of a node that is past all bins or, but for HAVE,
    /// REQUEST and CANCEL, is everything.
    pub(super) fn no_bin(&mut self) -> WithSource {
        let kind = self.random.one_of(&[1, 2, 3, 4, 8, 9]);
        let (first, last) = match self.random.below(4) {
            0 => (0, u32::MAX),
            1 if matches!(kind, 1 | 2 | 4) => (0, 0x7fff_ffff),
            _ => {
                let (first, last) = self.random.node();
                (first | 1 << 31, last | 1 << 31)
            }
        };
        self.over(kind, first, last)
    }

    /// A message of a type over chunks.
    fn over(&mut self, kind: u8, first: u32, last: u32) -> WithSource {
        let (hash, slice) = self.place(HASH_SIZE);
        let message = match kind {
            1 => return self.message_data((first, last), HASH_SIZE),
            2 => Message::Ack {
                first,
                last,
                delay: self.random.time(),
            },
            3 => Message::Have { first, last },
            4 => Message::Integrity { first, last, hash },
            8 => Message::Request { first, last },
            _ => Message::Cancel { first, last },
        };
        (message, slice)
    }

    /// A message whose bytes do not lie wholly in its slice: they end just behind
    /// it, begin just behind it, or are far away.
    pub(super) fn outside(&mut self) -> WithSource {
        let (mut message, mut slice) = match self.random.below(3) {
            0 => {
                let range = self.mostly_one();
                self.message_data(range, 1)
            }
            1 => self.message_integrity(),
            _ => {
                let (source, (root, slice)) = (self.random.number(), self.place(HASH_SIZE));
                let options = Options::Fixed { root };
                (Message::Handshake { source, options }, slice)
            }
        };
        let end = slice.len();
        let far = [end, end + 1, usize::MAX - 31, usize::MAX - 1, usize::MAX][self.random.below(5)];
        let cut = self.random.below(2) == 0;
        match &mut message {
            Message::Data { start, len, .. } => match self.random.below(4) {
                0 => *len = end - *start + 1,
                1 => *len = usize::MAX - self.random.below(40),
                2 => *start = far,
                _ => (*start, *len) = (far.max(end + 1), self.random.below(2)),
            },
            Message::Integrity { hash: place, .. }
            | Message::Handshake {
                options: Options::Fixed { root: place },
                ..
            } => {
                if cut {
                    slice.truncate(*place + self.random.below(HASH_SIZE));
                } else {
                    *place = far;
                }
            }
            _ => unreachable!("made above"),
        }
        (message, slice)
    }

    /// Other options or, for 1 in 4 sources, an empty message; a closing HANDSHAKE
    /// with the fixed options; or DATA that just fits or does not.
    pub(super) fn at_the_border(&mut self) -> WithSource {
        match self.random.below(4) {
            0 => {
                let source = self.random.number();
                let options = Options::Other;
                let message = match source % 4 {
                    0 => Message::Empty {
                        kind: [3, 8, 9, 2][(source / 4 % 4) as usize],
                    },
                    _ => Message::Handshake { source, options },
                };
                (message, self.random.bytes(40))
            }
            1 => {
                let (root, slice) = self.place(HASH_SIZE);
                let options = Options::Fixed { root };
                (Message::Handshake { source: 0, options }, slice)
            }
            2 => {
                let (range, size) = (self.mostly_one(), 2020 + self.random.below(16));
                self.message_data(range, size)
            }
            _ => {
                let (range, size) = (self.mostly_one(), 1800 + self.random.below(1000));
                self.message_data(range, size)
            }
        }
    }
}
