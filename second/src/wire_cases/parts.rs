//! The parts of datagrams, made of random numbers. The bytes are put together
//! here and not by `wire`, which they are to try.

use super::Cases;
use crate::random::Random;
use crate::wire::Addressing;

impl Random {
    /// A chunk or channel number: small, at a border, or any.
    pub fn number(&mut self) -> u32 {
        const BORDERS: [u32; 8] = [
            0,
            1,
            511,
            512,
            0x7fff_ffff,
            0x8000_0000,
            0xffff_fffe,
            0xffff_ffff,
        ];
        match self.below(8) {
            0..3 => self.below(8) as u32,
            3 | 4 => self.below(512) as u32,
            5 => BORDERS[self.below(BORDERS.len())],
            _ => self.next() as u32,
        }
    }

    /// A range, first not above last: one chunk in 1 of 4 cases.
    pub fn range(&mut self) -> (u32, u32) {
        let (a, b) = (self.number(), self.number());
        match self.below(4) {
            0 => (a, a),
            _ => (a.min(b), a.max(b)),
        }
    }

    /// The range of a node: of any height from 0 to 32 in half of the cases,
    /// else one over chunks below 512.
    pub fn node(&mut self) -> (u32, u32) {
        let (chunk, height) = match self.below(2) {
            0 => (self.next() as u32, self.below(33)),
            _ => (self.below(512) as u32, self.below(10)),
        };
        let low = ((1u64 << height) - 1) as u32;
        (chunk & !low, chunk | low)
    }

    /// A bin: over few chunks or below 512 of them, of any height from 0 to 32,
    /// which has the empty bin and everything, at a border, or any.
    pub fn bin(&mut self) -> u32 {
        const BORDERS: [u32; 10] = [
            0,
            0x3fff_ffff,
            0x7fff_fffe,
            0x7fff_ffff,
            0x8000_0000,
            0xbfff_ffff,
            0xffff_fffc,
            0xffff_fffd,
            0xffff_fffe,
            0xffff_ffff,
        ];
        match self.below(8) {
            0 | 1 => self.below(16) as u32,
            2 | 3 => self.below(1024) as u32,
            4 | 5 => {
                let height = self.below(33);
                let ones = ((1u64 << height) - 1) as u32;
                let zero = (1u64 << height) as u32;
                (self.next() as u32 | ones) & !zero
            }
            6 => BORDERS[self.below(BORDERS.len())],
            _ => self.next() as u32,
        }
    }

    /// A bin that is neither empty nor everything.
    pub fn some_bin(&mut self) -> u32 {
        loop {
            let bin = self.bin();
            if bin != 0x7fff_ffff && bin != 0xffff_ffff {
                return bin;
            }
        }
    }

    /// A chunk's length: none, few, full or any up to the limit.
    pub fn chunk_size(&mut self) -> usize {
        match self.below(8) {
            0 => 0,
            1 => 1,
            2..5 => self.below(64),
            5 | 6 => 1024,
            _ => self.below(2048),
        }
    }
}

/// What stands between a type byte and the rest of a message.
pub type Name = Vec<u8>;

impl Cases {
    /// A message that is neither HANDSHAKE nor DATA. The nodes so far are in
    /// `nodes`: it is none of them, and gets there.
    pub fn plain_message(&mut self, nodes: &mut Vec<Name>) -> Vec<u8> {
        match self.random.below(8) {
            0 => {
                let mut ack = with_name(2, &self.acked());
                ack.extend(self.random.time().to_be_bytes());
                ack
            }
            1 => with_name(3, &self.chunks()),
            2 | 3 => self.integrity(nodes),
            4 => with_name(8, &self.chunks()),
            5 => with_name(9, &self.chunks()),
            6 => vec![10],
            _ => vec![11],
        }
    }

    /// An INTEGRITY of another node than those in `nodes`, where it gets.
    pub fn integrity(&mut self, nodes: &mut Vec<Name>) -> Vec<u8> {
        let mut node = self.node();
        while nodes.contains(&node) {
            node = self.node();
        }
        let mut integrity = with_name(4, &node);
        nodes.push(node);
        integrity.extend(self.random.bytes(32));
        integrity
    }

    pub fn data(&mut self, len: usize) -> Vec<u8> {
        let chunk = self.random.number();
        let name = match self.addressing {
            Addressing::Bins => bin(2 * (chunk % (1 << 31))),
            Addressing::Ranges => range((chunk, chunk)),
        };
        let mut data = with_name(1, &name);
        data.extend(self.random.time().to_be_bytes());
        data.extend(self.random.bytes(len));
        data
    }

    /// DATA of several chunks, or ACK, INTEGRITY or DATA of the empty bin or of
    /// everything.
    pub fn bin_at_fault(&mut self) -> Vec<u8> {
        let special = 0x7fff_ffff | (self.random.next() as u32) << 31;
        let (kind, at_fault, behind) = match self.random.below(5) {
            0 | 1 => (1, self.random.some_bin() | 1, 8 + self.random.below(40)),
            2 => (1, special, 8 + self.random.below(40)),
            3 => (2, special, 8),
            _ => (4, special, 32),
        };
        let mut message = with_name(kind, &bin(at_fault));
        message.extend(self.random.bytes(behind));
        message
    }

    /// Any chunks that a HAVE, REQUEST or CANCEL can name.
    fn chunks(&mut self) -> Name {
        match self.addressing {
            Addressing::Bins => bin(self.random.bin()),
            Addressing::Ranges => range(self.random.range()),
        }
    }

    /// The same for an ACK.
    fn acked(&mut self) -> Name {
        match self.addressing {
            Addressing::Bins => bin(self.random.some_bin()),
            Addressing::Ranges => range(self.random.range()),
        }
    }

    /// The same for an INTEGRITY.
    fn node(&mut self) -> Name {
        match self.addressing {
            Addressing::Bins => bin(self.random.some_bin()),
            Addressing::Ranges => range(self.random.node()),
        }
    }
}

fn range((first, last): (u32, u32)) -> Name {
    [first.to_be_bytes(), last.to_be_bytes()].concat()
}

fn bin(bin: u32) -> Name {
    bin.to_be_bytes().to_vec()
}

/// A type byte and a name.
fn with_name(kind: u8, name: &[u8]) -> Vec<u8> {
    let mut message = vec![kind];
    message.extend(name);
    message
}
