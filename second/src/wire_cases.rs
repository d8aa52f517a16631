//! Datagrams and messages for comparing readers and writers, under either
//! addressing method: always the same ones for a method and a seed.
//!
//! Of 20 datagrams, on average,
//!
//! - 9 are sound, and go out as they are made;
//! - 2 have one byte changed, mostly in the head of a message;
//! - 2 have the messages of another behind their own;
//! - 1 has a message swapped with its neighbour, in itself or in two glued so;
//! - 1 is cut short anywhere;
//! - 1 has random bytes behind it;
//! - 1 is random bytes, in half of the cases but for its first type;
//! - 1 has a size around the limit, 2,030 to 2,060 bytes;
//! - 1 has a node twice;
//! - 1 is a HANDSHAKE whose channel numbers or options are at fault.
//!
//! Under bins there are 22: 2 more have a message with a bin that it cannot have,
//! an odd one in DATA, or the empty one or everything in ACK, INTEGRITY or DATA.
//!
//! A third or more have a sound layout, and each of the numbers 1, 2 and 3 is
//! given to 1 in 100 or more. A sound one is a HANDSHAKE of any kind in 1 of 5
//! cases; else it has from 0 to 12 messages, in 1 of 8 cases as many as there is
//! room for, and in half of the cases DATA behind them. Ranges and bins are of any
//! height, inside a pack and past it.

mod handshakes;
mod messages;
mod parts;
#[cfg(test)]
mod tests;

pub use messages::messages;

use crate::random::Random;
use crate::wire::{Addressing, HASH_SIZE, MAX_SIZE, MIN_SIZE};

/// The most bytes of a datagram made here.
pub const LONGEST: usize = MAX_SIZE + 12;

/// The first `count` datagrams of a seed.
pub fn datagrams(addressing: Addressing, seed: u64, count: usize) -> impl Iterator<Item = Vec<u8>> {
    let mut cases = Cases::new(addressing, seed);
    std::iter::repeat_with(move || cases.datagram()).take(count)
}

/// Every prefix of a datagram, from the empty one to itself.
pub fn cuts(datagram: &[u8]) -> impl Iterator<Item = &[u8]> {
    (0..=datagram.len()).map(|len| &datagram[..len])
}

/// What they are made of.
struct Cases {
    addressing: Addressing,
    random: Random,
}

impl Cases {
    fn new(addressing: Addressing, seed: u64) -> Self {
        Cases {
            addressing,
            random: Random::new(seed),
        }
    }

    fn datagram(&mut self) -> Vec<u8> {
        let kinds = match self.addressing {
            Addressing::Bins => 22,
            Addressing::Ranges => 20,
        };
        let mut datagram = match self.random.below(kinds) {
            0..9 => self.sound().concat(),
            9 | 10 => self.byte_changed(),
            11 | 12 => self.glued().concat(),
            13 => self.swapped(),
            14 => self.cut_short(),
            15 => self.with_bytes_behind(),
            16 => self.garbage(),
            17 => self.around_the_limit(),
            18 => self.node_twice(),
            19 => self.handshake_at_fault(),
            _ => self.with_bin_at_fault(),
        };
        datagram.truncate(LONGEST);
        datagram
    }

    /// A sound datagram in its parts: the destination, then each message.
    fn sound(&mut self) -> Vec<Vec<u8>> {
        if self.random.below(5) == 0 {
            self.sound_handshake()
        } else {
            self.sound_messages()
        }
    }

    /// The bytes of DATA without its chunk.
    fn around_chunk(&self) -> usize {
        match self.addressing {
            Addressing::Bins => 13,
            Addressing::Ranges => 17,
        }
    }

    /// Messages that fit, each node once, and perhaps DATA.
    fn sound_messages(&mut self) -> Vec<Vec<u8>> {
        let most = match self.random.below(8) {
            0 => MAX_SIZE,
            _ => self.random.below(13),
        };
        let with_data = self.random.below(2) == 0;
        let data_room = if with_data { self.around_chunk() } else { 0 };
        let mut free = MAX_SIZE - MIN_SIZE - data_room;
        let mut nodes = Vec::new();
        let mut datagram = vec![self.random.number().to_be_bytes().to_vec()];
        for _ in 0..most {
            let message = self.plain_message(&mut nodes);
            if message.len() > free {
                break;
            }
            free -= message.len();
            datagram.push(message);
        }
        if with_data {
            let len = self.random.chunk_size().min(free);
            datagram.push(self.data(len));
        }
        datagram
    }

    /// One byte is another: of the destination or of a message, mostly near its
    /// front.
    fn byte_changed(&mut self) -> Vec<u8> {
        let mut datagram = self.sound();
        let part = self.random.below(datagram.len());
        let part = &mut datagram[part];
        let reach = match self.random.below(8) {
            0 => part.len(),
            _ => part.len().min(18),
        };
        let byte = &mut part[self.random.below(reach)];
        *byte = match self.random.below(4) {
            0 => byte.wrapping_add(1),
            1 => byte.wrapping_sub(1),
            2 => *byte ^ 1 << self.random.below(8),
            _ => byte.wrapping_add(1 + self.random.below(255) as u8),
        };
        datagram.concat()
    }

    /// The messages of another one behind its own.
    fn glued(&mut self) -> Vec<Vec<u8>> {
        let mut datagram = self.sound();
        datagram.extend(self.sound().into_iter().skip(1));
        datagram
    }

    /// A message swapped with its neighbour, in a sound datagram or in two glued
    /// together: DATA may then swallow others, and a HANDSHAKE changes its place.
    fn swapped(&mut self) -> Vec<u8> {
        let mut datagram = Vec::new();
        while datagram.len() < 3 {
            datagram = match self.random.below(2) {
                0 => self.sound_messages(),
                _ => self.glued(),
            };
        }
        let at = 1 + self.random.below(datagram.len() - 2);
        datagram.swap(at, at + 1);
        datagram.concat()
    }

    fn cut_short(&mut self) -> Vec<u8> {
        let mut whole = self.sound().concat();
        whole.truncate(self.random.below(whole.len() + 1));
        whole
    }

    fn with_bytes_behind(&mut self) -> Vec<u8> {
        let mut whole = self.sound().concat();
        let behind = 1 + self.random.below(20);
        whole.extend(self.random.bytes(behind));
        whole
    }

    /// Random bytes; in half of the cases the first type is one of the table's.
    fn garbage(&mut self) -> Vec<u8> {
        let len = match self.random.below(4) {
            0 => self.random.below(LONGEST + 1),
            1 => self.random.below(8),
            _ => self.random.below(80),
        };
        let mut datagram = self.random.bytes(len);
        if let Some(kind) = datagram.get_mut(MIN_SIZE) {
            if self.random.below(2) == 0 {
                *kind = self.random.below(12) as u8;
            }
        }
        datagram
    }

    /// Sound but for its size, which is 2,030 to 2,060 bytes.
    fn around_the_limit(&mut self) -> Vec<u8> {
        let len = LONGEST - self.random.below(31);
        let mut datagram = self.sound_messages().concat();
        datagram.truncate(MIN_SIZE);
        match self.random.below(3) {
            0 => datagram.extend(self.data(len - MIN_SIZE - self.around_chunk())),
            1 => datagram.resize(len, 10 + self.random.below(2) as u8),
            _ => {
                let id = (len - MIN_SIZE - 9) as u16;
                let mut options = vec![2];
                options.extend(id.to_be_bytes());
                options.extend(self.random.bytes(usize::from(id)));
                options.push(255);
                datagram.extend(handshakes::handshake(1, &options));
            }
        }
        datagram
    }

    /// One node twice, with other messages around.
    fn node_twice(&mut self) -> Vec<u8> {
        let mut datagram = self.with_room();
        let first = self.integrity(&mut Vec::new());
        let mut second = first.clone();
        let front = first.len() - HASH_SIZE;
        second[front..].fill(self.random.number() as u8);
        self.insert(&mut datagram, first);
        self.insert(&mut datagram, second);
        datagram.concat()
    }

    /// A message with a bin that it cannot have, with other messages around.
    fn with_bin_at_fault(&mut self) -> Vec<u8> {
        let mut datagram = self.with_room();
        let at_fault = self.bin_at_fault();
        self.insert(&mut datagram, at_fault);
        datagram.concat()
    }

    /// Sound messages that leave room for two INTEGRITY.
    fn with_room(&mut self) -> Vec<Vec<u8>> {
        let mut datagram = self.sound_messages();
        while datagram.concat().len() > MAX_SIZE - 82 {
            datagram = self.sound_messages();
        }
        datagram
    }

    /// Puts a message at any place behind the destination.
    fn insert(&mut self, datagram: &mut Vec<Vec<u8>>, message: Vec<u8>) {
        let at = 1 + self.random.below(datagram.len());
        datagram.insert(at, message);
    }
}
