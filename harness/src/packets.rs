//! Datagrams by their bytes, also such as no writer makes, under either method
//! of addressing.

use second::sha256::Digest;
use second::tree;
use second::wire::{self, Addressing, Step};

/// The options that are End alone.
pub const END_ONLY: [u8; 1] = [255];

/// The bins that are empty and everything.
pub const EMPTY: u32 = u32::MAX;
pub const EVERYTHING: u32 = 0x7fff_ffff;

/// Both methods.
pub const METHODS: [Addressing; 2] = [Addressing::Bins, Addressing::Ranges];

/// The type of messages that have a range and a hash.
pub const INTEGRITY: u8 = 4;

/// Those of messages that have a range and a chunk, or a delay.
pub const DATA: u8 = 1;
pub const ACK: u8 = 2;

/// The types of messages that have a range alone.
pub const HAVE: u8 = 3;
pub const REQUEST: u8 = 8;
pub const CANCEL: u8 = 9;

/// The messages that are their type alone.
pub const CHOKE: u8 = 10;
pub const UNCHOKE: u8 = 11;

/// The messages behind a destination.
pub fn datagram(destination: u32, messages: &[Vec<u8>]) -> Vec<u8> {
    [&destination.to_be_bytes()[..], &messages.concat()].concat()
}

/// The same datagram to another channel. One without four bytes stays.
pub fn sent_to(destination: u32, mut datagram: Vec<u8>) -> Vec<u8> {
    if let Some(bytes) = datagram.first_chunk_mut() {
        *bytes = destination.to_be_bytes();
    }
    datagram
}

/// The other method.
pub fn other(addressing: Addressing) -> Addressing {
    match addressing {
        Addressing::Bins => Addressing::Ranges,
        Addressing::Ranges => Addressing::Bins,
    }
}

/// The messages of a datagram of sound layout, each in its bytes.
pub fn messages(addressing: Addressing, datagram: &[u8]) -> Vec<Vec<u8>> {
    let mut messages = Vec::new();
    let mut at = wire::MIN_SIZE;
    while let Step::Read { next, .. } = wire::step(addressing, datagram, at) {
        messages.push(datagram[at..next].to_vec());
        at = next;
    }
    messages
}

/// Whether a message is INTEGRITY.
pub fn is_integrity(message: &[u8]) -> bool {
    message[0] == INTEGRITY
}

/// The node of a sound INTEGRITY: its bin, or the sum of its range's ends.
pub fn node_of(addressing: Addressing, integrity: &[u8]) -> u64 {
    let number = |at| {
        u64::from(u32::from_be_bytes(std::array::from_fn(|i| {
            integrity[at + i]
        })))
    };
    match addressing {
        Addressing::Bins => number(1),
        Addressing::Ranges => number(1) + number(5),
    }
}

pub fn handshake(source: u32, options: &[u8]) -> Vec<u8> {
    [&[0], &source.to_be_bytes()[..], options].concat()
}

/// The fixed options around a root.
pub fn fixed(addressing: Addressing, root: &Digest) -> Vec<u8> {
    let method = match addressing {
        Addressing::Bins => 0,
        Addressing::Ranges => 2,
    };
    let before = [0, 1, 1, 1, 2, 0, 32];
    let behind = [3, 1, 4, 2, 6, method, 9, 0, 0, 4, 0, 255];
    [&before, &root[..], &behind].concat()
}

/// A message that is its type and the name of chunks. Under bins that is the sum
/// of both ends: the bin over them if they are a node's, else some other one.
pub fn ranged(addressing: Addressing, kind: u8, first: u32, last: u32) -> Vec<u8> {
    match addressing {
        Addressing::Bins => with_bin(kind, first.wrapping_add(last)),
        Addressing::Ranges => [&[kind], &first.to_be_bytes()[..], &last.to_be_bytes()].concat(),
    }
}

/// A message that is its type and a bin.
pub fn with_bin(kind: u8, bin: u32) -> Vec<u8> {
    [&[kind], &bin.to_be_bytes()[..]].concat()
}

pub fn ack(addressing: Addressing, first: u32, last: u32, delay: u64) -> Vec<u8> {
    let front = ranged(addressing, ACK, first, last);
    [&front[..], &delay.to_be_bytes()].concat()
}

/// INTEGRITY of a node whose chunks have numbers of 32 bits.
pub fn integrity(addressing: Addressing, node: u64, hash: &Digest) -> Vec<u8> {
    let [first, last] = [tree::first_chunk(node), tree::last_chunk(node)].map(|chunk| chunk as u32);
    let front = ranged(addressing, INTEGRITY, first, last);
    [&front[..], hash].concat()
}

/// DATA with such a range, at a time.
pub fn data(addressing: Addressing, first: u32, last: u32, time: u64, chunk: &[u8]) -> Vec<u8> {
    let front = ranged(addressing, DATA, first, last);
    [&front[..], &time.to_be_bytes(), chunk].concat()
}
