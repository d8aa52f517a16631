//! The bytes of datagrams, put together here and not by `wire`. Chunks are named
//! by ranges, but in the modules for bins and for either method.

pub mod bins;
pub mod either;

use crate::sha256::Digest;
use crate::tree;
use crate::wire::Addressing;

/// A datagram.
pub fn to(destination: u32, messages: &[&[u8]]) -> Vec<u8> {
    [&destination.to_be_bytes()[..], &messages.concat()].concat()
}

/// 01's fixed options around a root.
pub fn fixed(root: &Digest) -> Vec<u8> {
    options(Addressing::Ranges, root)
}

/// The fixed options under a method.
fn options(addressing: Addressing, root: &Digest) -> Vec<u8> {
    let method = match addressing {
        Addressing::Bins => 0x00,
        Addressing::Ranges => 0x02,
    };
    let before = [0x00, 0x01, 0x01, 0x01, 0x02, 0x00, 0x20];
    let behind = [
        0x03, 0x01, 0x04, 0x02, 0x06, method, 0x09, 0x00, 0x00, 0x04, 0x00, 0xff,
    ];
    [&before[..], root, &behind].concat()
}

/// A HANDSHAKE.
pub fn handshake(source: u32, options: &[u8]) -> Vec<u8> {
    [&[0], &source.to_be_bytes()[..], options].concat()
}

/// A closing HANDSHAKE.
pub fn closing() -> Vec<u8> {
    handshake(0, &[255])
}

/// A type byte and a range.
fn ranged(kind: u8, first: u32, last: u32) -> Vec<u8> {
    [&[kind], &first.to_be_bytes()[..], &last.to_be_bytes()].concat()
}

pub fn data(first: u32, last: u32, time: u64, chunk: &[u8]) -> Vec<u8> {
    [&ranged(1, first, last)[..], &time.to_be_bytes(), chunk].concat()
}

pub fn ack(first: u32, last: u32, delay: u64) -> Vec<u8> {
    [&ranged(2, first, last)[..], &delay.to_be_bytes()].concat()
}

pub fn have(first: u32, last: u32) -> Vec<u8> {
    ranged(3, first, last)
}

/// An INTEGRITY.
pub fn integrity(first: u32, last: u32, hash: &Digest) -> Vec<u8> {
    [&ranged(4, first, last)[..], hash].concat()
}

/// An INTEGRITY with a hash that is no node's.
pub fn wrong(node: u64) -> Vec<u8> {
    node_hash(node, &[0xa5; 32])
}

/// An INTEGRITY for a node.
pub fn node_hash(node: u64, hash: &Digest) -> Vec<u8> {
    let [first, last] = [tree::first_chunk(node), tree::last_chunk(node)];
    integrity(first as u32, last as u32, hash)
}

pub fn request(first: u32, last: u32) -> Vec<u8> {
    ranged(8, first, last)
}

pub fn cancel(first: u32, last: u32) -> Vec<u8> {
    ranged(9, first, last)
}

pub const CHOKE: [u8; 1] = [10];
pub const UNCHOKE: [u8; 1] = [11];

/// A type that is refused.
pub const REFUSED: [u8; 1] = [7];
