//! The same under a method that is told, over the chunks of a node: they have a
//! range, and below node 2^32 a bin.

use super::{bins, options, ranged};
use crate::sha256::Digest;
use crate::tree;
use crate::wire::Addressing;

/// 01's fixed options around a root.
pub fn fixed(addressing: Addressing, root: &Digest) -> Vec<u8> {
    options(addressing, root)
}

/// A type byte and the name of a node.
fn named(addressing: Addressing, kind: u8, node: u64) -> Vec<u8> {
    match addressing {
        Addressing::Bins => bins::with_bin(kind, node as u32),
        Addressing::Ranges => {
            let [first, last] = [tree::first_chunk(node), tree::last_chunk(node)];
            ranged(kind, first as u32, last as u32)
        }
    }
}

pub fn data(addressing: Addressing, node: u64, time: u64, chunk: &[u8]) -> Vec<u8> {
    let front = named(addressing, 1, node);
    [&front[..], &time.to_be_bytes(), chunk].concat()
}

pub fn ack(addressing: Addressing, node: u64, delay: u64) -> Vec<u8> {
    let front = named(addressing, 2, node);
    [&front[..], &delay.to_be_bytes()].concat()
}

pub fn have(addressing: Addressing, node: u64) -> Vec<u8> {
    named(addressing, 3, node)
}

/// An INTEGRITY.
pub fn integrity(addressing: Addressing, node: u64, hash: &Digest) -> Vec<u8> {
    let front = named(addressing, 4, node);
    [&front[..], hash].concat()
}

pub fn request(addressing: Addressing, node: u64) -> Vec<u8> {
    named(addressing, 8, node)
}

pub fn cancel(addressing: Addressing, node: u64) -> Vec<u8> {
    named(addressing, 9, node)
}
