//! The same under bins: each message has one bin in place of its range.

use super::options;
use crate::sha256::Digest;
use crate::wire::Addressing;

/// The bin that is empty.
pub const EMPTY: u32 = 0xffff_ffff;
/// The bin that is everything.
pub const EVERYTHING: u32 = 0x7fff_ffff;

/// 01's fixed options around a root, with bins as the addressing method.
pub fn fixed(root: &Digest) -> Vec<u8> {
    options(Addressing::Bins, root)
}

/// A type byte and a bin.
pub(super) fn with_bin(kind: u8, bin: u32) -> Vec<u8> {
    [&[kind], &bin.to_be_bytes()[..]].concat()
}

pub fn data(bin: u32, time: u64, chunk: &[u8]) -> Vec<u8> {
    [&with_bin(1, bin)[..], &time.to_be_bytes(), chunk].concat()
}

pub fn ack(bin: u32, delay: u64) -> Vec<u8> {
    [&with_bin(2, bin)[..], &delay.to_be_bytes()].concat()
}

pub fn have(bin: u32) -> Vec<u8> {
    with_bin(3, bin)
}

/// An INTEGRITY.
pub fn integrity(bin: u32, hash: &Digest) -> Vec<u8> {
    [&with_bin(4, bin)[..], hash].concat()
}

pub fn request(bin: u32) -> Vec<u8> {
    with_bin(8, bin)
}

pub fn cancel(bin: u32) -> Vec<u8> {
    with_bin(9, bin)
}
