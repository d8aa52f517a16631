//! Names that are ranges: the first and the last chunk, both included.

use super::{Addressing, Chunks, Names};
use crate::tree;
use crate::wire::kind;

/// Names of eight bytes, for `Addressing::Ranges`.
pub(crate) struct ByRanges;

impl Names for ByRanges {
    const ADDRESSING: Addressing = Addressing::Ranges;
    const SIZE: usize = 8;

    #[inline(always)]
    fn chunks(bytes: &[u8]) -> Option<Chunks> {
        let (first, last) = range(bytes)?;
        Some(Chunks::Range(first, last))
    }

    #[inline(always)]
    fn acked(bytes: &[u8]) -> Option<(u32, u32)> {
        range(bytes)
    }

    #[inline(always)]
    fn node(bytes: &[u8]) -> Option<(u64, u32)> {
        let (first, last) = range(bytes)?;
        Some((tree::node_of_range(first, last)?, last))
    }

    #[inline(always)]
    fn chunk(bytes: &[u8]) -> Option<u32> {
        let (first, last) = range(bytes)?;
        (first == last).then_some(first)
    }

    #[inline(always)]
    fn can_name(kind: u8, first: u32, last: u32) -> bool {
        match kind {
            kind::INTEGRITY => tree::node_of_range(first, last).is_some(),
            kind::DATA => first == last,
            _ => first <= last,
        }
    }

    #[inline(always)]
    fn can_be_empty(_: u8) -> bool {
        false
    }

    #[inline(always)]
    fn put(bytes: &mut [u8], first: u32, last: u32) {
        bytes[..4].copy_from_slice(&first.to_be_bytes());
        bytes[4..8].copy_from_slice(&last.to_be_bytes());
    }

    #[inline(always)]
    fn name_of(node: u64) -> u64 {
        tree::first_chunk(node) << 32 | tree::last_chunk(node)
    }

    #[inline(always)]
    fn name_before(datagram: &[u8], place: usize) -> Option<u64> {
        let name = datagram.get(..place)?.last_chunk()?;
        Some(u64::from_be_bytes(*name))
    }

    #[inline(always)]
    fn must_be_inside(_: u32, last: u32) -> u32 {
        last
    }

    #[inline(always)]
    fn last_inside(last: u32, _: u32) -> u32 {
        last
    }
}

/// The range at the front: its first chunk is not above its last.
#[inline(always)]
fn range(bytes: &[u8]) -> Option<(u32, u32)> {
    let both = u64::from_be_bytes(*bytes.first_chunk()?);
    let (first, last) = ((both >> 32) as u32, both as u32);
    (first <= last).then_some((first, last))
}
