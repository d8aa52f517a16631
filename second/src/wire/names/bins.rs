//! Names that are bins: the number of the node over the chunks. One bin is empty,
//! and one is everything; these are not in every message.

use super::{Addressing, Chunks, Names};
use crate::tree;
use crate::wire::kind;

/// The bin that is empty.
const EMPTY: u32 = 0xffff_ffff;
/// The bin that is everything: chunks 0 to 2^31 - 1.
const EVERYTHING: u32 = 0x7fff_ffff;

/// Names of four bytes, for `Addressing::Bins`.
pub(crate) struct ByBins;

impl Names for ByBins {
    const ADDRESSING: Addressing = Addressing::Bins;
    const SIZE: usize = 4;

    #[inline(always)]
    fn chunks(bytes: &[u8]) -> Option<Chunks> {
        Some(match bin(bytes)? {
            EMPTY => Chunks::Empty,
            bin => Chunks::Range(first_chunk(bin), last_chunk(bin)),
        })
    }

    #[inline(always)]
    fn acked(bytes: &[u8]) -> Option<(u32, u32)> {
        let bin = bin(bytes)?;
        (!is_special(bin)).then(|| (first_chunk(bin), last_chunk(bin)))
    }

    #[inline(always)]
    fn node(bytes: &[u8]) -> Option<(u64, u32)> {
        let bin = bin(bytes)?;
        (!is_special(bin)).then(|| (bin.into(), last_chunk(bin)))
    }

    #[inline(always)]
    fn chunk(bytes: &[u8]) -> Option<u32> {
        let bin = bin(bytes)?;
        (bin % 2 == 0).then_some(bin / 2)
    }

    #[inline(always)]
    fn can_name(kind: u8, first: u32, last: u32) -> bool {
        let bin = tree::node_of_range(first, last);
        let bin = bin.filter(|&node| node < EMPTY.into());
        bin.is_some_and(|bin| match kind {
            kind::DATA => first == last,
            kind::ACK | kind::INTEGRITY => bin != EVERYTHING.into(),
            _ => true,
        })
    }

    #[inline(always)]
    fn can_be_empty(kind: u8) -> bool {
        matches!(kind, kind::HAVE | kind::REQUEST | kind::CANCEL)
    }

    #[inline(always)]
    fn put(bytes: &mut [u8], first: u32, last: u32) {
        bytes[..4].copy_from_slice(&(first + last).to_be_bytes());
    }

    #[inline(always)]
    fn name_of(node: u64) -> u64 {
        node
    }

    #[inline(always)]
    fn name_before(datagram: &[u8], place: usize) -> Option<u64> {
        let name = datagram.get(..place)?.last_chunk()?;
        Some(u32::from_be_bytes(*name).into())
    }

    #[inline(always)]
    fn must_be_inside(first: u32, _: u32) -> u32 {
        first
    }

    #[inline(always)]
    fn last_inside(last: u32, count: u32) -> u32 {
        last.min(count - 1)
    }
}

/// The bin at the front.
#[inline(always)]
fn bin(bytes: &[u8]) -> Option<u32> {
    bytes.first_chunk().map(|&bytes| u32::from_be_bytes(bytes))
}

/// Whether a bin is empty or everything.
#[inline(always)]
fn is_special(bin: u32) -> bool {
    bin | 1 << 31 == EMPTY
}

/// The first chunk of a bin that is not empty: without its low ones it is the
/// leaf of that chunk.
#[inline(always)]
fn first_chunk(bin: u32) -> u32 {
    (bin & (bin + 1)) >> 1
}

/// The last chunk of a bin that is not empty: with another one above its low
/// ones it is one more than the leaf of that chunk.
#[inline(always)]
fn last_chunk(bin: u32) -> u32 {
    (bin | (bin + 1)) >> 1
}
