//! How messages name chunks: by a range, its first and its last one, or by the
//! bin over them (RFC 7574, 4.1 and 4.2).

mod bins;
mod ranges;

pub(crate) use bins::ByBins;
pub(crate) use ranges::ByRanges;

use super::HASH_SIZE;

/// The addressing method of a store, which its order names.
#[derive(Clone, Copy, Debug, Default, PartialEq, Eq)]
pub enum Addressing {
    /// 32-bit bins.
    Bins,
    /// 32-bit chunk ranges.
    #[default]
    Ranges,
}

impl Addressing {
    /// The method's number, as in option 6 (RFC 7574, 7.8).
    pub const fn number(self) -> u32 {
        match self {
            Addressing::Bins => 0,
            Addressing::Ranges => 2,
        }
    }

    /// The method of a number; none if no paper gives it.
    pub const fn of(number: u32) -> Option<Addressing> {
        match number {
            0 => Some(Addressing::Bins),
            2 => Some(Addressing::Ranges),
            _ => None,
        }
    }
}

/// The chunks that a message names.
pub(crate) enum Chunks {
    /// From the first to the last, both included.
    Range(u32, u32),
    /// None at all.
    Empty,
}

/// What the two methods differ in. A name stands behind the type byte; the bytes
/// read here begin with it.
pub(crate) trait Names {
    /// Which of the two it is.
    const ADDRESSING: Addressing;
    /// The bytes of a name.
    const SIZE: usize;
    /// The bytes of a name and a delay or timestamp: of an ACK, or of DATA before
    /// its chunk.
    const WITH_TIME: usize = Self::SIZE + 8;
    /// The bytes of a name and a hash: of an INTEGRITY.
    const WITH_HASH: usize = Self::SIZE + HASH_SIZE;

    /// The chunks of a HAVE, REQUEST or CANCEL. Here and in the next three, none
    /// stands for number 2.
    fn chunks(bytes: &[u8]) -> Option<Chunks>;

    /// The first and the last chunk of an ACK.
    fn acked(bytes: &[u8]) -> Option<(u32, u32)>;

    /// The node of an INTEGRITY, and its last chunk.
    fn node(bytes: &[u8]) -> Option<(u64, u32)>;

    /// The chunk of DATA.
    fn chunk(bytes: &[u8]) -> Option<u32>;

    /// Whether a message of a type can be added over these chunks.
    fn can_name(kind: u8, first: u32, last: u32) -> bool;

    /// Whether there is an empty message of a type.
    fn can_be_empty(kind: u8) -> bool;

    /// Writes the name of chunks that have one to the front.
    fn put(bytes: &mut [u8], first: u32, last: u32);

    /// What the name of a node is as a number.
    fn name_of(node: u64) -> u64;

    /// The same of the name that ends at a place of a datagram.
    fn name_before(datagram: &[u8], place: usize) -> Option<u64>;

    /// Of the chunks of an ACK, HAVE, REQUEST or CANCEL the one that must be in
    /// the pack, or the number is 7.
    fn must_be_inside(first: u32, last: u32) -> u32;

    /// The last one of them in a pack of `count` chunks, which has that one.
    fn last_inside(last: u32, count: u32) -> u32;
}
