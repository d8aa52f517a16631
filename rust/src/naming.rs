//! Bins: what messages name chunks by under [`Addressing::Bins`](crate::Addressing::Bins).

use crate::node::Node;
use core::fmt;

/// A bin: the number of a [`Node`], by which messages name its chunks, or the empty one.
///
/// ```
/// use ppspp::Bin;
/// assert_eq!(Bin::over(4, 7), Some(Bin(11)));
/// assert_eq!(Bin(11).chunks(), Some((4, 7)));
/// assert_eq!(Bin(11).to_string(), "chunks 4..7 (bin 11)");
/// assert_eq!(Bin(11).in_pack(7).to_string(), "chunks 4..6 (bin 11)");
/// assert_eq!(Bin::EMPTY.to_string(), "no chunk (bin FFFFFFFF)");
/// ```
#[derive(Clone, Copy, Debug, PartialEq, Eq, Hash)]
pub struct Bin(pub u32);

impl Bin {
    /// The bin over no chunk.
    pub const EMPTY: Bin = Bin(0xffff_ffff);
    /// The bin over everything: all chunks that bins have.
    pub const EVERYTHING: Bin = Bin(0x7fff_ffff);

    /// The bin over the chunks from a first to a last one, if there is one.
    pub fn over(first: u32, last: u32) -> Option<Bin> {
        let number = u32::try_from(Node::over(first, last)?.number()).ok()?;
        Some(Bin(number)).filter(|&bin| bin != Bin::EMPTY)
    }

    /// The first and the last chunk under it; none of the empty one.
    pub fn chunks(self) -> Option<(u32, u32)> {
        let node = Node::of(self.0.into()).filter(|_| self != Bin::EMPTY)?;
        Some((node.first(), node.last()))
    }

    /// The same in words, those of its chunks alone that a pack of n chunks has; all of one that begins past the pack.
    pub fn in_pack(self, n: u32) -> impl fmt::Display {
        InPack { bin: self, n }
    }
}

/// In words, such as `chunks 4..7 (bin 11)`.
impl fmt::Display for Bin {
    fn fmt(&self, f: &mut fmt::Formatter<'_>) -> fmt::Result {
        self.in_pack(u32::MAX).fmt(f)
    }
}

/// A bin, of which the part in a pack of n chunks is told.
struct InPack {
    bin: Bin,
    n: u32,
}

impl fmt::Display for InPack {
    fn fmt(&self, f: &mut fmt::Formatter<'_>) -> fmt::Result {
        let Bin(number) = self.bin;
        let Some((first, end)) = self.bin.chunks() else {
            return write!(f, "no chunk (bin {number:08X})");
        };
        if self.bin == Bin::EVERYTHING {
            return write!(f, "all chunks (bin {number:08X})");
        }
        let last = if first < self.n {
            end.min(self.n - 1)
        } else {
            end
        };
        if first == last {
            return write!(f, "chunk {first} (bin {number})");
        }
        write!(f, "chunks {first}..{last} (bin {number})")
    }
}
