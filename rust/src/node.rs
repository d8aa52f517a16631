//! Nodes of the hash tree.

use core::fmt;

/// A node of the hash tree over a pack's chunks. Its number is that of the bin over the same chunks, however messages
/// name chunks: chunk i is node 2i, and any node is first + last.
///
/// ```
/// use ppspp::Node;
/// let node = Node::of(9).expect("all numbers of a tree are nodes");
/// assert_eq!((node.first(), node.last(), node.height()), (4, 5, 1));
/// assert_eq!(Node::over(4, 5), Some(node));
/// assert_eq!(node.to_string(), "node 9, chunks 4..5");
/// ```
#[derive(Clone, Copy, Debug, PartialEq, Eq, Hash)]
pub struct Node {
    first: u32,
    last: u32,
}

impl Node {
    /// The node of a number; none of one over chunks that 32 bits cannot name, nor of
    /// [`PPSPP_NO_NODE`](crate::sys::PPSPP_NO_NODE).
    pub fn of(number: u64) -> Option<Node> {
        // It turns the ones at the low end, as many as the node's height, to 0, and the 0 above them to 1.
        let next = number.checked_add(1)?;
        let first = u32::try_from((number & next) / 2).ok()?;
        let last = u32::try_from((number | next) / 2).ok()?;
        Some(Node { first, last })
    }

    /// The node over the chunks from a first to a last one, if there is one: their count is a power of two, and the first
    /// is a multiple of it.
    pub fn over(first: u32, last: u32) -> Option<Node> {
        Node::of(u64::from(first) + u64::from(last)).filter(|node| node.first == first)
    }

    /// Its number.
    pub const fn number(self) -> u64 {
        self.first as u64 + self.last as u64
    }

    /// The first chunk under it.
    pub const fn first(self) -> u32 {
        self.first
    }

    /// The last chunk under it.
    pub const fn last(self) -> u32 {
        self.last
    }

    /// Its height: 0 for a leaf, which is over one chunk, and one more with each doubling.
    pub const fn height(self) -> u32 {
        self.number().trailing_ones()
    }
}

/// In words, such as `node 9, chunks 4..5` or `node 2, chunk 1`.
impl fmt::Display for Node {
    fn fmt(&self, f: &mut fmt::Formatter<'_>) -> fmt::Result {
        let (number, Node { first, last }) = (self.number(), self);
        if first == last {
            return write!(f, "node {number}, chunk {first}");
        }
        write!(f, "node {number}, chunks {first}..{last}")
    }
}
