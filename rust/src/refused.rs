//! Why a datagram was not taken in.

use crate::node::Node;
use crate::refusal::Refusal;
use core::error::Error;
use core::fmt;

/// Why a datagram was not taken in: a [`Refusal`], and with a missing or a wrong hash the [`Node`] that it is about. No
/// other refusal has a node.
///
/// - [`Refusal::HashMissing`]: the first node, in the order in which hashes are sent, whose hash is needed and did not
///   come: by height falling, then by first chunk rising.
/// - [`Refusal::HashMismatch`]: the trusted node that was missed, where peaks that came and give the root count as
///   trusted; or the root, if the peaks that came do not give it.
///
/// ```
/// use ppspp::{Node, Order, Refusal, Refused, Store};
///
/// // A server of two chunks, and a van with a channel to it.
/// let mut server = Store::build(Order::to_build(1_500), &[7; 1_500])?;
/// let mut van = Store::start(server.order().expect("a built store has an order"))?;
/// let answering = server.take(0, 5, van.open(17)?)?;
/// van.take(0, 0, answering)?;
///
/// // A byte of chunk 0 is another. With the hash of chunk 1 it must lead to the root, node 1.
/// let mut garbled = server.write(5, 0, 0)?.to_vec();
/// *garbled.last_mut().expect("a chunk") ^= 1;
/// let refused = van.take(0, 0, &garbled).expect_err("it leads elsewhere");
/// assert_eq!(refused.refusal(), Refusal::HashMismatch);
/// assert_eq!(refused.node(), Node::over(0, 1));
/// assert_eq!(refused.to_string(), "hash mismatch: node 1, chunks 0..1");
///
/// // Chunk 0 without that hash.
/// let alone = server.compose(17)?.data(0, 0, &[7; 1_024])?.finish();
/// let refused = van.take(0, 0, alone).expect_err("it proves nothing");
/// assert_eq!(refused.to_string(), "hash missing: node 2, chunk 1");
/// # Ok::<(), Refused>(())
/// ```
#[derive(Clone, Copy, Debug, PartialEq, Eq, Hash)]
pub struct Refused {
    refusal: Refusal,
    node: Option<Node>,
}

impl Refused {
    /// [`Refusal::HashMissing`] with the node whose hash did not come.
    pub const fn missing(node: Node) -> Refused {
        Refused {
            refusal: Refusal::HashMissing,
            node: Some(node),
        }
    }

    /// [`Refusal::HashMismatch`] with the node that was missed.
    pub const fn mismatch(node: Node) -> Refused {
        Refused {
            refusal: Refusal::HashMismatch,
            node: Some(node),
        }
    }

    /// The refusal.
    pub const fn refusal(self) -> Refusal {
        self.refusal
    }

    /// The node, which a missing or a wrong hash has.
    pub const fn node(self) -> Option<Node> {
        self.node
    }

    /// What the library's number and node of taking in say: done, or refused.
    ///
    /// # Panics
    ///
    /// With a number over 14, which the library cannot give.
    pub fn check(number: u32, node: u64) -> Result<(), Refused> {
        Refusal::check(number).map_err(|refusal| match (refusal, Node::of(node)) {
            (Refusal::HashMissing, Some(node)) => Refused::missing(node),
            (Refusal::HashMismatch, Some(node)) => Refused::mismatch(node),
            _ => refusal.into(),
        })
    }
}

/// Without a node.
impl From<Refusal> for Refused {
    fn from(refusal: Refusal) -> Refused {
        let node = None;
        Refused { refusal, node }
    }
}

/// With a node such as `hash missing: node 9, chunks 4..5`; else the refusal's sentence.
impl fmt::Display for Refused {
    fn fmt(&self, f: &mut fmt::Formatter<'_>) -> fmt::Result {
        match (self.refusal, self.node) {
            (Refusal::HashMissing, Some(node)) => write!(f, "hash missing: {node}"),
            (Refusal::HashMismatch, Some(node)) => write!(f, "hash mismatch: {node}"),
            (refusal, _) => refusal.fmt(f),
        }
    }
}

impl Error for Refused {}
