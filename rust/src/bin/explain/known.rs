//! What a store knew before a datagram: enough to say why it was refused, or what it changed.

use crate::naming::Naming;
use ppspp::{Channel, Node, Order, Store};

/// What a channel's peer has told.
pub struct Told {
    /// The chunks that it has.
    pub has: Vec<u32>,
    /// The chunks that it wants.
    pub wants: Vec<u32>,
}

impl Told {
    /// What the peer of a row's channel has told of n chunks.
    pub fn of(store: &Store, row: u32, n: u32) -> Told {
        let has = (0..n).filter(|&chunk| store.peer_has(row, chunk));
        let wants = (0..n).filter(|&chunk| store.peer_wants(row, chunk));
        Told {
            has: has.collect(),
            wants: wants.collect(),
        }
    }
}

/// What stood in a store's rooms.
pub struct Known {
    /// The order.
    pub order: Order,
    /// The chunks of the pack.
    pub n: u32,
    /// The channels, by rising row.
    pub channels: Vec<Channel>,
    /// The chunks held.
    pub held: Vec<u32>,
    /// A bit for each trusted node.
    trusted: Vec<u32>,
}

impl Known {
    /// What stands in a store's rooms now; it has an order.
    pub fn of(store: &Store, order: Order) -> Known {
        let n = order.chunk_count();
        Known {
            order,
            n,
            channels: store.channels().collect(),
            held: (0..n).filter(|&chunk| store.holds(chunk)).collect(),
            trusted: store.view().trusted.to_vec(),
        }
    }

    /// How its messages name chunks.
    pub fn naming(&self) -> Naming {
        Naming::of(&self.order)
    }

    /// The channel of an ID of ours.
    pub fn channel(&self, id: u32) -> Option<Channel> {
        self.channels
            .iter()
            .copied()
            .find(|channel| channel.id == id)
    }

    /// Whether a chunk was held.
    pub fn holds(&self, chunk: u32) -> bool {
        self.held.contains(&chunk)
    }

    /// Whether a node was trusted.
    pub fn trusts(&self, node: Node) -> bool {
        // One past the room is in no word of it.
        let number = node.number() as usize;
        let word = self.trusted.get(number / 32);
        word.is_some_and(|word| word >> (number % 32) & 1 == 1)
    }

    /// The bytes that a chunk of the pack has.
    pub fn chunk_length(&self, chunk: u32) -> usize {
        let size = ppspp::sizes::CHUNK_SIZE;
        let before = chunk.saturating_mul(size);
        let rest = self.order.length.saturating_sub(before);
        rest.min(size) as usize
    }
}
