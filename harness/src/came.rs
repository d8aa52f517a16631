//! The hashes that come with a chunk: of which nodes, and in which form each
//! store takes them.

use crate::packets::{is_integrity, node_of};
use second::sha256::Digest;
use second::store::{NodeHash, Store};
use second::tree;
use second::wire::Addressing;

/// The bytes of a hash.
const HASH: usize = 32;

/// In the proved store's form.
#[derive(Clone, Default)]
pub struct Came {
    /// Two words for each hash: its node and its place in the bytes.
    pub entries: Vec<u64>,
    pub bytes: Vec<u8>,
}

impl Came {
    /// These, one behind the other.
    pub fn new(hashes: &[NodeHash]) -> Self {
        let mut came = Came::default();
        for (node, hash) in hashes {
            came.push(*node, hash);
        }
        came
    }

    /// One more, at the end of the bytes.
    pub fn push(&mut self, node: u64, hash: &Digest) {
        self.entries.extend([node, self.bytes.len() as u64]);
        self.bytes.extend_from_slice(hash);
    }

    /// In `second`'s form, which has each node once and every hash whole: a
    /// node's first entry counts, and a place without its 32 bytes is no hash.
    pub fn hashes(&self) -> Vec<NodeHash> {
        let mut seen = Vec::new();
        let mut hashes = Vec::new();
        for &[node, place] in self.entries.as_chunks().0 {
            if seen.contains(&node) {
                continue;
            }
            seen.push(node);
            hashes.extend(self.hash_at(place).map(|hash| (node, hash)));
        }
        hashes
    }

    fn hash_at(&self, place: u64) -> Option<Digest> {
        let bytes = self.bytes.get(usize::try_from(place).ok()?..)?;
        bytes.first_chunk::<HASH>().copied()
    }
}

/// The hashes of a chunk's sending order, from a store that has them.
pub fn all(built: &Store, chunk: u32) -> Vec<NodeHash> {
    with_hashes(built, tree::sending_order(built.count(), chunk))
}

/// Those that `store` needs for a chunk: the peaks, unless it trusts them, and
/// the siblings below the first node that it trusts, or below the peak.
pub fn least(built: &Store, store: &Store, chunk: u32) -> Vec<NodeHash> {
    let nodes = least_nodes(built.count(), chunk, |node| store.trusts(node));
    with_hashes(built, nodes)
}

/// Their nodes, for one of `count` chunks and a store that trusts such nodes.
pub fn least_nodes(count: u32, chunk: u32, trusts: impl Fn(u64) -> bool) -> Vec<u64> {
    let peaks = tree::peaks(count);
    let peak = peaks[tree::peak_over(&peaks, chunk)];
    let mut siblings = Vec::new();
    let mut node = tree::leaf(chunk);
    while node != peak && !trusts(node) {
        siblings.push(tree::sibling(node));
        node = tree::parent(node);
    }
    let mut nodes = peaks;
    if nodes.iter().all(|&peak| trusts(peak)) {
        nodes.clear();
    }
    nodes.extend(siblings);
    nodes
}

/// Of a chunk's messages leaves out the hashes that are not among these.
pub fn leave_least(
    addressing: Addressing,
    messages: &mut Vec<Vec<u8>>,
    count: u32,
    chunk: u32,
    trusts: impl Fn(u64) -> bool,
) {
    let least = least_nodes(count, chunk, trusts);
    messages
        .retain(|message| !is_integrity(message) || least.contains(&node_of(addressing, message)));
}

/// Nodes with their hashes, from a store that has them.
pub fn with_hashes(built: &Store, nodes: Vec<u64>) -> Vec<NodeHash> {
    nodes
        .into_iter()
        .map(|node| (node, *built.hash(node)))
        .collect()
}
