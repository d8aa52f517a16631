//! The store against 01's words and against the list of traps, whose numbers
//! the tests give.

mod building;
mod hashes;
mod naming;
mod starting;
mod taking;

use super::{plain, NodeHash, Rooms, Store};
use crate::sha256::Digest;
use crate::tree;

/// The length of the pack that RFC 7574 draws: seven chunks, the last of 1,018
/// bytes.
const SEVEN: u32 = 7_162;

/// A pack without a short period.
fn content(length: u32) -> Vec<u8> {
    (0..length)
        .map(|i| ((i * 131 + i / 251) % 253) as u8)
        .collect()
}

/// Rooms with something in every place, larger than a pack of `length` needs.
fn used_rooms(length: u32) -> Rooms {
    let mut rooms = Rooms::zero(length);
    rooms.chunks.resize(length as usize + 100, 0);
    rooms.hashes.resize(rooms.hashes.len() + 3, [0; 32]);
    for (i, byte) in rooms.chunks.iter_mut().enumerate() {
        *byte = (i * 89 % 255) as u8 + 1;
    }
    for (i, hash) in rooms.hashes.iter_mut().enumerate() {
        *hash = [(i * 67 % 255) as u8 + 1; 32];
    }
    rooms
}

/// A pack, and a store started under its root.
struct Pack {
    content: Vec<u8>,
    store: Store,
}

impl Pack {
    fn new(length: u32) -> Self {
        let content = content(length);
        let root = plain::hash(&content, tree::root(tree::chunk_count(length)));
        let store = Store::start_in(used_rooms(length), root, length).unwrap();
        Pack { content, store }
    }

    /// The bytes of a chunk.
    fn chunk(&self, number: u32) -> Vec<u8> {
        self.content
            .chunks(1024)
            .nth(number as usize)
            .unwrap()
            .to_vec()
    }

    /// The same with one bit changed.
    fn damaged(&self, number: u32) -> Vec<u8> {
        let mut bytes = self.chunk(number);
        bytes[0] ^= 1;
        bytes
    }

    /// The right hashes of these nodes.
    fn hashes(&self, nodes: &[u64]) -> Vec<NodeHash> {
        nodes.iter().map(|&node| (node, self.hash(node))).collect()
    }

    /// The right hash of a node.
    fn hash(&self, node: u64) -> Digest {
        plain::hash(&self.content, node)
    }

    /// Takes a right chunk with the right hashes of these nodes.
    fn take(&mut self, number: u32, nodes: &[u64]) -> u8 {
        self.offer(number, &self.chunk(number), &self.hashes(nodes))
    }

    /// Takes a chunk, and sees that a refusal changes nothing, nor a chunk held
    /// already, and that a good one is kept.
    fn offer(&mut self, number: u32, bytes: &[u8], came: &[NodeHash]) -> u8 {
        self.named(number, bytes, came).0
    }

    /// The same with the node that is named: there is one with 9 and 10 alone.
    fn named(&mut self, number: u32, bytes: &[u8], came: &[NodeHash]) -> (u8, Option<u64>) {
        let before = self.store.clone();
        let (answer, node) = self.store.take(number, bytes, came);
        assert_eq!(node.is_some(), [9, 10].contains(&answer), "{answer}");
        if answer != 0 || before.holds(number) {
            assert_same(&self.store, &before);
        } else {
            assert_kept(&self.store, &before, number, bytes);
        }
        (answer, node)
    }

    /// The nodes that are trusted, in rising order.
    fn trusted(&self) -> Vec<u64> {
        trusted(&self.store)
    }
}

/// The nodes that a store trusts, in rising order.
fn trusted(store: &Store) -> Vec<u64> {
    (0..)
        .zip(&store.trusted)
        .filter_map(|(node, &trusted)| trusted.then_some(node))
        .collect()
}

/// Hashes that are no node's, for these nodes.
fn wrong(nodes: impl IntoIterator<Item = u64>) -> Vec<NodeHash> {
    nodes.into_iter().map(|node| (node, [0xa5; 32])).collect()
}

/// Both stores are the same in all they have.
fn assert_same(store: &Store, before: &Store) {
    assert_eq!(store.root, before.root);
    assert_eq!(store.length, before.length);
    assert_eq!(store.map, before.map);
    assert_eq!(store.trusted, before.trusted);
    assert!(store.chunks == before.chunks);
    assert!(store.hashes == before.hashes);
}

/// The chunk, its bit and hashes that are trusted are all that differs; no
/// trust is lost, and a hash once trusted stays.
fn assert_kept(store: &Store, before: &Store, number: u32, bytes: &[u8]) {
    assert_eq!(store.root, before.root);
    assert_eq!(store.length, before.length);
    let mut chunks = before.chunks.clone();
    let start = 1024 * number as usize;
    chunks[start..start + bytes.len()].copy_from_slice(bytes);
    assert!(store.chunks == chunks);
    let mut map = before.map.clone();
    map[number as usize] = true;
    assert_eq!(store.map, map);
    for (node, hash) in store.hashes.iter().enumerate() {
        let [was, is] = [before, store].map(|s| s.trusted.get(node) == Some(&true));
        assert!(is || !was, "node {node} is trusted no more");
        if was || !is {
            assert_eq!(*hash, before.hashes[node], "node {node}");
        }
    }
}
