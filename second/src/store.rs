//! A store: the chunks of one pack, taken in any order, each checked against
//! the root hash of its order before it is kept.

use crate::answer;
use crate::climb::{self, Hashes, Order, FILLER};
use crate::sha256::Digest;
use crate::tree::{self, CHUNK_SIZE};

#[cfg(test)]
pub(crate) mod plain;
#[cfg(test)]
mod tests;

/// The longest pack an order may have: 512 chunks.
pub const MOST_LENGTH: u32 = 524_288;

/// A node, and a hash said to be its.
pub type NodeHash = (u64, Digest);

/// What a store writes chunks and hashes to, with anything in it.
#[derive(Clone)]
pub struct Rooms {
    /// At least as many bytes as the pack has.
    pub chunks: Vec<u8>,
    /// At least two hashes for each leaf place, by node number.
    pub hashes: Vec<Digest>,
}

impl Rooms {
    /// All zeros, exactly enough for a pack of `length` bytes.
    pub fn zero(length: u32) -> Self {
        Rooms {
            chunks: vec![0; length as usize],
            hashes: vec![FILLER; node_slots(length)],
        }
    }
}

/// Two for each leaf place: the nodes of the tree, and one not used.
fn node_slots(length: u32) -> usize {
    2 * tree::leaf_places(tree::chunk_count(length)) as usize
}

/// The chunks of one pack, and what is known of its tree.
#[derive(Clone)]
pub struct Store {
    /// The order.
    root: Digest,
    length: u32,
    /// The number of chunks.
    count: u32,
    /// Chunk i stands at 1,024 i.
    chunks: Vec<u8>,
    /// For each chunk whether it is held.
    map: Vec<bool>,
    /// By node number; of use where the node is trusted.
    hashes: Vec<Digest>,
    /// For each node whether its hash is known to be the pack's.
    trusted: Vec<bool>,
}

impl Hashes for Store {
    fn is_trusted(&self, node: u64) -> bool {
        self.trusts(node)
    }

    fn kept(&self, node: u64) -> Digest {
        *self.hash(node)
    }

    fn trust(&mut self, node: u64, hash: &Digest) {
        self.hashes[node as usize] = *hash;
        self.trusted[node as usize] = true;
    }
}

impl Store {
    /// A store with nothing of the pack but its root hash, in rooms of zeros.
    pub fn start(root: Digest, length: u32) -> Result<Self, u8> {
        check_length(length)?;
        Self::start_in(Rooms::zero(length), root, length)
    }

    /// The same in given rooms, which stay as they are but for the root's hash.
    pub fn start_in(rooms: Rooms, root: Digest, length: u32) -> Result<Self, u8> {
        let mut store = Self::without_root(rooms, length)?;
        store.root = root;
        store.trust(tree::root(store.count), &root);
        Ok(store)
    }

    /// A store with all of a pack, in rooms of zeros; its root hash is found.
    pub fn build(content: &[u8]) -> Result<Self, u8> {
        let length = u32::try_from(content.len()).map_err(|_| answer::BAD_LENGTH)?;
        check_length(length)?;
        Self::build_in(Rooms::zero(length), length, content)
    }

    /// The same in given rooms. Of the hashes, only the root's and those of the
    /// nodes wholly inside the pack are written.
    pub fn build_in(rooms: Rooms, length: u32, content: &[u8]) -> Result<Self, u8> {
        if content.len() != length as usize {
            return Err(answer::BAD_LENGTH);
        }
        let mut store = Self::without_root(rooms, length)?;
        store.chunks[..content.len()].copy_from_slice(content);
        store.map.fill(true);
        store.root = climb::build(&mut store, content);
        Ok(store)
    }

    /// A store that holds no chunk, trusts no node and has no root yet.
    fn without_root(rooms: Rooms, length: u32) -> Result<Self, u8> {
        check_length(length)?;
        let Rooms { chunks, hashes } = rooms;
        let slots = node_slots(length);
        if chunks.len() < length as usize || hashes.len() < slots {
            return Err(answer::ROOM_TOO_SMALL);
        }
        let count = tree::chunk_count(length);
        Ok(Store {
            root: FILLER,
            length,
            count,
            chunks,
            map: vec![false; count as usize],
            hashes,
            trusted: vec![false; slots],
        })
    }

    /// Takes a chunk with the hashes that came in its datagram, each node at
    /// most once, and gives the number for it, 9 and 10 with the node that they
    /// name (02, No. 3). A refusal changes nothing, nor does a chunk that is held
    /// already: that one is only checked again.
    pub fn take(&mut self, chunk: u32, bytes: &[u8], came: &[NodeHash]) -> (u8, Option<u64>) {
        let root = self.root;
        let order = Order::new(&root, self.length);
        let find = |node| {
            let mut came = came.iter();
            came.find_map(|(known, hash)| (*known == node).then_some(hash))
        };
        match order.check(self, chunk, bytes, find) {
            Ok(proof) => {
                if !self.holds(chunk) {
                    let start = (chunk * CHUNK_SIZE) as usize;
                    self.chunks[start..start + bytes.len()].copy_from_slice(bytes);
                    self.map[chunk as usize] = true;
                    order.keep(self, chunk, &proof);
                }
                (answer::DONE, None)
            }
            Err(refusal) => (refusal.number(), refusal.node()),
        }
    }

    /// The order's root hash.
    pub fn root(&self) -> &Digest {
        &self.root
    }

    /// The order's length.
    pub fn length(&self) -> u32 {
        self.length
    }

    /// The number of chunks.
    pub fn count(&self) -> u32 {
        self.count
    }

    /// The room for chunks.
    pub fn chunks(&self) -> &[u8] {
        &self.chunks
    }

    /// The room for hashes.
    pub fn hashes(&self) -> &[Digest] {
        &self.hashes
    }

    /// What stands in the room for a node's hash.
    pub fn hash(&self, node: u64) -> &Digest {
        &self.hashes[node as usize]
    }

    /// Whether a node is trusted.
    pub fn trusts(&self, node: u64) -> bool {
        self.trusted[node as usize]
    }

    /// Whether a chunk is held.
    pub fn holds(&self, chunk: u32) -> bool {
        self.map[chunk as usize]
    }

    /// How many chunks are held.
    pub fn held(&self) -> usize {
        self.map.iter().filter(|&&held| held).count()
    }

    /// Whether all chunks are held.
    pub fn is_whole(&self) -> bool {
        self.held() == self.map.len()
    }
}

/// The length of an order is from 1 to the limit.
pub(crate) fn check_length(length: u32) -> Result<(), u8> {
    if (1..=MOST_LENGTH).contains(&length) {
        Ok(())
    } else {
        Err(answer::BAD_LENGTH)
    }
}
