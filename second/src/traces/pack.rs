//! A pack, and the order for it, which need not fit.

use crate::random::Random;
use crate::replay::MOST_LENGTH;
use crate::sha256::{sha256, Digest};
use crate::tree;

/// Numbers of chunks at borders, and common ones.
const COUNTS: [u32; 16] = [1, 1, 2, 3, 4, 5, 6, 7, 7, 8, 9, 15, 16, 17, 31, 32];

/// A pack of chunks, the hashes of its tree, and the order's root.
pub struct Pack {
    content: Vec<u8>,
    count: u32,
    /// By node number.
    hashes: Vec<Digest>,
    /// The order's root hash: the pack's, or another one.
    pub root: Digest,
    /// Chunks from this one on do not belong to the order.
    foreign: u32,
}

impl Pack {
    pub fn random(random: &mut Random) -> Self {
        let length = length(random);
        let mut pack = Pack::of(content(random, length));
        match random.below(24) {
            0 => pack.order_another(random),
            1 => pack.order_zero_peak(),
            _ => {}
        }
        pack
    }

    /// The pack of a content, under its own root.
    pub fn of(content: Vec<u8>) -> Self {
        let count = tree::chunk_count(content.len() as u32);
        let places = tree::leaf_places(count);
        let mut pack = Pack {
            content,
            count,
            hashes: vec![[0; 32]; 2 * places as usize],
            root: [0; 32],
            foreign: count,
        };
        pack.hash_below(tree::root(count), None);
        pack.root = pack.hash(tree::root(count));
        pack
    }

    /// Another root, to which no chunk belongs.
    fn order_another(&mut self, random: &mut Random) {
        match random.below(3) {
            0 => self.root = [0; 32],
            1 => self.root[random.below(32)] ^= 1 << random.below(8),
            _ => self.root = random.bytes(32).try_into().unwrap_or([1; 32]),
        }
        self.foreign = 0;
    }

    /// The root over a last peak whose hash is 32 zero bytes, which no chunk
    /// has. It is no filler.
    pub fn order_zero_peak(&mut self) {
        let peaks = tree::peaks(self.count);
        let Some(&last) = peaks.last() else { return };
        self.hash_below(tree::root(self.count), Some(last));
        self.root = self.hash(tree::root(self.count));
        self.foreign = tree::first_chunk(last) as u32;
    }

    /// Finds the hashes from a node down; that of `zero` is 32 zero bytes.
    fn hash_below(&mut self, node: u64, zero: Option<u64>) {
        let first = tree::first_chunk(node) as u32;
        let height = tree::height(node);
        if height > 0 {
            let half = 1 << (height - 1);
            self.hash_below(node - half, zero);
            self.hash_below(node + half, zero);
        }
        let hash = if first >= self.count || zero == Some(node) {
            [0; 32]
        } else if height == 0 {
            sha256(self.chunk(first))
        } else {
            let half = 1 << (height - 1);
            sha256(&[self.hash(node - half), self.hash(node + half)].concat())
        };
        self.hashes[node as usize] = hash;
    }

    pub fn length(&self) -> u32 {
        self.content.len() as u32
    }

    /// The number of chunks.
    pub fn count(&self) -> u32 {
        self.count
    }

    /// The hash of a node of the pack's tree.
    pub fn hash(&self, node: u64) -> Digest {
        self.hashes[node as usize]
    }

    pub fn chunk(&self, number: u32) -> &[u8] {
        let start = (number * tree::CHUNK_SIZE) as usize;
        let size = tree::chunk_size(self.length(), number) as usize;
        &self.content[start..start + size]
    }

    /// Whether a chunk belongs to the order's root.
    pub fn belongs(&self, chunk: u32) -> bool {
        chunk < self.foreign
    }
}

/// A length of 1 to 32,768, mostly of few chunks or at a border.
fn length(random: &mut Random) -> u32 {
    let count = match random.below(8) {
        0 => 1 + random.below(32) as u32,
        1 | 2 => 1 + random.below(8) as u32,
        _ => random.one_of(&COUNTS),
    };
    let last = match random.below(6) {
        0 => 1,
        1 => 1023,
        2 | 3 => 1024,
        4 => 64,
        _ => 1 + random.below(1024) as u32,
    };
    ((count - 1) * tree::CHUNK_SIZE + last).min(MOST_LENGTH)
}

/// Any bytes, mostly; else one chunk again and again, zeros, or bytes that look
/// like messages.
fn content(random: &mut Random, length: u32) -> Vec<u8> {
    let length = length as usize;
    match random.below(8) {
        0 => random
            .bytes(1024)
            .into_iter()
            .cycle()
            .take(length)
            .collect(),
        1 => vec![0; length],
        2 => (0..length).map(|_| random.below(12) as u8).collect(),
        _ => random.bytes(length),
    }
}
