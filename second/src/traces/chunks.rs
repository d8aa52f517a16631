//! Chunks with their hashes, good and bad.

use super::kinds::Kind;
use super::maker::Maker;
use crate::packets::*;
use crate::sha256::{sha256, Digest};
use crate::tree::{self, CHUNK_SIZE};
use crate::wire::MAX_SIZE;

/// A chunk and the hashes that go with it.
pub struct Sent {
    pub chunk: u32,
    pub bytes: Vec<u8>,
    pub hashes: Vec<(u64, Digest)>,
}

/// The nodes whose hashes a chunk needs.
pub struct Needed {
    pub peaks: Vec<u64>,
    pub siblings: Vec<u64>,
}

impl Maker {
    /// The messages of a kind with DATA, or of the nearest one; none for other
    /// kinds, or if it cannot be made now.
    pub fn chunk_messages(&mut self, kind: Kind) -> Option<(Kind, Vec<u8>)> {
        let sent = match kind {
            Kind::ChunkLeast | Kind::ChunkAll | Kind::ChunkMore => {
                let chunk = self.missing()?;
                if !self.pack.belongs(chunk) {
                    let sent = self.all(chunk);
                    return Some((Kind::OtherPack, self.assembled(sent)));
                }
                self.good(kind, chunk)
            }
            Kind::ChunkHeld => self.held()?,
            Kind::ChunkPast => return Some((kind, self.chunk_past())),
            Kind::ChunkLength => {
                let mut sent = self.any();
                self.spoil_length(&mut sent);
                sent
            }
            Kind::PeakMissing | Kind::SiblingMissing => self.without_a_needed(kind)?,
            Kind::ChunkDamaged => {
                let mut sent = self.any();
                self.spoil_bytes(&mut sent);
                sent
            }
            Kind::HashDamaged => self.with_a_needed_spoilt()?,
            Kind::LeafForged => self.forged(),
            _ => return None,
        };
        Some((kind, self.assembled(sent)))
    }

    /// A chunk that is not held: the first, the last or any, as the trace has
    /// it.
    fn missing(&mut self) -> Option<u32> {
        let chunks = 0..self.pack.count();
        let missing: Vec<u32> = chunks.filter(|&chunk| !self.session.holds(chunk)).collect();
        match self.rising {
            Some(true) => missing.first().copied(),
            Some(false) => missing.last().copied(),
            None if missing.is_empty() => None,
            None => Some(self.random.one_of(&missing)),
        }
    }

    fn any_chunk(&mut self) -> u32 {
        self.random.below(self.pack.count() as usize) as u32
    }

    /// "If the peaks aren't trusted yet, all must come. Then climb from the
    /// chunk's leaf to the first trusted node at or above it. The sibling at each
    /// step below must come."
    pub fn needed(&self, chunk: u32) -> Needed {
        let mut peaks = tree::peaks(self.pack.count());
        let mut siblings = Vec::new();
        let mut node = tree::leaf(chunk);
        while !self.session.trusts(node) && !peaks.contains(&node) {
            siblings.push(tree::sibling(node));
            node = tree::parent(node);
        }
        if peaks.iter().all(|&peak| self.session.trusts(peak)) {
            peaks.clear();
        }
        Needed { peaks, siblings }
    }

    /// A chunk with the hashes of these nodes, all right.
    fn with_nodes(&self, chunk: u32, nodes: &[u64]) -> Sent {
        let hash = |&node: &u64| (node, self.pack.hash(node));
        Sent {
            chunk,
            bytes: self.pack.chunk(chunk).to_vec(),
            hashes: nodes.iter().map(hash).collect(),
        }
    }

    /// With the hashes that it needs.
    fn least(&self, chunk: u32) -> Sent {
        let Needed { peaks, siblings } = self.needed(chunk);
        self.with_nodes(chunk, &[peaks, siblings].concat())
    }

    /// With all hashes that a store would send.
    fn all(&self, chunk: u32) -> Sent {
        let nodes = tree::sending_order(self.pack.count(), chunk);
        self.with_nodes(chunk, &nodes)
    }

    /// Any chunk, held or not, with the least hashes or all.
    fn any(&mut self) -> Sent {
        let chunk = self.any_chunk();
        self.least_or_all(chunk)
    }

    fn least_or_all(&mut self, chunk: u32) -> Sent {
        match self.random.below(2) {
            0 => self.least(chunk),
            _ => self.all(chunk),
        }
    }

    fn good(&mut self, kind: Kind, chunk: u32) -> Sent {
        match kind {
            Kind::ChunkLeast => self.least(chunk),
            Kind::ChunkAll => self.all(chunk),
            _ => {
                let mut sent = self.least_or_all(chunk);
                self.add_hashes(&mut sent);
                sent
            }
        }
    }

    /// Adds hashes, right or wrong, of nodes that are not there yet. None of
    /// them is needed.
    fn add_hashes(&mut self, sent: &mut Sent) {
        for _ in 0..1 + self.random.below(8) {
            let node = match self.random.below(3) {
                0 => tree::leaf(sent.chunk),
                _ => self.node_inside(),
            };
            if sent.hashes.iter().all(|&(known, _)| known != node) {
                let hash = self
                    .random
                    .one_of(&[self.pack.hash(node), [0xa5; 32], [0; 32]]);
                sent.hashes.push((node, hash));
            }
        }
    }

    /// A held chunk, with no hash, all of them, or wrong ones.
    fn held(&mut self) -> Option<Sent> {
        let chunks = 0..self.pack.count();
        let held: Vec<u32> = chunks.filter(|&chunk| self.session.holds(chunk)).collect();
        if held.is_empty() {
            return None;
        }
        let chunk = self.random.one_of(&held);
        let mut sent = self.with_nodes(chunk, &[]);
        match self.random.below(3) {
            0 => {}
            1 => sent = self.all(chunk),
            _ => self.add_hashes(&mut sent),
        }
        Some(sent)
    }

    /// DATA past the pack, of any length.
    fn chunk_past(&mut self) -> Vec<u8> {
        let count = self.pack.count();
        let any = self.random.next() as u32;
        let chunk = self
            .random
            .one_of(&[count, count, count + 1, any.max(count), u32::MAX]);
        let bytes = vec![0; self.random.one_of(&[0, 1, 1023, 1024])];
        data(chunk, chunk, self.random.time(), &bytes)
    }

    /// Gives a chunk another length.
    pub fn spoil_length(&mut self, sent: &mut Sent) {
        let right = sent.bytes.len();
        let last = self.pack.chunk(self.pack.count() - 1).len();
        let lengths = [0, 1, right - 1, right + 1, 1024, last, 1025];
        loop {
            let length = self.random.one_of(&lengths);
            if length != right {
                return sent.bytes.resize(length, 0);
            }
        }
    }

    /// Changes one bit of a chunk.
    pub fn spoil_bytes(&mut self, sent: &mut Sent) {
        if let Some(last) = sent.bytes.len().checked_sub(1) {
            let place = self.random.one_of(&[0, last, last / 2]);
            sent.bytes[place] ^= 1 << self.random.below(8);
        }
    }

    /// A chunk that needs a hash which is not there: a peak's or a sibling's.
    pub fn without_a_needed(&mut self, kind: Kind) -> Option<Sent> {
        let (chunk, dropped) = self.needing(|needed| match kind {
            Kind::PeakMissing => needed.peaks,
            _ => needed.siblings,
        })?;
        let mut sent = self.least_or_all(chunk);
        sent.hashes.retain(|&(node, _)| node != dropped);
        Some(sent)
    }

    /// A chunk with a needed hash that is wrong.
    pub fn with_a_needed_spoilt(&mut self) -> Option<Sent> {
        let (chunk, spoilt) = self.needing(|needed| [needed.peaks, needed.siblings].concat())?;
        let mut sent = self.least_or_all(chunk);
        for (node, hash) in &mut sent.hashes {
            if *node == spoilt {
                hash[self.random.below(32)] ^= 1 << self.random.below(8);
            }
        }
        Some(sent)
    }

    /// A chunk and one of these needed nodes of it, if any chunk has one.
    fn needing(&mut self, nodes: impl Fn(Needed) -> Vec<u64>) -> Option<(u32, u64)> {
        let chunks = 0..self.pack.count();
        let all: Vec<_> = chunks
            .map(|chunk| (chunk, nodes(self.needed(chunk))))
            .filter(|(_, nodes)| !nodes.is_empty())
            .collect();
        if all.is_empty() {
            return None;
        }
        let (chunk, nodes) = &all[self.random.below(all.len())];
        Some((*chunk, self.random.one_of(nodes)))
    }

    /// Other bytes than a chunk's, with the hash of its leaf that fits them.
    fn forged(&mut self) -> Sent {
        let mut sent = self.any();
        self.spoil_bytes(&mut sent);
        let leaf = tree::leaf(sent.chunk);
        let forged = sha256(&sent.bytes);
        sent.hashes.retain(|&(node, _)| node != leaf);
        sent.hashes.push((leaf, forged));
        sent
    }

    /// The messages: hashes in any order, others among them if there is room, and
    /// DATA behind all.
    pub fn assembled(&mut self, sent: Sent) -> Vec<u8> {
        let each = sent
            .hashes
            .iter()
            .map(|(node, hash)| node_hash(*node, hash));
        let mut messages: Vec<_> = each.collect();
        if self.random.one_in(4) {
            let other = self.plain_message(&mut (0..64).collect());
            messages.insert(self.random.below(messages.len() + 1), other);
        }
        if self.random.one_in(3) {
            self.random.shuffle(&mut messages);
        }
        let most = (MAX_SIZE - CHUNK_SIZE as usize - 100) / 41;
        messages.truncate(most);
        let time = self.random.time();
        messages.push(data(sent.chunk, sent.chunk, time, &sent.bytes));
        messages.concat()
    }
}
