//! The hashes of a tree: finding them from content, and checking a chunk
//! against those that are trusted ("Taking a chunk" in 01). Who keeps the
//! hashes, and in which form, is left open.

use crate::answer::{self, Refusal};
use crate::sha256::{self, sha256, Digest};
use crate::tree::{self, CHUNK_SIZE};

/// The most steps from a leaf to the root: 512 leaf places are 2^9. There are
/// at most as many peaks, for 511 chunks, and none is higher.
const MOST_STEPS: usize = 9;

/// What stands at every node over leaves past the end, whatever its height:
/// two such children give such a parent.
pub const FILLER: Digest = [0; 32];

/// The hashes kept for the nodes of a tree.
pub trait Hashes {
    /// Whether a node is trusted.
    fn is_trusted(&self, node: u64) -> bool;
    /// What is kept for a node.
    fn kept(&self, node: u64) -> Digest;
    /// Keeps a node's hash and trusts it.
    fn trust(&mut self, node: u64, hash: &Digest);
}

/// An order whose length is from 1 to the limit, and the tree over it.
pub struct Order<'o> {
    root: &'o Digest,
    length: u32,
    count: u32,
    peaks: Peaks,
}

/// The peaks over the chunks of a pack, the largest first.
struct Peaks {
    nodes: [u64; MOST_STEPS],
    count: usize,
}

impl Peaks {
    /// There are from 1 to 512 chunks.
    fn over(count: u32) -> Self {
        let mut peaks = Peaks {
            nodes: [0; MOST_STEPS],
            count: 0,
        };
        for peak in tree::each_peak(count) {
            peaks.nodes[peaks.count] = peak;
            peaks.count += 1;
        }
        peaks
    }

    fn list(&self) -> &[u64] {
        &self.nodes[..self.count]
    }
}

/// What a good chunk was checked with, to be kept with it.
pub struct Proof<'a> {
    needed: Needed<'a>,
    /// The hashes of the nodes climbed from, the leaf first.
    climbed: [Digest; MOST_STEPS],
}

/// The hashes that had to come with a chunk, and the one it must lead to.
struct Needed<'a> {
    /// The peaks' hashes, by height, if they had to come.
    peaks: Option<[&'a Digest; MOST_STEPS + 1]>,
    /// The first trusted node at or above the leaf.
    top: u64,
    /// Its hash.
    wanted: Digest,
    /// The hashes of the siblings below it, by height.
    siblings: [&'a Digest; MOST_STEPS],
}

impl Needed<'_> {
    /// How many nodes are climbed from, the leaf first.
    fn steps(&self) -> usize {
        tree::height(self.top) as usize
    }

    /// The hash that the climb from a chunk's leaf gives for the first trusted
    /// node; those of the nodes climbed from are written to `climbed`.
    fn climb(&self, chunk: u32, bytes: &[u8], climbed: &mut [Digest; MOST_STEPS]) -> Digest {
        let mut hash = sha256(bytes);
        let mut node = tree::leaf(chunk);
        for (own, sibling) in climbed.iter_mut().zip(self.siblings).take(self.steps()) {
            *own = hash;
            hash = if tree::is_right(node) {
                sha256::node(sibling, own)
            } else {
                sha256::node(own, sibling)
            };
            node = tree::parent(node);
        }
        hash
    }
}

impl<'o> Order<'o> {
    /// The length is from 1 to the limit.
    pub fn new(root: &'o Digest, length: u32) -> Self {
        let count = tree::chunk_count(length);
        Order {
            root,
            length,
            count,
            peaks: Peaks::over(count),
        }
    }

    /// Checks a chunk against what is trusted; `came` gives the hash of a node
    /// if it came with the chunk. The error is 7, 8, 9 or 10, the latter two with
    /// their node (02, No. 3).
    pub fn check<'a>(
        &self,
        hashes: &impl Hashes,
        chunk: u32,
        bytes: &[u8],
        came: impl Fn(u64) -> Option<&'a Digest>,
    ) -> Result<Proof<'a>, Refusal> {
        if chunk >= self.count {
            return Err(answer::PAST_THE_END.into());
        }
        if bytes.len() != tree::chunk_size(self.length, chunk) as usize {
            return Err(answer::WRONG_LENGTH.into());
        }
        // Every needed hash must be there before the value of any is judged.
        let needed = self
            .needed(hashes, chunk, came)
            .map_err(Refusal::HashMissing)?;
        if let Some(came) = &needed.peaks {
            let peaks = self.peaks.list();
            let came = peaks.iter().map(|&peak| *came[tree::height(peak) as usize]);
            if root_over(peaks, came) != *self.root {
                return Err(Refusal::HashWrong(tree::root(self.count)));
            }
        }
        let mut climbed = [FILLER; MOST_STEPS];
        if needed.climb(chunk, bytes, &mut climbed) != needed.wanted {
            return Err(Refusal::HashWrong(needed.top));
        }
        Ok(Proof { needed, climbed })
    }

    /// The hashes that a chunk needs, looked for in the sending order: "by height
    /// falling, then by first chunk rising". The error is the first node whose
    /// hash did not come.
    fn needed<'a>(
        &self,
        hashes: &impl Hashes,
        chunk: u32,
        came: impl Fn(u64) -> Option<&'a Digest>,
    ) -> Result<Needed<'a>, u64> {
        let find = |node| came(node).ok_or(node);
        let list = self.peaks.list();
        let must_come = !list.iter().all(|&peak| hashes.is_trusted(peak));
        let top = self.first_trusted(hashes, chunk);
        let steps = tree::height(top);
        let mut peaks = [&FILLER; MOST_STEPS + 1];
        let mut siblings = [&FILLER; MOST_STEPS];
        for height in (0..=self.count.ilog2()).rev() {
            let at = height as usize;
            if height < steps {
                siblings[at] = find(tree::over(chunk ^ 1 << height, height))?;
            }
            // A peak as high as a sibling stands right of it.
            match tree::peak_of_height(self.count, height) {
                Some(peak) if must_come => peaks[at] = find(peak)?,
                _ => {}
            }
        }
        let wanted = if must_come && list.contains(&top) {
            *peaks[steps as usize]
        } else {
            hashes.kept(top)
        };
        Ok(Needed {
            peaks: must_come.then_some(peaks),
            top,
            wanted,
            siblings,
        })
    }

    /// The first trusted node at or above a chunk's leaf. Its peak is trusted or
    /// counts as such.
    fn first_trusted(&self, hashes: &impl Hashes, chunk: u32) -> u64 {
        let peak = tree::peak_height(self.count, chunk);
        let mut below = (0..peak).map(|height| tree::over(chunk, height));
        let trusted = below.find(|&node| hashes.is_trusted(node));
        trusted.unwrap_or(tree::over(chunk, peak))
    }

    /// Keeps and trusts the hashes that a good chunk was checked with. A leaf
    /// not climbed from was trusted, or is a peak: its hash is there or comes
    /// here.
    pub fn keep(&self, hashes: &mut impl Hashes, chunk: u32, proof: &Proof) {
        let Proof { needed, climbed } = proof;
        if let Some(came) = &needed.peaks {
            for &peak in self.peaks.list() {
                hashes.trust(peak, came[tree::height(peak) as usize]);
            }
        }
        let mut node = tree::leaf(chunk);
        for (own, sibling) in climbed.iter().zip(needed.siblings).take(needed.steps()) {
            hashes.trust(node, own);
            hashes.trust(tree::sibling(node), sibling);
            node = tree::parent(node);
        }
    }
}

/// Keeps and trusts the hashes of the root and of all nodes wholly inside a
/// pack of this content, of 1 byte to the limit, and gives the root's.
pub fn build(hashes: &mut impl Hashes, content: &[u8]) -> Digest {
    let mut count = 0;
    for bytes in content.chunks(CHUNK_SIZE as usize) {
        hashes.trust(tree::leaf(count), &sha256(bytes));
        count += 1;
    }
    // Level by level: there are count / 2^h whole nodes of height h, from
    // 2^h - 1 on in steps of 2^(h + 1), each with its children 2^(h - 1)
    // to its left and to its right.
    for height in 1..=count.ilog2() {
        let half = 1 << (height - 1);
        let nodes = (2 * half - 1..).step_by(4 * half as usize);
        for node in nodes.take((count >> height) as usize) {
            let hash = sha256::node(&hashes.kept(node - half), &hashes.kept(node + half));
            hashes.trust(node, &hash);
        }
    }
    let peaks = Peaks::over(count);
    let peak_hashes = peaks.list().iter().map(|&peak| hashes.kept(peak));
    let root = root_over(peaks.list(), peak_hashes);
    hashes.trust(tree::root(count), &root);
    root
}

/// The root that the peaks give with fillers, all by their places. On the way
/// up from the last peak, a node's sibling is either the next peak, on its left,
/// or all filler, on its right. Above the first peak and its sibling is the root.
fn root_over<I>(peaks: &[u64], hashes: I) -> Digest
where
    I: DoubleEndedIterator<Item = Digest> + ExactSizeIterator,
{
    let mut from_the_right = peaks.iter().zip(hashes).rev();
    let (&last, hash) = from_the_right.next().expect("a pack has a peak");
    let (mut node, mut hash) = (last, hash);
    for (&peak, left) in from_the_right {
        while tree::sibling(node) != peak {
            hash = sha256::node(&hash, &FILLER);
            node = tree::parent(node);
        }
        hash = sha256::node(&left, &hash);
        node = tree::parent(node);
    }
    hash
}
