//! The node that 9 and 10 name (02, No. 3), through the proved entry points, under
//! either method. All nodes are worked out on paper, by 01's tree; each call goes to
//! `second` too.
//!
//! ```text
//! height 3             7
//! height 2       3           11
//! height 1    1     5     9      13
//! height 0   0 2   4 6   8 10  12 14
//! chunk      0 1   2 3   4  5   6  7
//! ```

use harness::caller::Caller;
use harness::came::{with_hashes, Came};
use harness::naming::Answer;
use harness::packets::*;
use harness::packs::Pack;
use harness::random::Random;
use harness::takes::Take;
use second::wire::Addressing;

/// The channel of a store, and the one of its peer.
pub const OURS: u32 = 5;
pub const ITS: u32 = 9;

/// What chunk 0 of seven goes out with: "0..3, 2..3, 4..5, 1..1, 6..6".
pub const WITH_0: [u64; 5] = [3, 5, 9, 2, 12];

/// A store of a pack, with a channel open.
pub struct Scene {
    pub addressing: Addressing,
    pub pack: Pack,
    pub store: Caller,
}

/// What is wrong in a datagram.
#[derive(Clone, Copy)]
pub enum Wrong<'a> {
    Nothing,
    Chunk,
    /// The hashes of these nodes.
    Hashes(&'a [u64]),
    /// These and the chunk.
    Both(&'a [u64]),
}

impl Scene {
    /// A fresh store for a pack of so many chunks.
    pub fn fresh(addressing: Addressing, count: u32) -> Self {
        let mut random = Random::new(count);
        let pack = Pack::new(&mut random, 1_024 * count - 6);
        let (root, length) = (pack.built.root(), pack.length());
        let store = Caller::started(addressing, &mut random, root, length);
        Scene {
            addressing,
            store: store.opened(OURS, ITS),
            pack,
        }
    }

    /// A whole one.
    fn built(addressing: Addressing, count: u32) -> Self {
        let mut scene = Scene::fresh(addressing, count);
        let built = Caller::built(addressing, &mut Random::new(0), &scene.pack);
        scene.store = built.opened(OURS, ITS);
        scene
    }

    /// The messages of a chunk with the hashes of these nodes.
    pub fn messages(&self, chunk: u32, nodes: &[u64], wrong: Wrong) -> Vec<Vec<u8>> {
        let mut hashes = with_hashes(&self.pack.built, nodes.to_vec());
        let mut bytes = self.pack.chunk(chunk).to_vec();
        if matches!(wrong, Wrong::Chunk | Wrong::Both(_)) {
            bytes[0] ^= 1;
        }
        if let Wrong::Hashes(wrong) | Wrong::Both(wrong) = wrong {
            for (node, hash) in &mut hashes {
                hash[31] ^= u8::from(wrong.contains(node));
            }
        }
        let take = Take {
            number: chunk,
            chunk: bytes,
            came: Came::new(&hashes),
            what: String::new(),
        };
        take.messages(self.addressing, 0)
    }

    /// What is answered where they come.
    fn answer(&mut self, chunk: u32, nodes: &[u64], wrong: Wrong) -> Answer {
        let messages = self.messages(chunk, nodes, wrong);
        self.store.answer(0, &datagram(OURS, &messages))
    }

    /// With these hashes alone 9 names a node, right or wrong as all may be, in
    /// whichever order they come.
    pub fn missing(&mut self, chunk: u32, nodes: &[u64], wanted: u64) {
        let mut nodes = nodes.to_vec();
        for _ in 0..2 {
            for wrong in [Wrong::Nothing, Wrong::Hashes(&nodes), Wrong::Both(&nodes)] {
                let answer = self.answer(chunk, &nodes, wrong);
                assert_eq!(answer, (9, Some(wanted)), "chunk {chunk}, {nodes:?}");
            }
            nodes.reverse();
        }
    }

    /// With these hashes 10 names a node.
    pub fn missed(&mut self, chunk: u32, nodes: &[u64], wrong: Wrong, wanted: u64) {
        let answer = self.answer(chunk, nodes, wrong);
        assert_eq!(answer, (10, Some(wanted)), "chunk {chunk}, {nodes:?}");
    }

    /// With these hashes a chunk is taken.
    pub fn taken(&mut self, chunk: u32, nodes: &[u64], wrong: Wrong) {
        let answer = self.answer(chunk, nodes, wrong);
        assert_eq!(answer, (0, None), "chunk {chunk}, {nodes:?}");
        assert!(self.store.0.holds(chunk));
    }
}

/// Nodes but for some.
fn without(nodes: &[u64], left_out: &[u64]) -> Vec<u64> {
    let nodes = nodes.iter().copied();
    nodes.filter(|node| !left_out.contains(node)).collect()
}

#[test]
fn each_needed_hash_missing_alone() {
    for addressing in METHODS {
        let mut scene = Scene::fresh(addressing, 7);
        for node in [3, 9, 12, 2, 5] {
            scene.missing(0, &without(&WITH_0, &[node]), node);
        }
        scene.taken(0, &WITH_0, Wrong::Nothing);
    }
}

/// Of several "the first .. in 01's sending order": a higher one first, and of one
/// height the one with the lower chunks.
#[test]
fn the_first_of_several_missing() {
    for addressing in METHODS {
        let mut scene = Scene::fresh(addressing, 7);
        // 2..3 stands before 4..5, and chunk 1 before chunk 6.
        scene.missing(0, &without(&WITH_0, &[9, 5]), 5);
        scene.missing(0, &without(&WITH_0, &[2, 12]), 2);
        scene.missing(0, &without(&WITH_0, &[9, 2]), 9);
        scene.missing(0, &without(&WITH_0, &[5, 12]), 5);
        scene.missing(0, &without(&WITH_0, &[2, 5]), 5);
        scene.missing(0, &without(&WITH_0, &[9, 12]), 9);
        scene.missing(0, &[9, 12], 3);
        scene.missing(0, &[3], 5);
        scene.missing(0, &[], 3);
        // What is not needed does not stand for what is.
        scene.missing(0, &[0, 1, 4, 6, 8, 10], 3);
        // Other chunks: 4 goes out with 3, 9, 10 and 12, and 6 with the peaks.
        scene.missing(4, &[3, 9], 10);
        scene.missing(5, &[3, 8], 9);
        scene.missing(6, &[3], 9);
        // Five chunks have the peaks 3 and 8, six 3 and 9.
        Scene::fresh(addressing, 5).missing(2, &[3, 1], 6);
        Scene::fresh(addressing, 5).missing(2, &[3, 6], 1);
        Scene::fresh(addressing, 6).missing(0, &[3, 2], 5);
        Scene::fresh(addressing, 6).missing(0, &[3, 5], 9);
        // The peaks of 511 are 0..255, 256..383 and so on, up to chunk 510 alone.
        let mut most = Scene::fresh(addressing, 511);
        most.missing(0, &[], 255);
        most.missing(0, &[255], 383);
        most.missing(510, &[255], 639);
    }
}

/// "the root if the peaks fail", whatever else is wrong.
#[test]
fn wrong_peaks() {
    for addressing in METHODS {
        let mut scene = Scene::fresh(addressing, 7);
        for peak in [3, 9, 12] {
            scene.missed(0, &WITH_0, Wrong::Hashes(&[peak]), 7);
            scene.missed(0, &WITH_0, Wrong::Both(&[peak, 2]), 7);
            scene.missed(6, &[3, 9, 12], Wrong::Hashes(&[peak]), 7);
        }
        Scene::fresh(addressing, 3).missed(2, &[1, 4], Wrong::Hashes(&[4]), 3);
        Scene::fresh(addressing, 5).missed(4, &[3, 8], Wrong::Hashes(&[3]), 7);
        Scene::fresh(addressing, 9).missed(8, &[7, 16], Wrong::Hashes(&[7]), 15);
    }
}

/// "for the climb they count as trusted": peaks that came and give the root.
#[test]
fn a_peak_that_came() {
    for addressing in METHODS {
        let mut scene = Scene::fresh(addressing, 7);
        scene.missed(0, &WITH_0, Wrong::Chunk, 3);
        scene.missed(0, &WITH_0, Wrong::Hashes(&[2]), 3);
        scene.missed(0, &WITH_0, Wrong::Both(&[5]), 3);
        scene.missed(3, &[3, 1, 9, 4, 12], Wrong::Chunk, 3);
        scene.missed(4, &[3, 9, 10, 12], Wrong::Chunk, 9);
        scene.missed(5, &[3, 9, 8, 12], Wrong::Hashes(&[8]), 9);
        scene.missed(6, &[3, 9, 12], Wrong::Chunk, 12);
    }
}

/// With chunk 0 stored, its leaf, node 1, the siblings 2 and 5, and the peaks are
/// trusted.
#[test]
fn a_node_trusted_before() {
    for addressing in METHODS {
        let mut scene = Scene::fresh(addressing, 7);
        scene.taken(0, &WITH_0, Wrong::Nothing);
        scene.missed(1, &[], Wrong::Chunk, 2);
        scene.missed(1, &[3, 5, 9, 0, 12], Wrong::Both(&[3, 5, 9, 0, 12]), 2);
        scene.missed(2, &[6], Wrong::Chunk, 5);
        scene.missed(3, &[4], Wrong::Hashes(&[4]), 5);
        scene.missed(4, &[10], Wrong::Chunk, 9);
        scene.missed(6, &[], Wrong::Chunk, 12);
        // "2 needs leaf 6; 4 needs leaf 10", and no peak.
        scene.missing(2, &[], 6);
        scene.missing(2, &[3, 1, 9, 12], 6);
        scene.missing(4, &[], 10);
        // What is not needed is not looked at.
        scene.taken(1, &[3, 5, 9, 12], Wrong::Hashes(&[3, 5, 9, 12]));
    }
}

/// A chunk that is held is checked again, against its leaf.
#[test]
fn a_held_chunk_with_other_bytes() {
    for addressing in METHODS {
        let mut scene = Scene::fresh(addressing, 7);
        scene.taken(0, &WITH_0, Wrong::Nothing);
        scene.missed(0, &[], Wrong::Chunk, 0);
        scene.missed(0, &WITH_0, Wrong::Chunk, 0);
        scene.taken(0, &[], Wrong::Nothing);
        let mut whole = Scene::built(addressing, 7);
        for (chunk, leaf) in [(0, 0), (1, 2), (2, 4), (5, 10), (6, 12)] {
            whole.missed(chunk, &[], Wrong::Chunk, leaf);
        }
    }
}

/// "At the start the root alone is trusted; where N is a power of two it is the one
/// peak", so that no peak is needed, and a wrong one is not looked at.
#[test]
fn powers_of_two() {
    for addressing in METHODS {
        let mut one = Scene::fresh(addressing, 1);
        one.missed(0, &[], Wrong::Chunk, 0);
        one.missed(0, &[0], Wrong::Chunk, 0);
        one.taken(0, &[0], Wrong::Hashes(&[0]));
        one.missed(0, &[], Wrong::Chunk, 0);
        let mut two = Scene::fresh(addressing, 2);
        two.missing(0, &[1], 2);
        two.missing(1, &[], 0);
        two.missed(0, &[2], Wrong::Chunk, 1);
        let mut eight = Scene::fresh(addressing, 8);
        for node in [11, 5, 2] {
            eight.missing(0, &without(&[7, 11, 5, 2], &[node]), node);
            eight.missed(0, &[11, 5, 2], Wrong::Hashes(&[node]), 7);
        }
        eight.missing(0, &[], 11);
        eight.missing(0, &[11], 5);
        eight.missing(5, &[3, 8], 13);
        eight.missed(0, &[11, 5, 2], Wrong::Chunk, 7);
        eight.taken(0, &[7, 11, 5, 2], Wrong::Hashes(&[7]));
        eight.missed(4, &[13, 10], Wrong::Chunk, 11);
        // 256..511 is node 767; the root is 0..511.
        let mut most = Scene::fresh(addressing, 512);
        most.missing(0, &[], 767);
        let siblings = [767, 383, 191, 95, 47, 23, 11, 5, 2];
        most.missing(0, &siblings[..8], 2);
        most.missed(0, &siblings, Wrong::Chunk, 511);
    }
}
