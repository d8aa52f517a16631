//! Taking chunks: which hashes count, and what becomes trusted.

use super::taking::WITH_CHUNK_0;
use super::{Pack, SEVEN};
use crate::sha256::{node, sha256, Digest};
use crate::store::Store;
use crate::tree;

/// Trap 101, and the expected error of hashing two fillers: a root found so is
/// none for five chunks.
#[test]
fn trap_101_two_fillers_are_not_hashed() {
    let mut pack = Pack::new(5 * 1024);
    assert_eq!(pack.take(4, &[3, 8]), 0);
    let zero = [0; 32];
    let node_9 = node(&pack.hash(8), &zero);
    let hashed = node(&pack.hash(3), &node(&node_9, &node(&zero, &zero)));
    assert_eq!(
        answer_under(hashed, 5, &pack.chunk(4), 4, &pack.hashes(&[3, 8])),
        10
    );
    // Nor is a filler beside a real node passed over.
    let passed = node(&pack.hash(3), &node(&pack.hash(8), &zero));
    assert_eq!(
        answer_under(passed, 5, &pack.chunk(4), 4, &pack.hashes(&[3, 8])),
        10
    );
}

/// Trap 102: a peak of 32 zero bytes is no filler. No chunk is known for such
/// a hash, so the chunk taken is one below the other peak.
#[test]
fn trap_102_a_zero_peak_is_hashed() {
    let zero = [0; 32];
    let (chunk, other) = ([7; 1024], [9; 32]);
    let pair = node(&sha256(&chunk), &other);
    // N=3: peaks 1 and 4; node 5 is over leaf 4 and a filler.
    let came = [(1, pair), (4, zero), (2, other)];
    let root = node(&pair, &node(&zero, &zero));
    assert_eq!(answer_under(root, 3, &chunk, 0, &came), 0);
    assert_eq!(answer_under(node(&pair, &zero), 3, &chunk, 0, &came), 10);
    // N=6: peaks 3 and 9; node 11 is over 9 and the filler 13.
    let four = node(&pair, &other);
    let came = [(3, four), (9, zero), (2, other), (5, other)];
    let root = node(&four, &node(&zero, &zero));
    assert_eq!(answer_under(root, 6, &chunk, 0, &came), 0);
    assert_eq!(answer_under(node(&four, &zero), 6, &chunk, 0, &came), 10);
    // N=3 with the first peak zero: the root is over it and node 5.
    let came = [(1, zero), (4, sha256(&chunk))];
    let root = node(&zero, &node(&sha256(&chunk), &zero));
    assert_eq!(answer_under(root, 3, &chunk, 2, &came), 0);
}

/// The answer of a store of `count` whole chunks under this root.
fn answer_under(root: Digest, count: u32, chunk: &[u8], number: u32, came: &[(u64, Digest)]) -> u8 {
    let mut store = Store::start(root, 1024 * count).unwrap();
    store.take(number, chunk, came).0
}

/// Trap 103: every chunk of a tree has some siblings on its left and some on
/// its right.
#[test]
fn trap_103_left_then_right() {
    for number in 0..8 {
        let mut pack = Pack::new(8 * 1024);
        let order = tree::sending_order(8, number);
        assert_eq!(pack.take(number, &order), 0, "chunk {number}");
    }
    // Chunk 1 of two with both sides written out.
    let (left, right) = ([1; 32], [2; 1024]);
    let good = node(&left, &sha256(&right));
    let turned = node(&sha256(&right), &left);
    assert_eq!(answer_under(good, 2, &right, 1, &[(0, left)]), 0);
    assert_eq!(answer_under(turned, 2, &right, 1, &[(0, left)]), 10);
    assert_eq!(answer_under(turned, 2, &right, 0, &[(2, left)]), 0);
}

#[test]
fn trap_104_hashes_in_any_order() {
    for turn in 0..WITH_CHUNK_0.len() {
        let mut nodes = WITH_CHUNK_0;
        nodes.rotate_left(turn);
        assert_eq!(Pack::new(SEVEN).take(0, &nodes), 0);
        nodes.reverse();
        assert_eq!(Pack::new(SEVEN).take(0, &nodes), 0);
    }
}

/// Trap 105: what came with a refused chunk, or not needed with a good one, is
/// not there for the next.
#[test]
fn trap_105_hashes_that_came_earlier_are_not_kept() {
    let mut pack = Pack::new(SEVEN);
    assert_eq!(pack.take(0, &[3, 5, 9, 12]), 9);
    assert_eq!(pack.take(0, &[2]), 9);
    assert_eq!(pack.take(0, &[3, 5, 9, 2, 12, 6, 10]), 0);
    assert_eq!(pack.take(2, &[]), 9);
    assert_eq!(pack.take(4, &[]), 9);
}

/// Trap 107: the peaks 3, 9, 12, the leaf 0, the climbed node 1 and the
/// siblings 2 and 5, beside the root 7.
#[test]
fn trap_107_what_becomes_trusted() {
    let mut pack = Pack::new(SEVEN);
    let before = pack.store.clone();
    assert_eq!(pack.take(0, &[3, 5, 9, 2, 12, 4, 6, 8, 10, 1, 0]), 0);
    assert_eq!(pack.trusted(), [0, 1, 2, 3, 5, 7, 9, 12]);
    for node in 0..16 {
        let wanted = if pack.store.trusts(node) {
            pack.hash(node)
        } else {
            *before.hash(node)
        };
        assert_eq!(*pack.store.hash(node), wanted, "node {node}");
    }
    // Chunk 4 climbs to peak 9 and adds its leaf and its sibling.
    assert_eq!(pack.take(4, &[10, 13, 14]), 0);
    assert_eq!(pack.trusted(), [0, 1, 2, 3, 5, 7, 8, 9, 10, 12]);
}

/// "Believing a peer's size: for N=7 a lone peak 7 equal to the root 'proves'
/// eight chunks."
#[test]
fn a_lone_peak_is_not_believed() {
    let mut pack = Pack::new(SEVEN);
    assert_eq!(pack.take(0, &[7, 11, 5, 2]), 9);
    assert_eq!(pack.take(0, &[7]), 9);
}

/// Chunks in an order that leaps about, each with all that goes out with it:
/// in the end the tree is the whole store's.
#[test]
fn every_chunk_in_a_leaping_order() {
    for count in (1..=20).chain([31, 32, 33]) {
        let mut pack = Pack::new(1024 * count - 6);
        for k in 0..count {
            let number = 521 * k % count;
            let order = tree::sending_order(count, number);
            assert_eq!(pack.take(number, &order), 0);
        }
        let built = Store::build(&pack.content).unwrap();
        assert_eq!(pack.trusted(), super::trusted(&built));
        for node in pack.trusted() {
            assert_eq!(pack.store.hash(node), built.hash(node));
        }
        assert!(pack.store.chunks().starts_with(&pack.content));
        assert!(pack.store.is_whole());
    }
}
