//! The node that 9 and 10 name (02, No. 3). Every node here is found by hand, in
//! the trees over seven and over eleven chunks:
//!
//! ```text
//! height 3             7
//! height 2       3           11
//! height 1    1     5     9      13     17
//! height 0   0 2   4 6   8 10  12 14  16 18  20
//! ```
//!
//! Seven have the root 7 and the peaks 3, 9, 12; eleven the root 15 and the peaks
//! 7, 17, 20.

use super::taking::WITH_CHUNK_0;
use super::{wrong, Pack, SEVEN};
use crate::store::{NodeHash, Store};

const ELEVEN: u32 = 11 * 1024;

/// For a chunk into a fresh store: the nodes that go out with it, sorted by height
/// falling, then by first chunk rising.
const SENT: [(u32, u32, &[u64]); 10] = [
    (SEVEN, 0, &[3, 5, 9, 2, 12]),
    (SEVEN, 1, &[3, 5, 9, 0, 12]),
    (SEVEN, 2, &[3, 1, 9, 6, 12]),
    (SEVEN, 4, &[3, 9, 10, 12]),
    (SEVEN, 5, &[3, 9, 8, 12]),
    (SEVEN, 6, &[3, 9, 12]),
    (ELEVEN, 3, &[7, 11, 1, 17, 4, 20]),
    (ELEVEN, 4, &[7, 3, 13, 17, 10, 20]),
    (ELEVEN, 8, &[7, 17, 18, 20]),
    (ELEVEN, 10, &[7, 17, 20]),
];

impl Pack {
    /// What a right chunk gets with the right hashes of these nodes.
    fn with(&mut self, number: u32, nodes: &[u64]) -> (u8, Option<u64>) {
        self.named(number, &self.chunk(number), &self.hashes(nodes))
    }

    /// What a chunk with a wrong bit gets with the right hashes of these nodes.
    fn damaged_with(&mut self, number: u32, nodes: &[u64]) -> (u8, Option<u64>) {
        self.named(number, &self.damaged(number), &self.hashes(nodes))
    }
}

/// Nodes but for those of which this tells so.
fn without(nodes: &[u64], missing: impl Fn(u64) -> bool) -> Vec<u64> {
    nodes.iter().copied().filter(|&n| !missing(n)).collect()
}

#[test]
fn one_missing_names_itself() {
    for missing in WITH_CHUNK_0 {
        let others = without(&WITH_CHUNK_0, |node| node == missing);
        assert_eq!(Pack::new(SEVEN).with(0, &others), (9, Some(missing)));
    }
}

#[test]
fn of_several_missing_the_first_in_the_sending_order() {
    let cases: [(&[u64], u64); 12] = [
        // Height 1 both: chunks 2..3 stand before 4..5.
        (&[5, 9], 5),
        // Height 0 both: chunk 1 stands before chunk 6.
        (&[2, 12], 2),
        // A higher one goes first, wherever it stands.
        (&[2, 9], 9),
        (&[5, 12], 5),
        (&[2, 5], 5),
        (&[9, 12], 9),
        (&[3, 5], 3),
        (&[3, 12], 3),
        (&[2, 9, 12], 9),
        (&[2, 5, 9, 12], 5),
        (&[3, 9, 12], 3),
        (&[2, 3, 5, 9, 12], 3),
    ];
    for (missing, first) in cases {
        let others = without(&WITH_CHUNK_0, |node| missing.contains(&node));
        assert_eq!(Pack::new(SEVEN).with(0, &others), (9, Some(first)));
    }
}

/// Any nodes missing, for chunks with siblings left and right of their own nodes,
/// and for those that are peaks; the others come in any order.
#[test]
fn any_missing() {
    for (length, number, sent) in SENT {
        let mut pack = Pack::new(length);
        for mask in 1..1_u32 << sent.len() {
            let missing = |at: usize| mask >> at & 1 == 1;
            let first = (0..sent.len()).find(|&at| missing(at)).unwrap();
            let others = (0..sent.len()).filter(|&at| !missing(at));
            let mut others: Vec<u64> = others.map(|at| sent[at]).collect();
            for _ in 0..2 {
                assert_eq!(pack.with(number, &others), (9, Some(sent[first])));
                others.reverse();
            }
        }
        assert_eq!(pack.with(number, sent), (0, None));
    }
}

/// What came wrong is not looked at while a hash is missing.
#[test]
fn missing_before_wrong() {
    let mut pack = Pack::new(SEVEN);
    let damaged = pack.damaged(0);
    assert_eq!(pack.named(0, &damaged, &wrong([3, 9, 2, 12])), (9, Some(5)));
    assert_eq!(pack.named(0, &damaged, &wrong([5, 2])), (9, Some(3)));
    assert_eq!(pack.named(0, &damaged, &wrong([3, 5, 9, 2])), (9, Some(12)));
    // Nodes that are not needed do not stand for those that are.
    let others = [0, 1, 4, 6, 7, 8, 10, 11, 13, 14];
    assert_eq!(pack.with(0, &others), (9, Some(3)));
}

/// Only needed nodes are named.
#[test]
fn missing_below_what_is_trusted() {
    let mut pack = Pack::new(SEVEN);
    assert_eq!(pack.with(0, &WITH_CHUNK_0), (0, None));
    // Node 5 is trusted, so that of chunk 2's five nodes leaf 6 alone is needed.
    assert_eq!(pack.with(2, &[]), (9, Some(6)));
    assert_eq!(pack.with(2, &[3, 1, 9, 12]), (9, Some(6)));
    assert_eq!(pack.with(3, &[]), (9, Some(4)));
    assert_eq!(pack.with(4, &[]), (9, Some(10)));
    assert_eq!(pack.with(5, &[3, 9, 12]), (9, Some(8)));
    // Eight chunks: the peak is the root, which is trusted from the start.
    let mut pack = Pack::new(8 * 1024);
    assert_eq!(pack.with(0, &[]), (9, Some(11)));
    assert_eq!(pack.with(0, &[11]), (9, Some(5)));
    assert_eq!(pack.with(0, &[11, 5]), (9, Some(2)));
    assert_eq!(pack.with(5, &[7]), (9, Some(3)));
    assert_eq!(pack.with(5, &[3]), (9, Some(13)));
    assert_eq!(pack.with(5, &[13, 3]), (9, Some(8)));
    assert_eq!(pack.with(0, &[11, 5, 2]), (0, None));
    // Node 11 is trusted: 3 is needed no more.
    assert_eq!(pack.with(5, &[]), (9, Some(13)));
}

/// The peaks do not give the root, whatever else is wrong.
#[test]
fn wrong_peaks_name_the_root() {
    for (length, root, peaks) in [(SEVEN, 7, [3, 9, 12]), (ELEVEN, 15, [7, 17, 20])] {
        let of_length = SENT.into_iter().find(|sent| sent.0 == length);
        let (_, number, sent) = of_length.unwrap();
        for peak in peaks {
            let mut pack = Pack::new(length);
            let others = without(sent, |node| node == peak);
            let came = [pack.hashes(&others), wrong([peak])].concat();
            let [chunk, damaged] = [pack.chunk(number), pack.damaged(number)];
            assert_eq!(pack.named(number, &chunk, &came), (10, Some(root)));
            assert_eq!(pack.named(number, &damaged, &came), (10, Some(root)));
        }
    }
}

/// Right peaks in the datagram count as trusted: the chunk's own one is named.
#[test]
fn a_peak_that_came_is_missed() {
    let mut pack = Pack::new(SEVEN);
    assert_eq!(pack.damaged_with(0, &WITH_CHUNK_0), (10, Some(3)));
    assert_eq!(pack.damaged_with(5, &[3, 9, 8, 12]), (10, Some(9)));
    assert_eq!(pack.damaged_with(6, &[3, 9, 12]), (10, Some(12)));
    let chunk = pack.chunk(0);
    for sibling in [2, 5] {
        let others = without(&WITH_CHUNK_0, |node| node == sibling);
        let came = [pack.hashes(&others), wrong([sibling])].concat();
        assert_eq!(pack.named(0, &chunk, &came), (10, Some(3)));
    }
    let mut pack = Pack::new(ELEVEN);
    assert_eq!(pack.damaged_with(3, SENT[6].2), (10, Some(7)));
    assert_eq!(pack.damaged_with(8, &[7, 17, 18, 20]), (10, Some(17)));
    assert_eq!(pack.damaged_with(10, &[7, 17, 20]), (10, Some(20)));
}

/// The first trusted node at or above the leaf, in a store with chunk 0.
#[test]
fn a_node_trusted_before_is_missed() {
    let mut pack = Pack::new(SEVEN);
    assert_eq!(pack.with(0, &WITH_CHUNK_0), (0, None));
    assert_eq!(pack.damaged_with(1, &[]), (10, Some(2)));
    assert_eq!(pack.damaged_with(1, &[3, 5, 9, 0, 12]), (10, Some(2)));
    assert_eq!(pack.damaged_with(2, &[6]), (10, Some(5)));
    assert_eq!(pack.damaged_with(3, &[4]), (10, Some(5)));
    assert_eq!(pack.damaged_with(4, &[10]), (10, Some(9)));
    assert_eq!(pack.damaged_with(6, &[]), (10, Some(12)));
    // Chunk 0 is held; its leaf is trusted.
    assert_eq!(pack.damaged_with(0, &WITH_CHUNK_0), (10, Some(0)));
    // A right chunk with a wrong sibling, and peaks that are not needed.
    let chunk = pack.chunk(2);
    let came: Vec<NodeHash> = wrong([3, 9, 12, 6]);
    assert_eq!(pack.named(2, &chunk, &came), (10, Some(5)));
    // All leaves are trusted.
    pack.store = Store::build(&pack.content).unwrap();
    for (number, leaf) in [(0, 0), (1, 2), (5, 10), (6, 12)] {
        assert_eq!(pack.damaged_with(number, &[]), (10, Some(leaf)));
    }
}

/// The root where it is the one peak; of one chunk it is the leaf.
#[test]
fn the_root_is_missed() {
    let mut pack = Pack::new(8 * 1024);
    assert_eq!(pack.damaged_with(0, &[11, 5, 2]), (10, Some(7)));
    assert_eq!(pack.damaged_with(7, &[3, 9, 12]), (10, Some(7)));
    for length in [1, 1024] {
        let mut pack = Pack::new(length);
        assert_eq!(pack.damaged_with(0, &[]), (10, Some(0)));
        assert_eq!(pack.damaged_with(0, &[0]), (10, Some(0)));
        assert_eq!(pack.with(0, &[]), (0, None));
        assert_eq!(pack.damaged_with(0, &[]), (10, Some(0)));
    }
}

#[test]
fn other_numbers_name_no_node() {
    let mut pack = Pack::new(SEVEN);
    assert_eq!(pack.store.take(7, &[0; 1024], &[]), (7, None));
    assert_eq!(pack.store.take(0, &[0; 1023], &[]), (8, None));
    assert_eq!(pack.store.take(0, &[0; 1023], &wrong([3])), (8, None));
    assert_eq!(pack.with(0, &WITH_CHUNK_0), (0, None));
    assert_eq!(pack.with(0, &[]), (0, None));
}
