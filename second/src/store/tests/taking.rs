//! Taking chunks.

use super::{wrong, Pack, SEVEN};
use crate::sha256::sha256;
use crate::store::Store;

/// The nodes that go out with chunk 0 of seven.
pub(super) const WITH_CHUNK_0: [u64; 5] = [3, 5, 9, 2, 12];

/// Seven chunks of which chunk 0 has been taken.
fn seven_with_chunk_0() -> Pack {
    let mut pack = Pack::new(SEVEN);
    assert_eq!(pack.take(0, &WITH_CHUNK_0), 0);
    pack
}

/// "Range 6..6 with N=7 taken, 7..7: 7", and trap 82: 7 before 8.
#[test]
fn trap_82_chunks_past_the_end() {
    let mut pack = Pack::new(SEVEN);
    for number in [7, 8, 0x8000_0000, u32::MAX] {
        assert_eq!(pack.offer_past(number, &[]), 7);
        assert_eq!(pack.offer_past(number, &[0; 1024]), 7);
    }
    assert_eq!(pack.take(6, &[3, 9, 12]), 0);
}

impl Pack {
    /// Takes a chunk that the pack does not have.
    fn offer_past(&mut self, number: u32, bytes: &[u8]) -> u8 {
        let before = self.store.clone();
        let (answer, node) = self.store.take(number, bytes, &self.hashes(&WITH_CHUNK_0));
        super::assert_same(&self.store, &before);
        assert_eq!(node, None);
        answer
    }
}

#[test]
fn trap_84_length_before_hashes_and_values() {
    let mut pack = Pack::new(SEVEN);
    let long = [pack.chunk(0), vec![0]].concat();
    let short = pack.chunk(0)[..1023].to_vec();
    for bytes in [&long, &short, &vec![]] {
        assert_eq!(pack.offer(0, bytes, &[]), 8);
        let right = pack.hashes(&WITH_CHUNK_0);
        assert_eq!(pack.offer(0, bytes, &right), 8);
        assert_eq!(pack.offer(0, bytes, &wrong(WITH_CHUNK_0)), 8);
    }
}

#[test]
fn trap_85_each_chunk_has_its_own_length() {
    let mut pack = Pack::new(SEVEN);
    let peaks = pack.hashes(&[3, 9, 12]);
    let padded = [pack.chunk(6), vec![0; 6]].concat();
    assert_eq!(padded.len(), 1_024);
    assert_eq!(pack.offer(6, &padded, &peaks), 8);
    let cut = pack.chunk(0)[..1_018].to_vec();
    let came = pack.hashes(&WITH_CHUNK_0);
    assert_eq!(pack.offer(0, &cut, &came), 8);
}

#[test]
fn trap_86_a_missing_sibling_before_peaks_that_miss_the_root() {
    let mut pack = Pack::new(SEVEN);
    let chunk = pack.chunk(0);
    let came = [wrong([3, 9, 12]), pack.hashes(&[5])].concat();
    assert_eq!(pack.offer(0, &chunk, &came), 9);
    let came = [came, pack.hashes(&[2])].concat();
    assert_eq!(pack.offer(0, &chunk, &came), 10);
}

#[test]
fn trap_87_a_missing_peak_before_a_wrong_chunk() {
    let mut pack = Pack::new(SEVEN);
    let damaged = pack.damaged(0);
    let came = pack.hashes(&[3, 5, 9, 2]);
    assert_eq!(pack.offer(0, &damaged, &came), 9);
}

#[test]
fn trap_88_all_must_come() {
    for missing in WITH_CHUNK_0 {
        let mut pack = Pack::new(SEVEN);
        let others: Vec<u64> = WITH_CHUNK_0.into_iter().filter(|&n| n != missing).collect();
        assert_eq!(pack.take(0, &others), 9, "without {missing}");
        assert_eq!(pack.trusted(), [7]);
        assert_eq!(pack.take(0, &WITH_CHUNK_0), 0);
    }
}

#[test]
fn trap_89_a_power_of_two_needs_no_peak() {
    let mut pack = Pack::new(8 * 1024);
    let chunk = pack.chunk(0);
    let came = [wrong([7]), pack.hashes(&[11, 5, 2])].concat();
    assert_eq!(pack.offer(0, &chunk, &came), 0);
    assert_eq!(pack.store.hash(7), pack.store.root());
    let mut pack = Pack::new(8 * 1024);
    assert_eq!(pack.take(0, &[11, 5, 2]), 0);
}

/// Table 1 of RFC 7574: the hashes that chunks 0, 1, .. of eight need.
#[test]
fn eight_chunks_in_order() {
    let needs: [&[u64]; 8] = [&[2, 5, 11], &[], &[6], &[], &[10, 13], &[], &[14], &[]];
    in_order_with_least_hashes(Pack::new(8 * 1024), &needs);
}

/// "N=7 taken in order, least hashes: chunk 0 the five above; 2 needs leaf 6;
/// 4 needs leaf 10; 1, 3, 5, 6 none."
#[test]
fn trap_108_seven_chunks_in_order() {
    let needs: [&[u64]; 7] = [&WITH_CHUNK_0, &[], &[6], &[], &[10], &[], &[]];
    assert_eq!(needs.map(<[u64]>::len), [5, 0, 1, 0, 1, 0, 0]);
    in_order_with_least_hashes(Pack::new(SEVEN), &needs);
}

/// Takes each chunk in order with these nodes' hashes, after refusals with any
/// one fewer.
fn in_order_with_least_hashes(mut pack: Pack, needs: &[&[u64]]) {
    for (number, nodes) in (0..).zip(needs) {
        for missing in 0..nodes.len() {
            let mut fewer = nodes.to_vec();
            fewer.remove(missing);
            assert_eq!(pack.take(number, &fewer), 9);
        }
        assert!(!pack.store.is_whole());
        assert_eq!(pack.store.held(), number as usize);
        assert_eq!(pack.take(number, nodes), 0, "chunk {number}");
    }
    assert!(pack.store.is_whole());
    assert!(pack.store.chunks().starts_with(&pack.content));
    assert!(pack
        .trusted()
        .iter()
        .all(|&n| *pack.store.hash(n) == pack.hash(n)));
}

#[test]
fn trap_90_one_chunk_alone() {
    for length in [1, 1_018, 1_024] {
        let mut pack = Pack::new(length);
        let damaged = pack.damaged(0);
        assert_eq!(*pack.store.root(), sha256(&pack.content));
        assert_eq!(pack.offer(0, &damaged, &[(0, sha256(&damaged))]), 10);
        assert_eq!(pack.take(0, &[]), 0);
        assert!(pack.store.is_whole());
        assert_eq!(pack.trusted(), [0]);
    }
}

#[test]
fn trap_91_a_chunk_that_is_its_own_peak() {
    let mut pack = Pack::new(SEVEN);
    assert_eq!(pack.take(6, &[3, 9, 12]), 0);
    assert_eq!(pack.trusted(), [3, 7, 9, 12]);
    assert_eq!(*pack.store.hash(12), pack.hash(12));
    let mut pack = Pack::new(SEVEN);
    let damaged = pack.damaged(6);
    let came = pack.hashes(&[3, 9, 12]);
    assert_eq!(pack.offer(6, &damaged, &came), 10);
    // Peaks that fit the damaged chunk miss the root.
    let came = [pack.hashes(&[3, 9]), vec![(12, sha256(&damaged))]].concat();
    assert_eq!(pack.offer(6, &damaged, &came), 10);
}

#[test]
fn trap_92_good_peaks_of_a_failed_chunk_are_not_kept() {
    let mut pack = Pack::new(SEVEN);
    let damaged = pack.damaged(0);
    let came = pack.hashes(&WITH_CHUNK_0);
    assert_eq!(pack.offer(0, &damaged, &came), 10);
    assert_eq!(pack.take(0, &[5, 2]), 9);
    assert_eq!(pack.take(0, &WITH_CHUNK_0), 0);
}

#[test]
fn trap_93_one_wrong_hash_and_nothing_is_kept() {
    for place in 0..WITH_CHUNK_0.len() {
        for byte in [0, 31] {
            let mut pack = Pack::new(SEVEN);
            let chunk = pack.chunk(0);
            let mut came = pack.hashes(&WITH_CHUNK_0);
            came[place].1[byte] ^= 0x80;
            assert_eq!(pack.offer(0, &chunk, &came), 10);
            assert_eq!(pack.trusted(), [7]);
        }
    }
}

#[test]
fn trap_94_trusted_peaks_are_not_read_again() {
    let mut pack = seven_with_chunk_0();
    let chunk = pack.chunk(2);
    let came = [wrong([3, 9, 12]), pack.hashes(&[6])].concat();
    assert_eq!(pack.offer(2, &chunk, &came), 0);
    for peak in [3, 9, 12] {
        assert_eq!(*pack.store.hash(peak), pack.hash(peak));
    }
}

#[test]
fn trap_95_hashes_not_needed_are_not_looked_at() {
    // Chunk 2 climbs to node 5, trusted with chunk 0, and needs leaf 6 alone.
    let mut pack = seven_with_chunk_0();
    let chunk = pack.chunk(2);
    let came = [wrong((0..16).filter(|&n| n != 6)), pack.hashes(&[6])].concat();
    assert_eq!(pack.offer(2, &chunk, &came), 0);
    assert_eq!(pack.trusted(), [0, 1, 2, 3, 4, 5, 6, 7, 9, 12]);
    // Chunk 0 under the root alone, with its own leaf and others wrong.
    let mut pack = Pack::new(SEVEN);
    let chunk = pack.chunk(0);
    let others = (0..16).filter(|n| !WITH_CHUNK_0.contains(n));
    let came = [wrong(others), pack.hashes(&WITH_CHUNK_0)].concat();
    assert_eq!(pack.offer(0, &chunk, &came), 0);
    assert_eq!(pack.trusted(), [0, 1, 2, 3, 5, 7, 9, 12]);
    // Numbers that no room has a place for.
    let came = wrong([16, 1 << 32, u64::MAX]);
    let chunk = pack.chunk(1);
    assert_eq!(pack.offer(1, &chunk, &came), 0);
}

#[test]
fn trap_96_a_leaf_trusted_as_a_sibling() {
    let mut pack = seven_with_chunk_0();
    assert!(pack.store.trusts(2) && !pack.store.holds(1));
    let damaged = pack.damaged(1);
    assert_eq!(pack.offer(1, &damaged, &[]), 10);
    let came = pack.hashes(&[0, 1, 3, 5, 7, 9, 12]);
    assert_eq!(pack.offer(1, &damaged, &came), 10);
    assert_eq!(pack.take(1, &[]), 0);
    assert!(pack.store.holds(1));
}

#[test]
fn trap_97_the_trusted_leaf_counts() {
    let mut pack = seven_with_chunk_0();
    let damaged = pack.damaged(1);
    assert_eq!(pack.offer(1, &damaged, &[(2, sha256(&damaged))]), 10);
}

#[test]
fn trap_98_a_held_chunk_again() {
    let mut pack = seven_with_chunk_0();
    assert_eq!(pack.take(0, &[]), 0);
    assert_eq!(pack.take(0, &WITH_CHUNK_0), 0);
    assert_eq!(pack.store.held(), 1);
}

#[test]
fn trap_99_a_held_chunk_is_checked_again() {
    let mut pack = seven_with_chunk_0();
    let [damaged, short] = [pack.damaged(0), pack.chunk(0)[..1023].to_vec()];
    for nodes in [&WITH_CHUNK_0[..], &[]] {
        let came = pack.hashes(nodes);
        assert_eq!(pack.offer(0, &damaged, &came), 10);
        assert_eq!(pack.offer(0, &short, &came), 8);
    }
}

#[test]
fn trap_100_a_held_chunk_with_wrong_hashes() {
    let mut pack = seven_with_chunk_0();
    let chunk = pack.chunk(0);
    assert_eq!(pack.offer(0, &chunk, &wrong(1..16)), 0);
}

/// A built store checks its chunks too.
#[test]
fn a_built_store_takes_its_own_chunks() {
    let mut pack = Pack::new(SEVEN);
    pack.store = Store::build(&pack.content).unwrap();
    for number in 0..7 {
        assert_eq!(pack.take(number, &[]), 0);
        let damaged = pack.damaged(number);
        assert_eq!(pack.offer(number, &damaged, &[]), 10);
    }
}
