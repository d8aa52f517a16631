//! The numbers the papers give, and the definitions tried on many nodes.

use super::*;
use std::cmp::Reverse;

/// Figure 2 of RFC 7574: a parent, its children, and the chunks it covers.
const FIGURE_2: [(u64, [u64; 2], [u64; 2]); 7] = [
    (7, [3, 11], [0, 7]),
    (3, [1, 5], [0, 3]),
    (11, [9, 13], [4, 7]),
    (1, [0, 2], [0, 1]),
    (5, [4, 6], [2, 3]),
    (9, [8, 10], [4, 5]),
    (13, [12, 14], [6, 7]),
];

#[test]
fn the_tree_of_figure_2() {
    for (node, [left, right], [first, last]) in FIGURE_2 {
        assert_eq!([parent(left), parent(right)], [node, node]);
        assert_eq!([sibling(left), sibling(right)], [right, left]);
        assert_eq!([is_right(left), is_right(right)], [false, true]);
        assert_eq!([first_chunk(node), last_chunk(node)], [first, last]);
        assert_eq!(height(left) + 1, height(node));
        assert_eq!(height(right) + 1, height(node));
    }
    for chunk in 0..8 {
        assert_eq!(leaf(chunk), 2 * u64::from(chunk));
        assert_eq!(height(leaf(chunk)), 0);
        assert_eq!(first_chunk(leaf(chunk)), u64::from(chunk));
        assert_eq!(last_chunk(leaf(chunk)), u64::from(chunk));
    }
}

/// "Node 3 covers 0..3; 9 covers 4..5; 12 covers 6; 11 covers 4..7."
#[test]
fn tried_covers_both_ways() {
    for (node, first, last) in [(3, 0, 3), (9, 4, 5), (12, 6, 6), (11, 4, 7)] {
        assert_eq!(first_chunk(node), u64::from(first));
        assert_eq!(last_chunk(node), u64::from(last));
        assert_eq!(node_of_range(first, last), Some(node));
    }
}

/// A parent is halfway between its children (RFC 7574, 4.2), each of which
/// has its half of the chunks.
#[test]
fn a_parent_is_halfway_between_its_children() {
    for node in (0..1 << 12).chain((1 << 33) - (1 << 12)..1 << 33) {
        let (other, above) = (sibling(node), parent(node));
        assert_eq!(node + other, 2 * above);
        assert_eq!(sibling(other), node);
        assert_eq!(parent(other), above);
        assert_eq!(is_right(node), other < node);
        assert_eq!(height(other), height(node));
        assert_eq!(height(above), height(node) + 1);
        let (left, right) = (node.min(other), node.max(other));
        assert_eq!(first_chunk(above), first_chunk(left));
        assert_eq!(last_chunk(left) + 1, first_chunk(right));
        assert_eq!(last_chunk(right), last_chunk(above));
    }
}

/// "A node's height is the number of ones at the low end of its number. Node
/// b of height h covers 2^h chunks from (b - 2^h + 1) / 2."
#[test]
fn heights_and_covers_as_defined() {
    for node in 0..1u64 << 12 {
        let ones = (0..).take_while(|place| node >> place & 1 == 1).count();
        assert_eq!(height(node) as usize, ones);
        let width = 1u64 << ones;
        assert_eq!(2 * first_chunk(node) + width, node + 1);
        assert_eq!(last_chunk(node) + 1 - first_chunk(node), width);
    }
}

/// Every node is the node of the range it covers, and of no other one.
#[test]
fn ranges_are_nodes_exactly_where_a_node_covers_them() {
    for first in 0..=64 {
        for last in 0..=64 {
            let covers = |&node: &u64| {
                first_chunk(node) == u64::from(first) && last_chunk(node) == u64::from(last)
            };
            assert_eq!(node_of_range(first, last), (0..256).find(covers));
        }
    }
}

#[test]
fn ranges_of_any_two_words() {
    assert_eq!(node_of_range(0, u32::MAX), Some((1 << 32) - 1));
    assert_eq!(node_of_range(u32::MAX, u32::MAX), Some(2 * ((1 << 32) - 1)));
    // Trap 81: the leaf of this chunk is 2^32, which 32 bits do not hold.
    assert_eq!(node_of_range(0x8000_0000, 0x8000_0000), Some(1 << 32));
    // The two halves of 0..FFFFFFFF: 2^31 either side of its number.
    assert_eq!(node_of_range(0, 0x7fff_ffff), Some((1 << 31) - 1));
    assert_eq!(
        node_of_range(0x8000_0000, u32::MAX),
        Some((1 << 32) + (1 << 31) - 1)
    );
    for (first, last) in [
        (1, 2),
        (0, 2),
        (1, 0),
        (u32::MAX, 0),
        (u32::MAX, u32::MAX - 1),
        (1, u32::MAX),
        (0, u32::MAX - 1),
        (0x7fff_ffff, 0x8000_0000),
    ] {
        assert_eq!(node_of_range(first, last), None, "{first}..{last}");
    }
}

/// "L=7,162 gives N=7, last chunk 1,018 bytes; L=1,024 gives 1; 1,025 gives
/// 2", and the ends of an order: 1 to 524,288 bytes are 1 to 512 chunks.
#[test]
fn tried_lengths() {
    for (length, count, last_size) in [
        (7_162, 7, 1_018),
        (1_024, 1, 1_024),
        (1_025, 2, 1),
        (1, 1, 1),
        (524_288, 512, 1_024),
    ] {
        assert_eq!(chunk_count(length), count);
        assert_eq!(chunk_size(length, count - 1), last_size);
        for chunk in 0..count - 1 {
            assert_eq!(chunk_size(length, chunk), 1_024);
        }
        for past in [count, count + 1, 0x003f_ffff, 0x0040_0000, u32::MAX] {
            assert_eq!(chunk_size(length, past), 0);
        }
    }
    // The longest length a word can say.
    assert_eq!(chunk_count(u32::MAX), 1 << 22);
    assert_eq!(chunk_size(u32::MAX, (1 << 22) - 1), 1_023);
    assert_eq!(chunk_size(u32::MAX, 1 << 22), 0);
}

/// "The tree is the least one with at least N leaves"; its root is W - 1 for
/// W leaf places (trap 114: N=7: 7; N=9: 15).
#[test]
fn the_least_tree() {
    for (count, places, top) in [
        (1, 1, 0),
        (2, 2, 1),
        (3, 4, 3),
        (7, 8, 7),
        (8, 8, 7),
        (9, 16, 15),
        (512, 512, 511),
    ] {
        assert_eq!(leaf_places(count), places);
        assert_eq!(root(count), top);
    }
    for count in 1..=512 {
        let top = root(count);
        assert_eq!(first_chunk(top), 0);
        assert_eq!(last_chunk(top) + 1, u64::from(leaf_places(count)));
        assert!(leaf_places(count) >= count);
        assert!(leaf_places(count) / 2 < count);
    }
}

/// The node of each height over a chunk is the parent of the one below it.
#[test]
fn nodes_over_a_chunk() {
    for chunk in (0..100).chain([0x7fff_ffff, 0x8000_0000, u32::MAX]) {
        let mut node = leaf(chunk);
        for height in 0..=32 {
            assert_eq!(over(chunk, height), node, "{chunk} {height}");
            node = parent(node);
        }
    }
}

/// "N=7 has peaks 3, 9, 12; N=8 has 7; N=1 has 0; N=5 has 3, 8."
#[test]
fn tried_peaks() {
    assert_eq!(peaks(7), [3, 9, 12]);
    assert_eq!(peaks(8), [7]);
    assert_eq!(peaks(1), [0]);
    assert_eq!(peaks(5), [3, 8]);
    assert_eq!(peaks(0), []);
}

/// "The whole subtrees that make up 0..N-1 from left to right, one per one bit
/// of N, largest first." A peak that is not the root has a sibling that is not
/// whole (RFC 7574, 5.6.1).
#[test]
fn peaks_as_defined() {
    for count in 1..=1024 {
        let peaks = peaks(count);
        assert_eq!(peaks.len(), count.count_ones() as usize);
        assert!(peaks.is_sorted_by(|&a, &b| height(a) > height(b)));
        let mut next = 0;
        for &peak in &peaks {
            assert_eq!(first_chunk(peak), next);
            next = last_chunk(peak) + 1;
            assert!(peak == root(count) || last_chunk(sibling(peak)) >= u64::from(count));
        }
        assert_eq!(next, u64::from(count));
        for chunk in 0..count {
            let peak = peaks[peak_over(&peaks, chunk)];
            assert!((first_chunk(peak)..=last_chunk(peak)).contains(&u64::from(chunk)));
            assert_eq!(height(peak), peak_height(count, chunk));
        }
    }
}

/// "For N=7, chunk 0 goes out with 0..3, 2..3, 4..5, 1..1, 6..6."
#[test]
fn tried_sending_order() {
    let ranges: Vec<_> = sending_order(7, 0)
        .into_iter()
        .map(|node| (first_chunk(node), last_chunk(node)))
        .collect();
    assert_eq!(ranges, [(0, 3), (2, 3), (4, 5), (1, 1), (6, 6)]);
}

/// "Write for a power of two sends the root as the one peak; N=1: INTEGRITY
/// 0..0" (trap 119); chunk 0 of eight has the siblings 2, 5, 11 (RFC 7574,
/// table 1); chunk 6 of seven is its own peak (trap 91).
#[test]
fn sending_order_at_the_ends() {
    assert_eq!(sending_order(1, 0), [0]);
    assert_eq!(sending_order(8, 0), [7, 11, 5, 2]);
    assert_eq!(sending_order(7, 6), [3, 9, 12]);
}

/// Which nodes go out, said by what they cover: the peaks, and in the chunk's
/// peak every node that does not cover the chunk but whose parent does.
#[test]
fn sending_order_as_defined() {
    for count in (1..=40).chain([63, 64, 65, 511, 512]) {
        let peaks = peaks(count);
        for chunk in 0..count {
            let covers = |node| (first_chunk(node)..=last_chunk(node)).contains(&u64::from(chunk));
            let below_peak = |node| {
                peaks.iter().any(|&peak| {
                    height(node) < height(peak)
                        && first_chunk(peak) <= first_chunk(node)
                        && last_chunk(node) <= last_chunk(peak)
                })
            };
            let mut wanted: Vec<u64> = (0..2 * u64::from(leaf_places(count)) - 1)
                .filter(|&node| {
                    let uncle = below_peak(node) && !covers(node) && covers(parent(node));
                    peaks.contains(&node) || uncle
                })
                .collect();
            // A stable sort: nodes of one height stay in rising order.
            wanted.sort_by_key(|&node| Reverse(height(node)));
            assert_eq!(sending_order(count, chunk), wanted, "{chunk} of {count}");
        }
    }
}
