//! The search against cases worked out by hand from 02's No. 2, and against a
//! plain one, bit by bit.

use super::*;
use crate::random::Random;

/// The number of chunks, the held ones, one of these, and the interval for it.
type Case<'c> = (u32, &'c [u32], u32, (u32, u32));

/// The map of `count` chunks that holds these; the words end with the last one's.
fn map(count: u32, held: impl IntoIterator<Item = u32>) -> Vec<u32> {
    let mut map = vec![0; count.div_ceil(32) as usize];
    for chunk in held {
        map[chunk as usize / 32] |= 1 << (chunk % 32);
    }
    map
}

/// A map as it is, and with a word more in which the two bits past the last chunk's
/// or all of them are set.
fn with_junk(count: u32, map: Vec<u32>) -> [Vec<u32>; 3] {
    let longer = [&map[..], &[0]].concat();
    let [two, all] = [count + 2, 32 * longer.len() as u32].map(|end| {
        let mut junk = longer.clone();
        for place in count..end {
            junk[place as usize / 32] |= 1 << (place % 32);
        }
        junk
    });
    [map, two, all]
}

#[test]
fn runs_by_hand() {
    let cases: [Case; 13] = [
        // Alone, joined, and any chunk of the run.
        (7, &[0], 0, (0, 0)),
        (7, &[0, 2], 2, (2, 2)),
        (7, &[0, 1, 2], 0, (0, 2)),
        (7, &[0, 1, 2], 1, (0, 2)),
        (7, &[0, 1, 2], 2, (0, 2)),
        // Gaps on both sides.
        (7, &[0, 2, 3, 5, 6], 2, (2, 3)),
        (7, &[0, 2, 3, 5, 6], 0, (0, 0)),
        // The last chunk.
        (7, &[0, 2, 3, 5, 6], 6, (5, 6)),
        (7, &[6], 6, (6, 6)),
        // Over the border of two words, and beside it.
        (33, &[30, 31, 32], 31, (30, 32)),
        (64, &[31, 32], 32, (31, 32)),
        (64, &[31, 33], 33, (33, 33)),
        (64, &[30, 31, 33], 31, (30, 31)),
    ];
    for (count, held, chunk, run) in cases {
        for map in with_junk(count, map(count, held.iter().copied())) {
            assert_eq!(longest_run(&map, count, chunk), run, "{held:?}");
        }
    }
}

/// Every chunk of a whole pack names it all under ranges; one missing chunk parts
/// it.
#[test]
fn whole_packs_by_hand() {
    for count in [1, 31, 32, 33, 63, 64, 65, 512, 65_536] {
        for map in with_junk(count, map(count, 0..count)) {
            for chunk in (0..count).step_by(31).chain([count - 1]) {
                assert_eq!(longest_run(&map, count, chunk), (0, count - 1));
            }
        }
    }
    for missing in [1, 31, 32, 33, 255, 256, 32_767, 65_534] {
        let map = map(65_536, (0..65_536).filter(|&chunk| chunk != missing));
        for chunk in [0, missing - 1] {
            assert_eq!(longest_run(&map, 65_536, chunk), (0, missing - 1));
        }
        for chunk in [missing + 1, 65_535] {
            assert_eq!(longest_run(&map, 65_536, chunk), (missing + 1, 65_535));
        }
    }
}

#[test]
fn subtrees_by_hand() {
    let all = |count: u32| (0..count).collect::<Vec<_>>();
    let cases: [Case; 16] = [
        // 1 and 2 are no node's; 0 and 1 are node 1's, 2 and 3 node 5's.
        (4, &[1, 2], 1, (1, 1)),
        (4, &[1, 2], 2, (2, 2)),
        (4, &[0, 1], 0, (0, 1)),
        (4, &[0, 1], 1, (0, 1)),
        (4, &[0, 1, 2], 2, (2, 2)),
        (4, &[0, 2, 3], 3, (2, 3)),
        (4, &all(4), 2, (0, 3)),
        // Node 9 reaches past five chunks, nodes 13 and 11 past seven.
        (5, &all(5), 4, (4, 4)),
        (5, &all(5), 3, (0, 3)),
        (7, &all(7), 6, (6, 6)),
        (7, &all(7), 4, (4, 5)),
        (7, &all(7), 0, (0, 3)),
        (8, &all(8), 6, (0, 7)),
        // Node 63 covers 0..63, node 31 the first half, node 95 the other.
        (64, &all(64), 40, (0, 63)),
        (64, &all(63), 40, (32, 47)),
        (65, &all(65), 64, (64, 64)),
    ];
    for (count, held, chunk, subtree) in cases {
        for map in with_junk(count, map(count, held.iter().copied())) {
            assert_eq!(largest_subtree(&map, count, chunk), subtree, "{held:?}");
        }
    }
}

/// The peaks of a whole pack are the largest subtrees in it: for 65,535 chunks
/// 0..32767, 32768..49151 and so on to 65534 alone. Without chunk 40,000 of 65,536
/// no node over it counts.
#[test]
fn large_subtrees_by_hand() {
    for (chunk, subtree) in [
        (0, (0, 32_767)),
        (32_767, (0, 32_767)),
        (32_768, (32_768, 49_151)),
        (65_504, (65_504, 65_519)),
        (65_533, (65_532, 65_533)),
        (65_534, (65_534, 65_534)),
    ] {
        for map in with_junk(65_535, map(65_535, 0..65_535)) {
            assert_eq!(largest_subtree(&map, 65_535, chunk), subtree);
        }
    }
    let map = map(65_536, (0..65_536).filter(|&chunk| chunk != 40_000));
    for (chunk, subtree) in [
        (9, (0, 32_767)),
        (65_535, (49_152, 65_535)),
        (41_000, (40_960, 49_151)),
        (39_999, (39_936, 39_999)),
        (40_001, (40_001, 40_001)),
        (40_040, (40_032, 40_063)),
    ] {
        assert_eq!(largest_subtree(&map, 65_536, chunk), subtree);
    }
}

/// Chunk by chunk, down and up.
fn plain_run(map: &[u32], count: u32, chunk: u32) -> (u32, u32) {
    let (mut first, mut last) = (chunk, chunk);
    while first > 0 && holds(map, first - 1) {
        first -= 1;
    }
    while last + 1 < count && holds(map, last + 1) {
        last += 1;
    }
    (first, last)
}

/// Node by node, from the leaf to the last one with all its chunks.
fn plain_subtree(map: &[u32], count: u32, chunk: u32) -> (u32, u32) {
    let node = |width: u32| (chunk / width * width, chunk / width * width + (width - 1));
    let is_held =
        |&(first, last): &(u32, u32)| last < count && (first..=last).all(|chunk| holds(map, chunk));
    let widths = (0..=16).map(|height| 1 << height);
    widths.map(node).take_while(is_held).last().unwrap()
}

fn holds(map: &[u32], chunk: u32) -> bool {
    map[chunk as usize / 32] >> (chunk % 32) & 1 == 1
}

/// Words with few zeros, with few ones, of all ones, and with any bits.
fn any_map(random: &mut Random, words: usize) -> Vec<u32> {
    let share = 1 + random.below(8);
    let word = || {
        let bits = [random.next(), random.next(), random.next()].map(|bits| bits as u32);
        match random.below(share) {
            0 => bits[0] | bits[1] | bits[2],
            1 => bits[0] & bits[1],
            2 => bits[0],
            _ => ONES,
        }
    };
    std::iter::repeat_with(word).take(words).collect()
}

/// Checks some held chunks of a map, or all.
fn compare(map: &[u32], count: u32, chunks: impl Iterator<Item = u32>) {
    for chunk in chunks.filter(|&chunk| holds(map, chunk)) {
        let run = plain_run(map, count, chunk);
        let subtree = plain_subtree(map, count, chunk);
        for (addressing, interval) in [(Addressing::Ranges, run), (Addressing::Bins, subtree)] {
            let found = biggest_interval(addressing, map, count, chunk);
            assert_eq!(found, interval, "{addressing:?}: {chunk} of {count}");
        }
    }
}

/// Every chunk of many maps; what is past the last one is whatever it is.
#[test]
fn as_the_plain_search_finds() {
    let mut random = Random::new(2);
    let short = (1..=35).chain([63, 64, 65, 66, 95, 96, 97, 127, 128, 129]);
    let longer = [255, 256, 257, 288, 480, 511, 512, 513];
    let times = short.map(|count| (count, 1_000));
    for (count, times) in times.chain(longer.map(|count| (count, 300))) {
        for _ in 0..times {
            let words = u32::div_ceil(count, 32) as usize + random.below(2);
            compare(&any_map(&mut random, words), count, 0..count);
        }
    }
}

/// The same in long maps with few zeros, at chunks beside these and at others.
#[test]
fn as_the_plain_search_finds_in_long_maps() {
    let mut random = Random::new(3);
    for count in [16_384, 65_503, 65_504, 65_505, 65_535, 65_536] {
        for zeros in [0, 1, 2, 5, 20] {
            let mut map = vec![ONES; 2048];
            let mut chunks = vec![0, count - 1];
            for _ in 0..zeros {
                let zero = random.below(count as usize) as u32;
                map[zero as usize / 32] &= !(1 << (zero % 32));
                chunks.extend([zero.max(1) - 1, (zero + 1).min(count - 1)]);
                chunks.push(random.below(count as usize) as u32);
            }
            compare(&map, count, chunks.into_iter());
        }
    }
}
