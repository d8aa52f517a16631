//! The proved numbers of the hash tree against `second`'s: nodes, ranges,
//! lengths, peaks and sending orders. No expected value comes from the proved
//! code.

use harness::packets::{datagram, ranged, with_bin, EMPTY, EVERYTHING, INTEGRITY};
use harness::proved::tree as proved;
use harness::proved::wire::{layout, ENTRY_WORDS, LAID_WORDS};
use harness::random::Random;
use ppspp::calls;
use second::tree;
use second::wire::Addressing;

/// How many nodes, ranges and lengths are tried beside those named here.
const TIMES: u32 = 20_000;

/// Nodes far out: the roots over 2^31 and over 2^32 chunks, and the leaf just
/// left of the latter.
const FAR_NODES: [u32; 3] = [2_147_483_647, 4_294_967_294, 4_294_967_295];

/// Ranges at the end of what 32 bits can say.
const FAR_RANGES: [(u32, u32); 8] = [
    (0, 4_294_967_295),
    (4_294_967_295, 4_294_967_295),
    (2_147_483_648, 2_147_483_648),
    (2_147_483_648, 4_294_967_295),
    (0, 2_147_483_647),
    (2_147_483_647, 2_147_483_648),
    (4_294_967_295, 0),
    (2_147_483_646, 2_147_483_647),
];

/// Lengths of packs.
const LENGTHS: [u32; 10] = [
    1, 2, 1_023, 1_024, 1_025, 2_048, 7_162, 32_768, 524_287, 524_288,
];

/// The most chunks of a pack.
const MOST: u32 = 512;

/// Height, first and last chunk, parent and sibling; the height also of nodes
/// that need more bits.
#[test]
fn nodes() {
    let mut random = Random::new(1);
    let near = (0..=2_048).chain(FAR_NODES);
    let any: Vec<u32> = (0..TIMES).map(|_| any_node(&mut random)).collect();
    for node in near.chain(any) {
        let long = u64::from(node);
        let got = (
            proved::height(long),
            u64::from(proved::first(node)),
            u64::from(proved::last(node)),
            proved::parent(node),
            proved::sibling(node),
        );
        let wanted = (
            tree::height(long),
            tree::first_chunk(long),
            tree::last_chunk(long),
            tree::parent(long),
            tree::sibling(long),
        );
        assert_eq!(got, wanted, "node {node}");
    }
    for height in 0..63 {
        for node in [(1 << height) - 1, (5 << height) - 1] {
            let got = proved::height(node);
            assert_eq!(got, tree::height(node), "node {node}");
        }
    }
}

/// A number of any size; in half of the cases a node's of any height.
fn any_node(random: &mut Random) -> u32 {
    let node = random.number() >> random.below(32);
    match random.one_in(2) {
        true => node | ((1 << random.below(32)) - 1),
        false => node,
    }
}

/// A range is a node's, which the layout checks enter, or an INTEGRITY that names
/// it is refused with 2.
#[test]
fn ranges() {
    let mut random = Random::new(2);
    let near = (0..=8).flat_map(|first| (0..=16).map(move |last| (first, last)));
    let any: Vec<(u32, u32)> = (0..TIMES).map(|_| any_range(&mut random)).collect();
    let (mut nodes, mut others) = (0, 0);
    for (first, last) in near.chain(FAR_RANGES).chain(any) {
        let wanted = match tree::node_of_range(first, last) {
            Some(node) => (0, node),
            None => (2, 0),
        };
        let name = ranged(Addressing::Ranges, INTEGRITY, first, last);
        let entered = entered(Addressing::Ranges, &name);
        assert_eq!(entered, wanted, "range {first}..{last}");
        match wanted {
            (0, _) => nodes += 1,
            _ => others += 1,
        }
    }
    assert!(nodes >= 1_000 && others >= 1_000, "{nodes}, {others}");
}

/// Of an INTEGRITY with such a name, the number that the layout checks give and the
/// node that they enter, 0 for none.
fn entered(addressing: Addressing, name: &[u8]) -> (u32, u64) {
    let message = [name, &[7; 32]].concat();
    let (mut entries, mut found) = ([0; ENTRY_WORDS], [0; LAID_WORDS]);
    let datagram = datagram(5, &[message]);
    let number = layout(addressing.number(), &datagram, &mut entries, &mut found);
    (number, entries[0])
}

/// Under bins each number names the node of that number, but for the empty bin and
/// for everything, and is read as the first and the last chunk that it covers.
#[test]
fn bins() {
    let mut random = Random::new(6);
    let any: Vec<u32> = (0..TIMES).map(|_| any_node(&mut random)).collect();
    for bin in (0..=40).chain(FAR_NODES).chain(any) {
        let name = with_bin(INTEGRITY, bin);
        let wanted = match bin {
            EMPTY | EVERYTHING => (2, 0),
            _ => (0, bin.into()),
        };
        assert_eq!(entered(Addressing::Bins, &name), wanted, "bin {bin:x}");
        let [first, last] = [tree::first_chunk(bin.into()), tree::last_chunk(bin.into())];
        let mut found = [0; 7];
        let step = calls::read(&with_bin(3, bin), 0, 0, &mut found);
        let wanted = match bin {
            EMPTY => [259, 0, 0, 0, 0, 0, 5],
            _ => [3, first, last, 0, 0, 0, 5],
        };
        assert_eq!((step, found), (1, wanted), "bin {bin:x}");
    }
}

/// The range of a node by chance, in half of the cases with one end moved.
fn any_range(random: &mut Random) -> (u32, u32) {
    let node = any_node(random);
    let first = tree::first_chunk(node.into()) as u32;
    let last = tree::last_chunk(node.into()) as u32;
    match random.below(4) {
        0 => (first, last.wrapping_add(1)),
        1 => (first.wrapping_sub(1), last),
        _ => (first, last),
    }
}

/// The number of chunks, the leaf places, the root, and each chunk's bytes.
#[test]
fn lengths() {
    let mut random = Random::new(3);
    let any: Vec<u32> = (0..200).map(|_| 1 + random.below(524_288)).collect();
    for length in LENGTHS.into_iter().chain(any) {
        let count = tree::chunk_count(length);
        assert_eq!(proved::chunk_count(length), count, "length {length}");
        let places = u64::from(tree::leaf_places(count));
        assert_eq!(proved::leaf_places(count), places, "length {length}");
        assert_eq!(proved::root(count), tree::root(count), "length {length}");
        for chunk in 0..count {
            let got = proved::chunk_size(length, chunk);
            let wanted = tree::chunk_size(length, chunk);
            assert_eq!(got, wanted, "length {length}, chunk {chunk}");
        }
        assert_eq!(proved::chunk_size(length, count), 0, "length {length}");
    }
}

/// The peaks of each pack, and what goes out with each of its chunks.
#[test]
fn peaks_and_sending_orders() {
    for count in 1..=MOST {
        let wanted = tree::peaks(count);
        listed(&wanted, |room| proved::peaks(room, count));
        for chunk in 0..count {
            let wanted = tree::sending_order(count, chunk);
            listed(&wanted, |room| proved::sent(room, count, chunk));
        }
    }
}

/// A call writes these nodes, as far as the room goes and nothing behind them,
/// and gives how many there are.
fn listed(wanted: &[u64], call: impl Fn(&mut [u64]) -> usize) {
    const BEFORE: u64 = 0x1234_5678_9abc_def0;
    for size in [wanted.len() / 2, wanted.len(), wanted.len() + 3] {
        let mut room = vec![BEFORE; size];
        let number = call(&mut room);
        let mut after = wanted.to_vec();
        after.resize(size.max(wanted.len()), BEFORE);
        after.truncate(size);
        assert_eq!((number, room), (wanted.len(), after), "of {wanted:?}");
    }
}
