//! The node that a refused chunk names (02, No. 3): with 9 the first needed and missing one in 01's sending order, with
//! 10 the trusted one that was missed, the root if the peaks fail. By hand, under each addressing.

use crate::support::{any_order, bytes, content, node, Pair, BINS, RANGES, SEVEN, VAN};
use ppspp::sys::PPSPP_NO_NODE;
use ppspp::{calls, Addressing, Composer, Lend, Message, Refused, Store};

/// The peaks of seven chunks: 0..3, 4..5 and 6.
const PEAKS: [u64; 3] = [3, 9, 12];

/// What chunk 0 of seven goes out with, in sending order: 0..3, 2..3, 4..5, 1, 6.
const WITH_0: [u64; 5] = [3, 5, 9, 2, 12];

/// A van that takes in chunks of seven, with the hashes of any nodes.
struct Yard {
    pair: Pair,
    addressing: Addressing,
}

impl Yard {
    /// A fresh van.
    fn under(addressing: Addressing) -> Yard {
        let pair = Pair::under(addressing, SEVEN);
        Yard { pair, addressing }
    }

    /// The hash of a node, as the server has it.
    fn hash(&self, node: u64) -> Vec<u8> {
        let words = &self.pair.server.view().hashes[8 * node as usize..][..8];
        words.iter().flat_map(|word| word.to_be_bytes()).collect()
    }

    /// The van takes in a chunk, right or wrong, with the hashes of nodes, of which some are wrong.
    fn send(
        &mut self,
        (chunk, right): (u32, bool),
        nodes: &[u64],
        wrong: &[u64],
    ) -> Result<(), Refused> {
        let mut room = [0; 2_048];
        let mut composer = Composer::begin(&mut room, self.addressing, VAN)?;
        for number in nodes {
            let (first, last) = (node(*number).first(), node(*number).last());
            let mut hash = self.hash(*number);
            hash[31] ^= u8::from(wrong.contains(number));
            let hash = &hash;
            composer.add(Message::Integrity { first, last, hash })?;
        }
        let content = content(SEVEN);
        let found = content.chunks(1_024).nth(chunk as usize);
        let mut bytes = found.expect("a chunk of seven").to_vec();
        bytes[0] ^= u8::from(!right);
        let datagram = composer.data(chunk, 0, &bytes)?.finish();
        self.pair.van.take(0, 0, datagram).map(|_| ())
    }

    /// With these hashes alone a chunk lacks that of a node, also where all that came is wrong.
    fn missing(&mut self, chunk: u32, nodes: &[u64], wanted: u64) {
        let wanted = Err(Refused::missing(node(wanted)));
        for (right, wrong) in [(true, &[][..]), (false, nodes)] {
            let taken = self.send((chunk, right), nodes, wrong);
            assert_eq!(taken, wanted, "chunk {chunk} with {nodes:?}");
        }
    }

    /// With hashes of which some are wrong a chunk misses a node.
    fn missed(&mut self, chunk: (u32, bool), nodes: &[u64], wrong: &[u64], wanted: u64) {
        let taken = self.send(chunk, nodes, wrong);
        let wanted = Err(Refused::mismatch(node(wanted)));
        assert_eq!(taken, wanted, "{chunk:?} with {nodes:?}, wrong {wrong:?}");
    }

    /// A chunk that is taken.
    fn stored(&mut self, chunk: u32, nodes: &[u64]) {
        assert_eq!(self.send((chunk, true), nodes, &[]), Ok(()));
        assert!(self.pair.van.holds(chunk));
    }
}

/// What chunk 0 goes out with but for some.
fn without(left_out: &[u64]) -> Vec<u64> {
    let mut nodes = WITH_0.to_vec();
    nodes.retain(|node| !left_out.contains(node));
    nodes
}

#[test]
fn each_hash_of_chunk_0_missing_alone() {
    for addressing in [BINS, RANGES] {
        let mut yard = Yard::under(addressing);
        for left_out in [3, 9, 12, 2, 5] {
            yard.missing(0, &without(&[left_out]), left_out);
        }
    }
}

#[test]
fn first_missing_in_sending_order() {
    for addressing in [BINS, RANGES] {
        let mut yard = Yard::under(addressing);
        let tried: [(&[u64], u64); 6] = [
            (&[9, 5], 5),
            (&[2, 12], 2),
            (&[5, 2], 5),
            (&[9, 2], 9),
            (&[3, 5], 3),
            (&WITH_0, 3),
        ];
        for (left_out, first) in tried {
            let mut nodes = without(left_out);
            yard.missing(0, &nodes, first);
            // In whichever order the others come.
            nodes.reverse();
            yard.missing(0, &nodes, first);
        }
        // The leaf itself, the nodes above it and others are not needed.
        yard.missing(0, &[0, 1, 4, 8], 3);
        // Leaf 10, chunk 5, stands before the peak 12, chunk 6, which is a peak of its own.
        yard.missing(4, &[3, 9], 10);
        yard.missing(5, &PEAKS, 8);
        yard.missing(6, &[3, 12], 9);
        yard.missing(6, &[3, 9], 12);
    }
}

#[test]
fn missing_behind_a_stored_chunk() {
    // By 01's least hashes: behind chunk 0 chunk 2 needs leaf 6 and chunk 4 leaf 10; the peaks are trusted.
    for addressing in [BINS, RANGES] {
        let mut yard = Yard::under(addressing);
        yard.stored(0, &WITH_0);
        yard.missing(2, &[], 6);
        yard.missing(3, &[3, 9, 12, 1], 4);
        yard.missing(4, &PEAKS, 10);
        yard.stored(1, &[]);
        yard.stored(2, &[6]);
        yard.stored(6, &[]);
        yard.missing(5, &[], 8);
    }
}

#[test]
fn peaks_that_fail_name_the_root() {
    for addressing in [BINS, RANGES] {
        let mut yard = Yard::under(addressing);
        for wrong in [&[3][..], &[9], &[12], &PEAKS, &WITH_0] {
            for right in [true, false] {
                yard.missed((0, right), &WITH_0, wrong, 7);
            }
        }
        yard.missed((6, true), &PEAKS, &[12], 7);
    }
}

#[test]
fn peaks_that_came_are_missed() {
    for addressing in [BINS, RANGES] {
        let mut yard = Yard::under(addressing);
        yard.missed((0, false), &WITH_0, &[], 3);
        yard.missed((0, true), &WITH_0, &[2], 3);
        yard.missed((0, true), &WITH_0, &[5], 3);
        yard.missed((4, false), &[3, 9, 10, 12], &[], 9);
        yard.missed((6, false), &PEAKS, &[], 12);
    }
}

#[test]
fn trusted_nodes_are_missed() {
    // Behind chunk 0: its leaf, leaf 2, the node over 2..3 and the peaks. Peaks that come are not looked at.
    for addressing in [BINS, RANGES] {
        let mut yard = Yard::under(addressing);
        yard.stored(0, &WITH_0);
        yard.missed((1, false), &[], &[], 2);
        yard.missed((0, false), &[], &[], 0);
        yard.missed((0, false), &WITH_0, &WITH_0, 0);
        yard.missed((2, false), &[6], &[], 5);
        yard.missed((2, true), &[6], &[6], 5);
        yard.missed((4, true), &[10], &[10], 9);
        yard.missed((4, false), &[3, 9, 10, 12], &PEAKS, 9);
        yard.missed((6, false), &PEAKS, &PEAKS, 12);
        assert_eq!(yard.pair.van.ask().map(|held| held.count), Ok(1));
    }
}

/// What a fresh store of a length answers to a chunk of zeros with hashes of zeros, which do not lead to its root.
fn answer(addressing: Addressing, length: u32, chunk: u32, nodes: &[u64]) -> (u32, usize, u64) {
    let order = any_order(length).addressing(addressing);
    let mut van = Store::start(order).expect("a pack's length");
    let calling = van.open(VAN).expect("a free row");
    // A HANDSHAKE to the van's channel from channel 9: what the van sent, from there.
    let answering = [&calling[5..9], &[0, 0, 0, 0, 9], &calling[9..]].concat();
    van.take(0, 0, &answering).expect("it opens");
    let mut room = [0; 2_048];
    let mut composer = Composer::begin(&mut room, addressing, VAN).expect("a room of size");
    for number in nodes {
        let (first, last, hash) = (node(*number).first(), node(*number).last(), &[0; 32]);
        let hash = Message::Integrity { first, last, hash };
        composer.add(hash).expect("it fits");
    }
    let data = composer.data(chunk, 0, &[0; 1_024]);
    let datagram = data.expect("it fits").finish();
    calls::take(van.into_rooms().lend(), 0, 0, datagram)
}

#[test]
fn one_chunk_and_powers_of_two() {
    // There the root is the one peak, and trusted from the start.
    for addressing in [BINS, RANGES] {
        assert_eq!(answer(addressing, 1_024, 0, &[]), (10, 0, 0));
        assert_eq!(answer(addressing, 1_024, 0, &[0]), (10, 0, 0));
        assert_eq!(answer(addressing, 2_048, 0, &[]), (9, 0, 2));
        assert_eq!(answer(addressing, 2_048, 1, &[1, 2]), (9, 0, 0));
        assert_eq!(answer(addressing, 2_048, 0, &[2]), (10, 0, 1));
        assert_eq!(answer(addressing, 8_192, 5, &[3]), (9, 0, 13));
        assert_eq!(answer(addressing, 8_192, 5, &[3, 13, 8]), (10, 0, 7));
        // 512 chunks: the root is node 511, and chunk 511 leaf 1022.
        assert_eq!(answer(addressing, 524_288, 511, &[]), (9, 0, 255));
        let siblings = [1020, 1017, 1011, 999, 975, 927, 831, 639];
        let all = [&siblings[..], &[255]].concat();
        assert_eq!(answer(addressing, 524_288, 511, &siblings), (9, 0, 255));
        assert_eq!(answer(addressing, 524_288, 511, &all), (10, 0, 511));
    }
}

/// The number and the node that a store answers a datagram with; it stays as it is.
fn taken(store: &Store, id: u32, digits: &str) -> (u32, u64) {
    let mut rooms = store.clone().into_rooms();
    let (number, _, node) = calls::take(rooms.lend(), 0, id, &bytes(digits));
    (number, node)
}

#[test]
fn other_numbers_name_none() {
    let data = "01 00000000 00000000 0000000000000000";
    let fixed = "00010101020020 2a*32 03010402060209 00000400 ff";
    let own = format!("00000000 00 00000008 {fixed}");
    let mut van = Store::start(any_order(SEVEN)).expect("a pack's length");
    van.take(0, VAN, &bytes(&own)).expect("it opens");
    let tried = [
        (0, "00000011".to_string()),
        (0, own.clone()),
        (1, "000000".to_string()),
        (2, "00000011 07".to_string()),
        (3, "00000011 00 00000009 ff".to_string()),
        (4, "00000000 00 00000008 ff".to_string()),
        (5, format!("00000063 {data} 07")),
        (7, "00000011 03 00000007 00000007".to_string()),
        (8, format!("00000011 {data} 07")),
    ];
    for (number, digits) in tried {
        assert_eq!(taken(&van, 99, &digits), (number, PPSPP_NO_NODE));
    }
    assert_eq!(taken(&van, 0, &own), (14, PPSPP_NO_NODE));
    for id in 1..=15 {
        van.open(id).expect("a free row");
    }
    assert_eq!(taken(&van, 99, &own), (6, PPSPP_NO_NODE));
    let mut rooms = van.into_rooms();
    let datagram = bytes(&format!("00000011 {data} 07*1024"));
    let mut short = rooms.lend();
    short.map = &mut [];
    assert_eq!(calls::take(short, 0, 0, &datagram), (11, 0, PPSPP_NO_NODE));
    rooms.lend().state[0] = 0;
    let none = calls::take(rooms.lend(), 0, 0, &datagram);
    assert_eq!(none, (12, 0, PPSPP_NO_NODE));
}

#[test]
fn chunk_that_is_taken_names_none() {
    for addressing in [BINS, RANGES] {
        let mut pair = Pair::under(addressing, SEVEN);
        let datagram = pair.written(0, 0);
        let mut rooms = pair.van.into_rooms();
        for _ in 0..2 {
            let (number, len, node) = calls::take(rooms.lend(), 0, 0, &datagram);
            assert_eq!((number, len > 0, node), (0, true, PPSPP_NO_NODE));
        }
    }
}
