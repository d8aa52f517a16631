//! Traps 125 to 128 and 02's No. 1: a store under bins, mostly for seven chunks.

use super::*;
use bins::{EMPTY, EVERYTHING};

const BINS: Addressing = Addressing::Bins;

/// Bins and the chunks of seven that they name.
const INSIDE: [(u32, &[u32]); 16] = [
    (0, &[0]),
    (1, &[0, 1]),
    (3, &[0, 1, 2, 3]),
    (5, &[2, 3]),
    (7, &[0, 1, 2, 3, 4, 5, 6]),
    (9, &[4, 5]),
    (11, &[4, 5, 6]),
    (12, &[6]),
    (13, &[6]),
    (15, &[0, 1, 2, 3, 4, 5, 6]),
    (31, &[0, 1, 2, 3, 4, 5, 6]),
    (511, &[0, 1, 2, 3, 4, 5, 6]),
    (1023, &[0, 1, 2, 3, 4, 5, 6]),
    (0x1fff_ffff, &[0, 1, 2, 3, 4, 5, 6]),
    (0x3fff_ffff, &[0, 1, 2, 3, 4, 5, 6]),
    (10, &[5]),
];

/// Bins that are wholly past seven chunks.
const PAST: [u32; 12] = [
    14,
    16,
    17,
    19,
    23,
    47,
    1024,
    0x8000_0000,
    0xbfff_ffff,
    0xffff_fffc,
    0xffff_fffd,
    0xffff_fffe,
];

fn seven() -> (Pack, Caller) {
    let pack = Pack::new(SEVEN);
    let caller = pack.started_under(BINS);
    (pack, caller)
}

#[test]
fn trap_125_part_inside_the_pack() {
    for (bin, chunks) in INSIDE {
        let (_, caller) = seven();
        let rest: Vec<u32> = (0..7).filter(|chunk| !chunks.contains(chunk)).collect();
        for message in [bins::have(bin), bins::ack(bin, 9)] {
            let mut caller = caller.clone();
            assert_eq!(caller.number(5, &[&bins::request(EVERYTHING), &message]), 0);
            assert_eq!(caller.has_of(0), chunks, "{bin}");
            assert_eq!(caller.wants_of(0), rest, "{bin}");
            // Bits past the last chunk stay clear.
            assert_eq!(caller.has[0] >> 7, 0);
        }
        let mut asking = caller.clone();
        assert_eq!(asking.number(5, &[&bins::request(bin)]), 0);
        assert_eq!(asking.wants_of(0), chunks, "{bin}");
        assert_eq!(asking.wants[0] >> 7, 0);
        asking.wants[0] = u32::MAX;
        assert_eq!(asking.number(5, &[&bins::cancel(bin)]), 0);
        assert_eq!(asking.wants_of(0), rest, "{bin}");
        assert_eq!(asking.wants[0] >> 7, u32::MAX >> 7);
        assert_eq!(asking.has_of(0), []);
    }
}

/// Trap 125: "wholly past is 7", and alters nothing.
#[test]
fn trap_125_wholly_past() {
    let (_, mut caller) = seven();
    for bin in PAST {
        for past in [
            bins::have(bin),
            bins::ack(bin, 0),
            bins::request(bin),
            bins::cancel(bin),
        ] {
            assert_eq!(caller.number(5, &[&past]), 7, "{bin:x}");
            assert_eq!(caller.number(5, &[&bins::have(0), &past, &CHOKE]), 7);
            assert_eq!(caller.number(5, &[&past, &bins::have(7)]), 7);
            assert_eq!(caller.number(6, &[&past]), 5);
        }
    }
    assert_eq!(caller.has_of(0), []);
}

/// Trap 126: "empty and does nothing", never 7, but a message.
#[test]
fn trap_126_empty_and_everything() {
    let (_, mut caller) = seven();
    let all = [0, 1, 2, 3, 4, 5, 6];
    let half = [&bins::have(3)[..], &bins::request(11)];
    assert_eq!(caller.number(5, &half), 0);
    let before = caller.clone();
    for message in [bins::have, bins::request, bins::cancel] {
        assert_eq!(caller.number(5, &[&message(EMPTY)]), 0);
        assert!(caller == before);
        assert_eq!(caller.number(0, &[&message(EMPTY)]), 5);
        assert_eq!(caller.number(77, &[&message(EMPTY)]), 5);
    }
    assert_eq!(caller.number(5, &[&bins::request(EVERYTHING)]), 0);
    assert_eq!(caller.wants_of(0), all);
    assert_eq!(caller.number(5, &[&bins::cancel(EVERYTHING)]), 0);
    assert_eq!(caller.wants_of(0), []);
    assert_eq!(caller.number(5, &[&bins::have(EVERYTHING)]), 0);
    assert_eq!(caller.has_of(0), all);
    // On a calling row it is a message as any other.
    assert_eq!(caller.open(6).0, 0);
    assert_eq!(caller.number(6, &[]), 0);
    assert_eq!(caller.number(6, &[&bins::have(EMPTY)]), 3);
}

/// "Either in DATA, ACK or INTEGRITY is 2": layout, so before 5, 3 and 7.
#[test]
fn trap_126_layout() {
    let (pack, mut caller) = seven();
    assert_eq!(caller.open(6).0, 0);
    for bin in [EMPTY, EVERYTHING] {
        for message in [
            bins::data(bin, 0, pack.chunk(0)),
            bins::ack(bin, 0),
            bins::integrity(bin, &[9; 32]),
        ] {
            for destination in [0, 5, 6, 77] {
                assert_eq!(caller.number(destination, &[&message]), 2);
                let behind = [&bins::have(14)[..], &message];
                assert_eq!(caller.number(destination, &behind), 2);
            }
        }
    }
}

/// "And so is any INTEGRITY that reaches past", with DATA and without.
#[test]
fn nodes_that_reach_past() {
    let (pack, mut caller) = seven();
    let came = pack.hashes_under(BINS, &WITH_CHUNK_0);
    let data = pack.data_under(BINS, 0);
    for bin in PAST.into_iter().chain([7, 11, 13, 15, 0x3fff_ffff]) {
        let past = bins::integrity(bin, &pack.root());
        assert_eq!(caller.number(5, &[&past]), 7, "{bin:x}");
        assert_eq!(caller.number(5, &[&came, &past, &data]), 7, "{bin:x}");
        assert_eq!(caller.number(77, &[&past]), 5);
    }
    for bin in [0, 1, 2, 3, 5, 9, 10, 12] {
        let inside = bins::integrity(bin, &pack.root());
        assert_eq!(caller.number(5, &[&inside]), 0, "{bin}");
        assert_eq!(caller.number(5, &[&inside, &CHOKE, &inside]), 2, "{bin}");
    }
    assert_eq!(caller.number(5, &[&came, &data]), 0);
    assert_eq!(caller.trusted_nodes(), [0, 1, 2, 3, 5, 7, 9, 12]);
}

/// Trap 127: DATA over an odd bin, past the end, and the last chunk.
#[test]
fn trap_127_data() {
    let (pack, mut caller) = seven();
    for odd in [1, 3, 7, 13, 15, 0x3fff_ffff, 0xffff_fffd] {
        assert_eq!(caller.number(5, &[&bins::data(odd, 0, pack.chunk(0))]), 2);
        assert_eq!(caller.number(77, &[&bins::data(odd, 0, &[])]), 2);
    }
    for past in [14, 16, 1024, 0x8000_0000, 0xffff_fffe] {
        assert_eq!(caller.number(5, &[&bins::data(past, 0, &[])]), 7);
        assert_eq!(caller.number(77, &[&bins::data(past, 0, &[])]), 5);
    }
    assert_eq!(caller.number(5, &[&bins::data(12, 0, &[])]), 8);
    let peaks = pack.hashes_under(BINS, &[3, 9, 12]);
    let last = bins::data(12, 90, pack.chunk(6));
    let answer = to(9, &[&[2, 0, 0, 0, 12], &[0, 0, 0, 0, 0, 0, 0, 10]]);
    assert_eq!(answer.len(), 17);
    let datagram = to(5, &[&peaks, &last]);
    assert_eq!(caller.take(100, 0, &datagram), (0, answer));
    assert_eq!(caller.ask(), (0, 1, false));
}

/// Effects in datagram order, and a chunk behind them.
#[test]
fn effects_in_datagram_order() {
    let (pack, mut caller) = seven();
    let messages = [
        bins::request(7),
        bins::have(1),
        CHOKE.to_vec(),
        bins::have(EMPTY),
        bins::cancel(12),
        pack.hashes_under(BINS, &WITH_CHUNK_0),
        bins::ack(9, 7),
        bins::request(8),
        pack.data_under(BINS, 0),
    ]
    .concat();
    assert_eq!(caller.number(5, &[&messages]), 0);
    assert_eq!(caller.has_of(0), [0, 1, 4, 5]);
    assert_eq!(caller.wants_of(0), [2, 3, 4]);
    assert!(caller.state.rows[0].choked);
    assert_eq!(caller.ask(), (0, 1, false));
}

/// Every bin at packs of several words: the part inside, word by word.
#[test]
fn every_bin_of_a_long_row() {
    for count in [1, 31, 32, 33, 64, 100, 512] {
        let mut caller = Pack::new(1024 * count).started_under(BINS);
        for bin in 0..1100u32 {
            let width = 1 << bin.trailing_ones();
            let first = (bin + 1 - width) / 2;
            let messages = [bins::cancel(EVERYTHING), bins::request(bin)].concat();
            let number = caller.number(5, &[&messages]);
            if first >= count {
                assert_eq!(number, 7, "{bin} of {count}");
            } else {
                assert_eq!(number, 0, "{bin} of {count}");
                let chunks = first..(first + width).min(count);
                assert!(caller.wants_of(0).into_iter().eq(chunks));
            }
        }
    }
}

/// 55 nodes in 2,039 bytes, and 408 HAVE in 2,044.
#[test]
fn as_many_messages_as_fit() {
    let pack = Pack::new(64 * 1024);
    let mut caller = pack.started_under(BINS);
    let nodes: Vec<u64> = (0..55).map(|chunk| 2 * chunk).collect();
    let hashes = pack.hashes_under(BINS, &nodes);
    assert_eq!(hashes.len(), 2_035);
    assert_eq!(caller.number(5, &[&hashes]), 0);
    assert_eq!(caller.number(5, &[&hashes[..54 * 37], &hashes[..37]]), 2);
    assert_eq!(caller.number(5, &[&hashes, &hashes[..37]]), 1);
    let haves: Vec<u8> = (0..408).flat_map(|i| bins::have(i % 129)).collect();
    assert_eq!(haves.len(), 2_040);
    assert_eq!(caller.number(5, &[&haves]), 7);
    let haves: Vec<u8> = (0..408).flat_map(|i| bins::have(i % 128)).collect();
    assert_eq!(caller.number(5, &[&haves]), 0);
    assert_eq!(caller.has_of(0).len(), 64);
    assert_eq!(caller.number(5, &[&haves, &[10; 4]]), 0);
    assert_eq!(caller.number(5, &[&haves, &[10; 5]]), 1);
}

/// Trap 128: under ranges a range past N-1 stays 7 as a whole.
#[test]
fn trap_128_ranges_stay() {
    let mut caller = Pack::new(SEVEN).started();
    for message in [have(4, 7), request(4, 7), cancel(0, 7), ack(6, 7, 0)] {
        assert_eq!(caller.number(5, &[&message]), 7);
    }
    assert_eq!(caller.number(5, &[&have(0, 0x7fff_ffff)]), 7);
    assert_eq!(caller.number(5, &[&have(u32::MAX, u32::MAX)]), 7);
}
