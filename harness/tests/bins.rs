//! Bins that come to a store of seven chunks, the whole of 02, No. 1, on them:
//! what each sets and clears, and what is refused. The numbers and bits are worked
//! out on paper; each call goes to `second` too.

use harness::caller::Caller;
use harness::packets::*;
use harness::random::Random;
use second::wire::Addressing;

/// The bits of seven chunks.
const ALL: u32 = 0x7f;

/// The channel, and the peer's.
const OURS: u32 = 5;
const ITS: u32 = 9;

/// A store of seven chunks under bins, none held, with the channel open.
fn seven() -> Caller {
    let bins = Addressing::Bins;
    let store = Caller::started(bins, &mut Random::new(0), &[3; 32], 7_162);
    store.opened(OURS, ITS)
}

/// The number for a datagram of these messages, and the bits of what the peer has
/// and wants then.
fn told(store: &mut Caller, messages: &[Vec<u8>]) -> (u32, u32, u32) {
    let (number, reply) = store.take(0, 0, &datagram(OURS, messages));
    assert_eq!(reply, []);
    let row = store.row(OURS).expect("the channel is open");
    (number, store.0.rooms().has[row], store.0.rooms().wants[row])
}

/// Bins, and the bits of their chunks in a pack of seven.
const TAKEN: [(u32, u32); 15] = [
    (0, 0x01),
    (1, 0x03),
    (2, 0x02),
    (3, 0x0f),
    (4, 0x04),
    (5, 0x0c),
    (7, ALL),
    (8, 0x10),
    (9, 0x30),
    (11, 0x70),
    (12, 0x40),
    (13, 0x40),
    (15, ALL),
    (0x1ff, ALL),
    (0x3fff_ffff, ALL),
];

/// Bins of chunks that are all past the last.
const PAST: [u32; 9] = [
    14,
    16,
    17,
    19,
    23,
    47,
    0xbfff_ffff,
    0xffff_fffd,
    0xffff_fffe,
];

/// An ACK of a bin.
fn ack_bin(bin: u32) -> Vec<u8> {
    [&with_bin(ACK, bin)[..], &[0; 8]].concat()
}

#[test]
fn chunks_that_a_bin_names() {
    let everything = [(EVERYTHING, ALL), (EMPTY, 0)];
    for (bin, bits) in TAKEN.into_iter().chain(everything) {
        let case = format!("bin {bin:x}");
        let mut store = seven();
        assert_eq!(
            told(&mut store, &[with_bin(HAVE, bin)]),
            (0, bits, 0),
            "{case}"
        );
        let mut store = seven();
        let requested = told(&mut store, &[with_bin(REQUEST, bin)]);
        assert_eq!(requested, (0, 0, bits), "{case}");
        let mut store = seven();
        let cancel = [with_bin(REQUEST, 7), with_bin(CANCEL, bin)];
        assert_eq!(told(&mut store, &cancel), (0, 0, ALL & !bits), "{case}");
    }
    // What is there is not wanted any more.
    for (bin, bits) in TAKEN {
        for message in [with_bin(HAVE, bin), ack_bin(bin)] {
            let messages = [with_bin(REQUEST, 7), message];
            let wanted = (0, bits, ALL & !bits);
            assert_eq!(told(&mut seven(), &messages), wanted, "bin {bin:x}");
        }
    }
}

/// "wholly past is 7": with it, nothing of the datagram counts.
#[test]
fn wholly_past() {
    for bin in PAST {
        for message in [HAVE, REQUEST, CANCEL].map(|kind| with_bin(kind, bin)) {
            let mut store = seven();
            let messages = [with_bin(HAVE, 3), message];
            assert_eq!(told(&mut store, &messages), (7, 0, 0), "bin {bin:x}");
        }
        assert_eq!(
            told(&mut seven(), &[ack_bin(bin)]),
            (7, 0, 0),
            "bin {bin:x}"
        );
    }
}

/// The two special bins in each of the six messages: they are 2 in three of them,
/// which is found before 5.
#[test]
fn special_bins() {
    let hash = [7; 32];
    for bin in [EMPTY, EVERYTHING] {
        let at_fault = [
            [&with_bin(DATA, bin)[..], &[0; 8], &[7; 1_024]].concat(),
            ack_bin(bin),
            [&with_bin(INTEGRITY, bin)[..], &hash].concat(),
        ];
        for message in at_fault {
            assert_eq!(told(&mut seven(), &[message.clone()]), (2, 0, 0));
            let behind = [with_bin(HAVE, 14), message.clone()];
            assert_eq!(told(&mut seven(), &behind), (2, 0, 0));
            let away = datagram(OURS + 1, &[message]);
            assert_eq!(seven().take(0, 0, &away).0, 2);
        }
        for kind in [HAVE, REQUEST, CANCEL] {
            let message = with_bin(kind, bin);
            assert_eq!(told(&mut seven(), &[message.clone()]).0, 0);
            let away = datagram(OURS + 1, &[message]);
            assert_eq!(seven().take(0, 0, &away).0, 5);
        }
    }
}

/// The empty bin is a message all the same: 3 where the row is calling.
#[test]
fn the_empty_bin_on_a_calling_row() {
    let mut store = seven();
    assert_eq!(store.open(6).0, 0);
    for kind in [HAVE, REQUEST, CANCEL] {
        let empty = with_bin(kind, EMPTY);
        assert_eq!(store.take(0, 0, &datagram(6, &[empty])).0, 3);
    }
}

/// "and so is any INTEGRITY that reaches past"; a node twice is 2.
#[test]
fn integrity_bins() {
    let integrity = |bin| [&with_bin(INTEGRITY, bin)[..], &[7; 32]].concat();
    for bin in [0, 1, 3, 5, 8, 9, 10, 12] {
        assert_eq!(told(&mut seven(), &[integrity(bin)]).0, 0, "{bin}");
        let twice = [integrity(bin), integrity(bin)];
        assert_eq!(told(&mut seven(), &twice).0, 2, "{bin}");
    }
    for bin in [7, 11, 13, 14, 15, 23, 0x3fff_ffff, 0xffff_fffe] {
        assert_eq!(told(&mut seven(), &[integrity(bin)]).0, 7, "{bin}");
    }
}

/// DATA has the bin of one chunk, which is in the pack; 8 is for its length.
#[test]
fn data_bins() {
    for (bin, number) in [(0, 8), (1, 2), (3, 2), (12, 8), (13, 2), (14, 7)] {
        let data = [&with_bin(DATA, bin)[..], &[0; 8], &[7; 3]].concat();
        assert_eq!(told(&mut seven(), &[data]).0, number, "{bin}");
    }
    let past = [&with_bin(DATA, 0xffff_fffe)[..], &[0; 8]].concat();
    assert_eq!(told(&mut seven(), &[past]).0, 7);
}

/// 55 INTEGRITY, the most that a datagram has room for, in a pack that has them.
#[test]
fn most_nodes() {
    let (bins, root) = (Addressing::Bins, [3; 32]);
    let started = Caller::started(bins, &mut Random::new(1), &root, 524_288);
    let mut store = started.opened(OURS, ITS);
    let nodes: Vec<_> = (0..55).map(|node| integrity(bins, node, &root)).collect();
    let most = datagram(OURS, &nodes);
    assert_eq!(most.len(), 2_039);
    assert_eq!(store.take(0, 0, &most).0, 0);
    let twice = [&nodes[..54], &nodes[..1]].concat();
    assert_eq!(store.take(0, 0, &datagram(OURS, &twice)).0, 2);
}
