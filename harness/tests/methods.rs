//! The methods of addressing: those that no paper gives, in each call that is told
//! one, and stores of one method that are given datagrams of the other. The
//! numbers are worked out from 02, No. 1; the calls on stores go to `second` too.

use harness::by_hand::{bytes, have, refused, refused_in, taken, BINS, CHOKE, RANGES};
use harness::caller::Caller;
use harness::packets::*;
use harness::packs::Pack;
use harness::random::Random;
use ppspp::calls;
use second::wire::Addressing;

/// The length of a pack of seven chunks.
const SEVEN: u32 = 7_162;

/// The channel of a store, and the one of its peer.
const OURS: u32 = 5;
const ITS: u32 = 9;

/// Numbers, and whether they are a method's.
const NUMBERS: [(u32, bool); 10] = [
    (0, true),
    (1, false),
    (2, true),
    (3, false),
    (4, false),
    (5, false),
    (256, false),
    (258, false),
    (1 << 31, false),
    (u32::MAX, false),
];

/// "a value in an order that no paper gives .. is 12": started and built.
#[test]
fn orders() {
    let mut random = Random::new(0);
    let pack = Pack::new(&mut random, SEVEN);
    for (method, known) in NUMBERS {
        let wanted = if known { 0 } else { 12 };
        let mut store = Caller::new(&mut random, SEVEN);
        let root = pack.built.root();
        assert_eq!(store.start(root, SEVEN, method), wanted, "{method}");
        assert_eq!(store.build(SEVEN, method, &pack.content), wanted);
        assert_eq!(store.ask(), if known { (0, 7, 1) } else { (12, 0, 0) });
        // Before 11, and as 12 is for a length.
        store.0.change(|_, rooms| rooms.map.clear());
        let wanted = if known { 11 } else { 12 };
        assert_eq!(store.start(root, SEVEN, method), wanted);
        assert_eq!(store.build(SEVEN, method, &pack.content), wanted);
        assert_eq!(store.start(root, 0, method), 12);
        assert_eq!(store.build(SEVEN, method, &pack.content[1..]), 12);
    }
}

/// A store stays under its order where a start or a building is refused.
#[test]
fn refused_orders_leave_the_old_one() {
    for addressing in METHODS {
        let mut random = Random::new(1);
        let pack = Pack::new(&mut random, SEVEN);
        let mut store = Caller::built(addressing, &mut random, &pack).opened(OURS, ITS);
        for method in [1, 3, u32::MAX] {
            assert_eq!(store.start(&[3; 32], SEVEN, method), 12);
            assert_eq!(store.build(SEVEN, method, &pack.content), 12);
        }
        assert_eq!(store.ask(), (0, 7, 1));
        let have = ranged(addressing, HAVE, 0, 3);
        assert_eq!(store.take(0, 0, &datagram(OURS, &[have])), (0, vec![]));
    }
}

/// Added: 12 before 11, and before any look at the datagram or the message.
#[test]
fn added() {
    taken(BINS, "00000005", have(0, 3), "03 00000003");
    taken(RANGES, "00000005", have(0, 3), "03 00000000 00000003");
    for (method, known) in NUMBERS {
        if known {
            continue;
        }
        for message in [CHOKE, have(0, 3), have(5, 4)] {
            for so_far in ["00000005", "000000", "00000005 0a*2044", "00000005 07"] {
                refused(method, so_far, message, 12);
            }
            refused_in(method, 2_047, 4, "00000005", message, 12);
            refused_in(method, 0, 0, "", message, 12);
            refused_in(method, 2_048, usize::MAX, "00000005", message, 12);
        }
    }
}

/// Read: 12 at every place of any datagram, and no word is written.
#[test]
fn read() {
    let before = [7; 7];
    for text in [
        "",
        "000000",
        "00000005 0a",
        "00000005 03 00000003",
        "00000005 07",
    ] {
        let datagram = bytes(text);
        for at in (0..=datagram.len() + 1).chain([usize::MAX]) {
            for (method, known) in NUMBERS {
                let mut found = before;
                let step = calls::read(&datagram, method, at, &mut found);
                assert_eq!(step == 12, !known, "{text} at {at}, {method}");
                assert!(known || found == before, "{text} at {at}, {method}");
            }
        }
    }
    let found_at = |method| {
        let mut found = before;
        let datagram = bytes("00000005 03 0000000b 0000000c");
        (calls::read(&datagram, method, 4, &mut found), found)
    };
    assert_eq!(found_at(BINS), (1, [3, 4, 7, 0, 0, 0, 9]));
    assert_eq!(found_at(RANGES), (1, [3, 11, 12, 0, 0, 0, 13]));
}

/// "option 6 must match it, else 4": opening, answering and repeated ones; a
/// closing one with options is 3, whatever they are.
#[test]
fn options_of_the_other_method() {
    for addressing in METHODS {
        let root = [3; 32];
        let [right, wrong] = [addressing, other(addressing)].map(|method| fixed(method, &root));
        let mut store = Caller::started(addressing, &mut Random::new(2), &root, SEVEN);
        let to = |channel, source, options: &[u8]| datagram(channel, &[handshake(source, options)]);
        let (number, calling) = store.open(6);
        assert_eq!((number, calling), (0, to(0, 6, &right)));
        for channel in [0, 6] {
            assert_eq!(store.take(0, OURS, &to(channel, ITS, &wrong)).0, 4);
        }
        let (number, answer) = store.take(0, OURS, &to(0, ITS, &right));
        assert_eq!((number, answer), (0, to(ITS, OURS, &right)));
        assert_eq!(store.take(0, 0, &to(6, ITS, &right)), (0, vec![]));
        for (options, number) in [(&wrong, 4), (&right, 0)] {
            assert_eq!(store.take(0, 0, &to(OURS, ITS, options)).0, number);
            assert_eq!(store.take(0, 0, &to(OURS, 0, options)).0, 3);
        }
    }
}

/// What a whole store writes is nothing to a store under the other method: not
/// read, or read as something else, and no chunk is held after it. Both are whole
/// of the same bytes once each has the datagrams of its own method.
#[test]
fn two_methods_and_one_pack() {
    let mut random = Random::new(3);
    for length in [1, 1_025, SEVEN, 40_000] {
        let pack = Pack::new(&mut random, length);
        let written = METHODS.map(|addressing| {
            let mut whole = Caller::built(addressing, &mut random, &pack).opened(OURS, OURS);
            let chunks = 0..pack.count();
            chunks
                .map(|chunk| whole.write(OURS, chunk, 0).1)
                .collect::<Vec<_>>()
        });
        let root = pack.built.root();
        let vans = METHODS.map(|addressing| {
            let started = Caller::started(addressing, &mut random, root, length);
            let mut van = started.opened(OURS, ITS);
            let [own, others] = match addressing {
                Addressing::Bins => [&written[0], &written[1]],
                Addressing::Ranges => [&written[1], &written[0]],
            };
            for datagram in others {
                assert_eq!(van.take(0, 0, datagram).0, 2, "{addressing:?}, {length}");
            }
            assert_eq!(van.ask(), (0, 0, 0));
            for datagram in own {
                assert_eq!(van.take(0, 0, datagram).0, 0);
            }
            assert_eq!(van.ask(), (0, pack.count(), 1));
            van
        });
        let [bins, ranges] = vans
            .each_ref()
            .map(|van| &van.0.rooms().chunks[..length as usize]);
        assert!(bins == ranges && bins == pack.content);
    }
}
