//! The addressing method of an order: its number, option 6, what is written under
//! it, and one pack under both methods.

use super::*;
use crate::wire::Message;

const BINS: Addressing = Addressing::Bins;

/// Numbers that no paper gives.
const NONE: [u32; 8] = [1, 3, 4, 5, 256, 258, 1 << 31, u32::MAX];

/// Trap 127: "a value in an order that no paper gives is 12", before 11.
#[test]
fn trap_127_methods() {
    let pack = Pack::new(SEVEN);
    let built = pack.built_under(BINS);
    for method in NONE {
        let mut caller = built.clone();
        for _ in 0..2 {
            let root = pack.root();
            assert_eq!(caller.start_under(method, &root, SEVEN), 12);
            assert_eq!(caller.build_under(method, SEVEN, &pack.content), 12);
            assert_eq!(caller.ask(), (0, 7, true));
            assert_eq!(caller.state.addressing, BINS);
            // With the other faults of an order, and with a room too small.
            assert_eq!(caller.start_under(method, &root, 0), 12);
            assert_eq!(caller.build_under(method, SEVEN, &[]), 12);
            caller.reply.truncate(2047);
        }
    }
    for (method, addressing) in [(0, BINS), (2, Addressing::Ranges)] {
        let mut caller = built.clone();
        assert_eq!(caller.start_under(method, &pack.root(), SEVEN), 0);
        assert_eq!(caller.state.addressing, addressing);
        assert_eq!(caller.build_under(method, SEVEN, &pack.content), 0);
        assert_eq!(caller.state.addressing, addressing);
        caller.reply.truncate(2047);
        assert_eq!(caller.start_under(method, &pack.root(), SEVEN), 11);
        assert_eq!(caller.build_under(method, SEVEN, &pack.content), 11);
    }
}

/// The same in adding, before 11, 1 and 2.
#[test]
fn methods_in_adding() {
    let (first, last) = (4, 7);
    let have = Message::Have { first, last };
    let mut room = [10; 2048];
    for method in NONE {
        for (len, length) in [(2048, 4), (2047, 4), (0, 4), (2048, 0), (2048, 9999)] {
            let outcome = add(&mut room[..len], method, length, &have, &[]);
            let wanted = Outcome {
                number: 12,
                length: 0,
                node: None,
            };
            assert_eq!(outcome, wanted);
        }
        let other = Message::Empty { kind: 77 };
        assert_eq!(add(&mut room, method, 4, &other, &[]).number, 12);
    }
    assert_eq!(room, [10; 2048]);
    assert_eq!(add(&mut room[..2047], 0, 4, &have, &[]).number, 11);
    assert_eq!(add(&mut room, 0, 4, &have, &[]).length, 9);
    assert_eq!(room[..10], [10, 10, 10, 10, 3, 0, 0, 0, 11, 10]);
    assert_eq!(add(&mut room, 2, 4, &have, &[]).length, 13);
    assert_eq!(room[4..14], [3, 0, 0, 0, 4, 0, 0, 0, 7, 10]);
}

/// "Option 6 must match it, else 4", wherever options are looked at.
#[test]
fn option_6_must_match() {
    let pack = Pack::new(SEVEN);
    let root = pack.root();
    let [by_bins, by_ranges] = [bins::fixed(&root), fixed(&root)];
    assert_eq!(by_bins[39..], [3, 1, 4, 2, 6, 0, 9, 0, 0, 4, 0, 255]);
    for (addressing, own, other) in [
        (BINS, &by_bins, &by_ranges),
        (Addressing::Ranges, &by_ranges, &by_bins),
    ] {
        let mut caller = pack.started_under(addressing);
        // Opening, from the peer and from us.
        assert_eq!(caller.take(0, 6, &to(0, &[&handshake(8, other)])).0, 4);
        let reply = to(0, &[&handshake(6, own)]);
        assert_eq!(reply.len(), 60);
        assert_eq!(caller.open(6), (0, reply));
        // Answering, and again.
        assert_eq!(caller.number(6, &[&handshake(8, other)]), 4);
        assert_eq!(caller.number(6, &[&handshake(8, own)]), 0);
        assert_eq!(caller.number(6, &[&handshake(8, other)]), 4);
        assert_eq!(caller.number(6, &[&handshake(8, own)]), 0);
        // 3 for a new source, and for closing with other options.
        assert_eq!(caller.number(6, &[&handshake(9, other)]), 3);
        assert_eq!(caller.number(6, &[&handshake(0, own)]), 3);
        assert_eq!(caller.number(6, &[&handshake(0, other)]), 3);
        for method in [1, 3, 4, 255] {
            let mut others = own.clone();
            others[44] = method;
            assert_eq!(caller.number(5, &[&handshake(9, &others)]), 4);
        }
        assert_eq!(caller.number(6, &[&closing()]), 0);
    }
}

/// "For N=7, chunk 0 goes out with" nodes 3, 5, 9, 2, 12: under bins each has four
/// bytes less, and so has DATA. 1,250 - 24 bytes.
#[test]
fn chunks_written_under_bins() {
    let pack = Pack::new(SEVEN);
    let mut caller = pack.built_under(BINS);
    let clock = 0x0123_4567_89ab_cdef;
    let expected = to(
        9,
        &[
            &bins::integrity(3, &pack.hash(3)),
            &bins::integrity(5, &pack.hash(5)),
            &bins::integrity(9, &pack.hash(9)),
            &bins::integrity(2, &pack.hash(2)),
            &bins::integrity(12, &pack.hash(12)),
            &bins::data(0, clock, pack.chunk(0)),
        ],
    );
    assert_eq!(expected.len(), 1_226);
    assert_eq!(caller.write(5, 0, clock), (0, expected));
    let hashes = pack.hashes_under(BINS, &[3, 9, 12]);
    let expected = to(9, &[&hashes, &bins::data(12, 1, pack.chunk(6))]);
    assert_eq!(caller.write(5, 6, 1), (0, expected));
    for (chunk, number) in [(7, 7), (u32::MAX, 7), (0x8000_0000, 7)] {
        assert_eq!(caller.write(5, chunk, 0).0, number);
    }
    // The longest one: nine peaks, eight siblings.
    let pack = Pack::new(511 * 1024);
    let (number, datagram) = pack.built_under(BINS).write(5, 255, 0);
    assert_eq!((number, datagram.len()), (0, 4 + 17 * 37 + 13 + 1024));
}

/// A van under each method gets one pack from a server under the same method:
/// both are whole, and have the same bytes and the same hashes.
#[test]
fn one_pack_under_both_methods() {
    for count in [1, 2, 5, 7, 8, 33] {
        let pack = Pack::new(1024 * count - 6);
        let [by_bins, by_ranges] = [BINS, Addressing::Ranges].map(|addressing| {
            let mut server = pack.built_under(addressing);
            let mut van = pack.started_under(addressing);
            // The server's peer is channel 9, the van's own is 5.
            assert_eq!(van.number(5, &[&closing()]), 0);
            van.opened_by_peer(9, 5);
            for k in 0..count {
                let chunk = 521 * k % count;
                let (_, datagram) = server.write(5, chunk, 1000);
                let (number, answer) = van.take(1007, 0, &datagram);
                assert_eq!(number, 0);
                assert_eq!(answer, to(5, &[&plain::ack_for(&van, chunk, 7)]));
                assert_eq!(server.take(0, 0, &answer), (0, vec![]));
            }
            assert!(server.has_of(0).into_iter().eq(0..count));
            assert_eq!(van.ask(), (0, count, true));
            assert_eq!(van.trusted_nodes(), server.trusted_nodes());
            van
        });
        assert!(by_bins.chunks.starts_with(&pack.content));
        assert!(by_bins.chunks == by_ranges.chunks);
        assert!(by_bins.hashes == by_ranges.hashes);
        assert_eq!(by_bins.trusted, by_ranges.trusted);
        assert_eq!(by_bins.map, by_ranges.map);
    }
}

/// A datagram of the other method is read as it stands.
#[test]
fn datagrams_of_the_other_method() {
    let pack = Pack::new(SEVEN);
    let written = |addressing| {
        let (_, mut datagram) = pack.built_under(addressing).write(5, 0, 0);
        datagram[3] = 5;
        datagram
    };
    let mut caller = pack.started_under(BINS);
    assert_eq!(caller.take(0, 0, &written(BINS)).0, 0);
    let mut caller = pack.started_under(BINS);
    assert_ne!(caller.take(0, 0, &written(Addressing::Ranges)).0, 0);
    let mut caller = pack.started();
    assert_ne!(caller.take(0, 0, &written(BINS)).0, 0);
}
