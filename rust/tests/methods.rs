//! The addressing of an order: its number, what stands in the state, the options of HANDSHAKEs, and whole downloads
//! under each.

use crate::support::{any_order, built, bytes, content, Pair, BINS, RANGES, SERVER, SEVEN, VAN};
use ppspp::{
    calls, messages, Addressing, Held, Lend, Message, Order, OwnedRooms, Refusal, Refused, Store,
};

/// Numbers that no addressing has.
const NO_METHODS: [u32; 6] = [1, 3, 4, 256, 258, u32::MAX];

#[test]
fn methods_have_their_numbers() {
    assert_eq!((BINS.number(), RANGES.number()), (0, 2));
    assert_eq!(Addressing::default(), RANGES);
    assert_eq!(
        (Addressing::of(0), Addressing::of(2)),
        (Some(BINS), Some(RANGES))
    );
    for method in NO_METHODS {
        assert_eq!(Addressing::of(method), None);
    }
}

#[test]
fn orders_are_under_ranges_unless_they_say_otherwise() {
    let order = Order::new([7; 32], 9);
    assert_eq!((order.root, order.length, order.method), ([7; 32], 9, 2));
    assert_eq!(order.known_addressing(), Some(RANGES));
    let bins = order.addressing(BINS);
    assert_eq!((bins.root, bins.length, bins.method), ([7; 32], 9, 0));
    assert_eq!(bins, order.method(0));
    assert_eq!(bins.method(3).known_addressing(), None);
    let build = Order::to_build(9);
    assert_eq!((build.length, build.method), (9, 2));
}

#[test]
fn method_stands_in_the_state() {
    for addressing in [BINS, RANGES] {
        let Pair { van, server, order } = Pair::under(addressing, SEVEN);
        for store in [van, server] {
            assert_eq!(store.view().state[0], 2);
            assert_eq!(store.view().state[9..11], [SEVEN, addressing.number()]);
            // Row 0 is open.
            assert_eq!(store.view().state[11], 2);
            assert_eq!(store.addressing(), addressing);
            assert_eq!(store.order(), Some(order));
        }
    }
    assert_eq!(built(BINS, SEVEN).view().state[11..75], [0; 64]);
    // Without an order it is ranges.
    let store = Store::resume(OwnedRooms::for_length(SEVEN));
    assert_eq!(store.addressing(), RANGES);
}

#[test]
fn method_of_no_paper_is_refused() {
    let content = content(SEVEN);
    for method in NO_METHODS {
        let order = any_order(SEVEN).method(method);
        let length = Some(Refusal::Length);
        assert_eq!(Store::start(order).err(), length);
        assert_eq!(Store::build(order, &content).err(), length);
        // 12 stands before 11.
        let small = || OwnedRooms::for_length(1);
        assert_eq!(Store::start_in(small(), order).err(), length);
        assert_eq!(Store::build_in(small(), order, &content).err(), length);
        let mut van = Pair::under(BINS, SEVEN).van;
        let before = van.clone();
        assert_eq!(van.restart(order).err(), length);
        assert_eq!(van.rebuild(order, &content).err(), length);
        assert_eq!(van, before);
    }
    let order = any_order(SEVEN).addressing(BINS);
    let small = OwnedRooms::for_length(1);
    assert_eq!(Store::start_in(small, order).err(), Some(Refusal::Room));
}

#[test]
fn reading_under_no_method() {
    let datagram = bytes("00000009 0a 07");
    for method in NO_METHODS {
        let mut found = [1, 2, 3, 4, 5, 6, 7];
        // A message, what is refused, the end, and far behind it.
        for at in [4, 5, 6, usize::MAX] {
            assert_eq!(calls::read(&datagram, method, at, &mut found), 12);
            assert_eq!(calls::read(&[], method, at, &mut found), 12);
        }
        assert_eq!(found, [1, 2, 3, 4, 5, 6, 7]);
    }
    let mut found = [0; 7];
    assert_eq!(calls::read(&datagram, 0, 4, &mut found), 1);
    assert_eq!(found, [10, 0, 0, 0, found[4], 0, 5]);
    let empty = bytes("00000009 09 ffffffff");
    assert_eq!(calls::read(&empty, 0, 4, &mut found), 1);
    assert_eq!(found, [265, 0, 0, 0, found[4], 0, 9]);
    let everything = bytes("00000009 08 7fffffff");
    assert_eq!(calls::read(&everything, 0, 4, &mut found), 1);
    assert_eq!(found, [8, 0, 2_147_483_647, 0, found[4], 0, 9]);
}

/// A HANDSHAKE with the profile's options around the root of `any_order`, option 6 of a method.
fn handshake(to: u32, source: u32, method: u32) -> Vec<u8> {
    let options = format!("00010101020020 2a*32 0301 0402 06{method:02x} 09 00000400 ff");
    bytes(&format!("{to:08x} 00 {source:08x} {options}"))
}

#[test]
fn our_handshake_has_option_6() {
    for addressing in [BINS, RANGES] {
        let order = any_order(SEVEN).addressing(addressing);
        let mut store = Store::start(order).expect("a pack's length");
        let method = addressing.number();
        let calling = store.open(VAN).expect("a free row");
        assert_eq!(calling, handshake(0, VAN, method));
        assert_eq!(calling.len(), 60);
        // One that answers, and one that opens a channel and is answered.
        assert_eq!(store.take(0, 0, &handshake(VAN, 9, method)), Ok(&[][..]));
        let answering = store.take(0, 18, &handshake(0, 8, method));
        assert_eq!(answering, Ok(&handshake(8, 18, method)[..]));
    }
}

#[test]
fn option_6_of_the_other_method_is_refused() {
    for (addressing, other) in [(BINS, 2), (RANGES, 0), (BINS, 1), (RANGES, 1), (BINS, 255)] {
        let order = any_order(SEVEN).addressing(addressing);
        let mut store = Store::start(order).expect("a pack's length");
        store.open(VAN).expect("a free row");
        let own = handshake(0, 9, addressing.number());
        store.take(0, SERVER, &own).expect("the order's HANDSHAKE");
        let before = store.clone();
        let mut answer = |datagram: &[u8]| store.take(0, 99, datagram).err().map(Refused::refusal);
        // To channel 0, to the calling row, and again to the open one.
        assert_eq!(answer(&handshake(0, 8, other)), Some(Refusal::Options));
        assert_eq!(answer(&handshake(VAN, 8, other)), Some(Refusal::Options));
        assert_eq!(answer(&handshake(SERVER, 9, other)), Some(Refusal::Options));
        // A closing one has other options than End.
        let closing = handshake(SERVER, 0, other);
        assert_eq!(answer(&closing), Some(Refusal::Unexpected));
        assert_eq!(store, before);
    }
}

#[test]
fn closing_frees_rows_under_either_method() {
    for addressing in [BINS, RANGES] {
        let mut van = Pair::under(addressing, SEVEN).van;
        van.open(18).expect("a free row");
        assert_eq!((van.close(18), van.close(VAN)), (Ok(()), Ok(())));
        assert_eq!(van.channels().count(), 0);
    }
}

#[test]
fn chunk_0_goes_out_in_1226_bytes() {
    let datagram = Pair::under(BINS, SEVEN).written(0, 0x0102);
    assert_eq!(datagram.len(), 1_226);
    let whole = built(BINS, SEVEN);
    let mut wanted = bytes(&format!("{VAN:08x}"));
    for node in [3, 5, 9, 2, 12] {
        let words = &whole.view().hashes[8 * node..][..8];
        wanted.extend(bytes(&format!("04 {node:08x}")));
        wanted.extend(words.iter().flat_map(|word| word.to_be_bytes()));
    }
    wanted.extend(bytes("01 00000000 0000000000000102"));
    wanted.extend(&content(SEVEN)[..1_024]);
    assert_eq!(datagram, wanted);
    // Chunk 6 is its own peak, and the last, of 1,018 bytes.
    let datagram = Pair::under(BINS, SEVEN).written(6, 0);
    assert_eq!(datagram.len(), 4 + 3 * 37 + 13 + 1_018);
    assert_eq!(datagram[4 + 3 * 37..][..5], bytes("01 0000000c"));
}

/// Chunks of seven as they come, and what the ACK of each names, by hand: under bins the largest subtree that is held,
/// under ranges the longest run.
const COMING: [(u32, [u32; 2], [u32; 2]); 7] = [
    (6, [6, 6], [6, 6]),
    (0, [0, 0], [0, 0]),
    (3, [3, 3], [3, 3]),
    (5, [5, 5], [5, 6]),
    (1, [0, 1], [0, 1]),
    (4, [4, 5], [3, 6]),
    (2, [0, 3], [0, 6]),
];

#[test]
fn vans_under_either_method_get_the_same_bytes() {
    let [mut bins, mut ranges] = [BINS, RANGES].map(|addressing| Pair::under(addressing, SEVEN));
    assert_eq!(bins.order.root, ranges.order.root);
    for (chunk, subtree, run) in COMING {
        for (pair, [first, last]) in [(&mut bins, subtree), (&mut ranges, run)] {
            let datagram = pair.written(chunk, 1);
            let ack = pair.van.take(3, 0, &datagram).expect("a true chunk");
            let delay = 2;
            let wanted = Message::Ack { first, last, delay };
            let addressing = pair.order.known_addressing().expect("one of the two");
            assert!(messages(addressing, ack).eq([Ok((4, wanted))]));
            pair.server.take(0, 0, ack).expect("sound");
        }
        // What one has, the other does not understand: bins in place of ranges.
        let datagram = bins.written(chunk, 1);
        assert!(ranges.van.take(3, 0, &datagram).is_err());
    }
    let held = Held {
        count: 7,
        whole: true,
    };
    assert_eq!((bins.van.ask(), ranges.van.ask()), (Ok(held), Ok(held)));
    assert_eq!(bins.van.bytes(), content(SEVEN));
    assert_eq!(ranges.van.bytes(), content(SEVEN));
    let [by_bins, by_ranges] = [&bins, &ranges].map(|pair| pair.van.view());
    assert_eq!(by_bins.hashes, by_ranges.hashes);
    assert_eq!(by_bins.trusted, by_ranges.trusted);
    let server = [&bins, &ranges].map(|pair| pair.server.view().has[0]);
    assert_eq!(server, [0x7f; 2]);
}

#[test]
fn store_composes_and_reads_under_its_own_method() {
    let Pair {
        mut van,
        mut server,
        ..
    } = Pair::under(BINS, SEVEN);
    let request = van.compose(SERVER).and_then(|c| c.request(4, 7));
    let request = request.expect("a bin's chunks").finish().to_vec();
    assert_eq!(request, bytes("00000005 08 0000000b"));
    let wanted = Message::Request { first: 4, last: 7 };
    assert!(server.messages(&request).eq([Ok((4, wanted))]));
    server.take(0, 0, &request).expect("sound");
    let wants: Vec<u32> = (0..7).filter(|&c| server.peer_wants(0, c)).collect();
    assert_eq!(wants, [4, 5, 6]);
    let nameless = van.compose(SERVER).and_then(|c| c.request(4, 6));
    assert_eq!(nameless.err(), Some(Refusal::Malformed));
    // In rooms without an order, ranges.
    let mut rooms = OwnedRooms::for_length(1);
    rooms.lend().state.fill(0);
    let mut store = Store::resume(rooms);
    let request = store.compose(SERVER).and_then(|c| c.request(4, 6));
    let request = request.expect("a range").finish();
    assert_eq!(request, bytes("00000005 08 00000004 00000006"));
}
