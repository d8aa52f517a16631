//! Rooms with anything in them: every call answers, and looking never panics.

use crate::support::{any_order, bytes, Pair, BINS, RANGES, SEVEN, VAN};
use ppspp::sizes::STATE_WORDS;
use ppspp::{sys, Lend, Order, OwnedRooms, Refusal, Store};

/// A store whose state room is as it was but for what is done to it.
fn with_state(store: Store, change: impl FnOnce(&mut [u32])) -> Store {
    let mut rooms = store.into_rooms();
    change(rooms.lend().state);
    Store::resume(rooms)
}

/// Every call but starting and building must be refused so.
fn all_refused(mut store: Store, wanted: Refusal) {
    assert_eq!(store.open(1).err(), Some(wanted));
    for datagram in [&bytes("00000011")[..], b"abc"] {
        assert_eq!(store.take(0, 1, datagram), Err(wanted.into()));
    }
    assert_eq!(store.write(VAN, 0, 0).err(), Some(wanted));
    assert_eq!(store.ask().err(), Some(wanted));
    assert_eq!(store.order(), None);
    assert_eq!((store.bytes(), store.chunk(0)), (&[][..], None));
    assert_eq!(store.missing().next(), None);
    assert_eq!(store.channels().next(), None);
    assert!(!store.holds(0) && !store.peer_has(0, 0) && !store.peer_wants(0, 0));
    assert!(!store.trusts(7));
    // Composing needs no order.
    assert!(store.compose(1).is_ok());
}

#[test]
fn state_of_zeros_has_no_order() {
    let mut store = Store::resume(OwnedRooms::for_length(SEVEN));
    all_refused(store.clone(), Refusal::Length);
    assert_eq!(store.restart(any_order(SEVEN)), Ok(()));
    assert!(store.open(1).is_ok());
}

#[test]
fn state_of_another_version_has_no_order() {
    for version in [0, 1, 3, 258, 1 << 24, u32::MAX] {
        let van = with_state(Pair::new(SEVEN).van, |state| state[0] = version);
        all_refused(van, Refusal::Length);
    }
}

#[test]
fn state_of_no_sound_length_has_no_order() {
    for length in [0, 524_289, u32::MAX] {
        let van = with_state(Pair::new(SEVEN).van, |state| state[9] = length);
        all_refused(van, Refusal::Length);
    }
}

#[test]
fn state_of_no_such_addressing_has_no_order() {
    for method in [1, 3, 4, 258, u32::MAX] {
        let van = with_state(Pair::new(SEVEN).van, |state| state[10] = method);
        all_refused(van, Refusal::Length);
    }
}

#[test]
fn phase_of_no_name_is_free() {
    for phase in [0, 3, u32::MAX] {
        let at = sys::PPSPP_WORD_ROWS + sys::PPSPP_ROW_PHASE;
        let mut van = with_state(Pair::new(SEVEN).van, |state| state[at] = phase);
        assert_eq!(van.channel(VAN), None);
        assert_eq!(
            van.take(0, 1, &bytes("00000011")),
            Err(Refusal::NoChannel.into())
        );
    }
}

#[test]
fn calling_row_has_no_peer() {
    let mut server = Pair::new(SEVEN).server;
    let datagram = bytes("00000005 03 00000001 00000001 08 00000002 00000002");
    server.take(0, 0, &datagram).expect("sound");
    assert!(server.peer_has(0, 1) && server.peer_wants(0, 2));
    let at = sys::PPSPP_WORD_ROWS + sys::PPSPP_ROW_PHASE;
    let calling = with_state(server, |state| state[at] = sys::PPSPP_CALLING);
    assert_eq!(calling.view().has[0], 0b10);
    assert!(!calling.peer_has(0, 1) && !calling.peer_wants(0, 2));
}

#[test]
fn bits_behind_the_tree_are_no_nodes() {
    let built = Store::build(Order::to_build(3), b"abc");
    let mut rooms = built.expect("its length").into_rooms();
    rooms.lend().trusted.fill(u32::MAX);
    let store = Store::resume(rooms);
    let trusted: Vec<u64> = (0..64).filter(|&node| store.trusts(node)).collect();
    assert_eq!(trusted, [0]);
}

/// Numbers that look random, by a linear congruence (Knuth's MMIX).
struct Numbers(u64);

impl Numbers {
    fn next(&mut self) -> u32 {
        self.0 = self
            .0
            .wrapping_mul(6_364_136_223_846_793_005)
            .wrapping_add(1_442_695_040_888_963_407);
        (self.0 >> 32) as u32
    }
}

/// Fills every room; the state's version and addressing stay sound, its length is at most that of 16 chunks.
fn garble(rooms: &mut OwnedRooms, numbers: &mut Numbers) {
    let lent = rooms.lend();
    for words in [
        lent.state,
        lent.map,
        lent.hashes,
        lent.trusted,
        lent.has,
        lent.wants,
    ] {
        words.fill_with(|| numbers.next() % 4 * (numbers.next() % 5));
    }
    for bytes in [lent.chunks, lent.reply] {
        bytes.fill_with(|| numbers.next() as u8);
    }
    let state = rooms.lend().state;
    state[sys::PPSPP_WORD_VERSION] = sys::PPSPP_LAYOUT_VERSION;
    state[sys::PPSPP_WORD_LENGTH] = 1 + numbers.next() % (16 * 1_024);
    state[sys::PPSPP_WORD_ADDRESSING] = 2 * (numbers.next() % 2);
}

#[test]
fn garbled_rooms_give_an_answer() {
    let mut numbers = Numbers(1);
    let datagrams = [BINS, RANGES].map(|addressing| Pair::under(addressing, SEVEN).written(6, 0));
    for _ in 0..2_000 {
        let mut rooms = OwnedRooms::for_length(SEVEN);
        garble(&mut rooms, &mut numbers);
        let mut store = Store::resume(rooms);
        let n = store.order().expect("a sound length").chunk_count();
        // The answers depend on what is there; that they come does not.
        let _ = store.open(numbers.next() % 3);
        for datagram in &datagrams {
            let _ = store.take(0, numbers.next() % 3, datagram);
        }
        let _ = store.take(0, 1, &bytes("00000001 03 00000000"));
        let _ = store.take(0, 1, &bytes("00000001 03 00000000 00000000"));
        let _ = store.write(numbers.next() % 3, numbers.next() % 20, 0);
        let _ = store.close(numbers.next() % 3);
        look_everywhere(&store, n);
    }
}

/// Looks at every chunk and row, and some that are none.
fn look_everywhere(store: &Store, n: u32) {
    let held = (0..600).filter(|&chunk| store.holds(chunk)).count();
    let asked = store.ask().expect("the map is large enough");
    assert_eq!(
        (asked.count as usize, asked.whole),
        (held, held == n as usize)
    );
    let rows = store.view().state[sys::PPSPP_WORD_ROWS..].chunks(sys::PPSPP_ROW_WORDS);
    let used = rows.filter(|row| [1, 2].contains(&row[0])).count();
    assert_eq!(store.channels().count(), used);
    for chunk in [0, n - 1, n, 511, 512, u32::MAX] {
        assert!(chunk < n || store.chunk(chunk).is_none());
        for row in [0, 15, 16, u32::MAX] {
            let told = store.peer_has(row, chunk) || store.peer_wants(row, chunk);
            assert!(!told || (row < 16 && chunk < n));
        }
    }
}

#[test]
fn rows_behind_the_table_are_none() {
    // Rooms that are longer than they must be, with what would be open rows and set bits behind the table's.
    let mut words = vec![sys::PPSPP_OPEN; STATE_WORDS + 400];
    let mut bits = vec![u32::MAX; 100];
    let mut rooms = OwnedRooms::for_length(SEVEN);
    let mut lent = rooms.lend();
    (lent.state, lent.has) = (&mut words, &mut bits);
    let store = Store::start_in(lent, any_order(SEVEN)).expect("rooms of size");
    assert_eq!(
        (store.view().state[STATE_WORDS], store.view().has[16]),
        (2, u32::MAX)
    );
    assert_eq!(store.channels().count(), 0);
    assert!(!store.peer_has(16, 0));
}
