//! Stores in rooms that are lent, of any sizes.

use crate::support::{any_order, built, content, RANGES, SEVEN};
use ppspp::sizes::{self, fixed};
use ppspp::{Held, Lend, Order, OwnedRooms, Refusal, Refused, Rooms, Store, View};

/// Rooms for seven chunks, without an allocator. The trusted bits are 2 for each of 8 leaf places.
struct Fixed {
    state: [u32; sizes::STATE_WORDS],
    chunks: [u8; SEVEN as usize],
    map: [u32; fixed::map_words(7)],
    hashes: [u32; fixed::hash_words(7)],
    trusted: [u32; fixed::trusted_words(7)],
    has: [u32; fixed::peer_words(7)],
    wants: [u32; fixed::peer_words(7)],
    reply: [u8; sizes::REPLY_BYTES],
}

/// Words and bytes that were there before.
const FIXED: Fixed = Fixed {
    state: [0xa5a5_a5a5; sizes::STATE_WORDS],
    chunks: [0xa5; SEVEN as usize],
    map: [0xa5a5_a5a5; fixed::map_words(7)],
    hashes: [0xa5a5_a5a5; fixed::hash_words(7)],
    trusted: [0xa5a5_a5a5; fixed::trusted_words(7)],
    has: [0xa5a5_a5a5; fixed::peer_words(7)],
    wants: [0xa5a5_a5a5; fixed::peer_words(7)],
    reply: [0xa5; sizes::REPLY_BYTES],
};

impl Fixed {
    fn rooms(&mut self) -> Rooms<'_> {
        Rooms {
            state: &mut self.state,
            chunks: &mut self.chunks,
            map: &mut self.map,
            hashes: &mut self.hashes,
            trusted: &mut self.trusted,
            has: &mut self.has,
            wants: &mut self.wants,
            reply: &mut self.reply,
        }
    }
}

/// The same rooms without the last element of one of them.
fn shortened(rooms: Rooms<'_>, which: usize) -> Rooms<'_> {
    fn cut<T>(room: &mut [T], by: usize) -> &mut [T] {
        let len = room.len() - by;
        &mut room[..len]
    }
    let by = |number| usize::from(which == number);
    Rooms {
        state: cut(rooms.state, by(0)),
        chunks: cut(rooms.chunks, by(1)),
        map: cut(rooms.map, by(2)),
        hashes: cut(rooms.hashes, by(3)),
        trusted: cut(rooms.trusted, by(4)),
        has: cut(rooms.has, by(5)),
        wants: cut(rooms.wants, by(6)),
        reply: cut(rooms.reply, by(7)),
    }
}

#[test]
fn store_stands_in_lent_rooms() {
    let mut there = FIXED;
    let seven = Order::to_build(SEVEN);
    let store = Store::build_in(there.rooms(), seven, &content(SEVEN)).expect("rooms of size");
    let order = store.order().expect("it was built");
    assert_eq!(
        store.ask(),
        Ok(Held {
            count: 7,
            whole: true
        })
    );
    assert_eq!(built(RANGES, SEVEN).order(), Some(order));
    // The rooms keep the store when it is dropped.
    let later = Store::resume(there.rooms());
    assert_eq!(later.order(), Some(order));
    assert_eq!(later.bytes(), content(SEVEN));
}

#[test]
fn each_room_that_is_too_small_is_answered() {
    for which in 0..8 {
        let mut there = FIXED;
        let rooms = shortened(there.rooms(), which);
        let started = Store::start_in(rooms, any_order(SEVEN));
        assert_eq!(started.err(), Some(Refusal::Room), "room {which}");
        let rooms = shortened(there.rooms(), which);
        let built = Store::build_in(rooms, Order::to_build(SEVEN), &content(SEVEN));
        assert_eq!(built.err(), Some(Refusal::Room), "room {which}");
        let mut before = FIXED;
        assert_eq!(there.rooms(), before.rooms(), "room {which}");
    }
}

#[test]
fn rooms_that_shrink_between_calls_are_answered() {
    for which in 0..8 {
        let mut there = FIXED;
        let mut store = Store::start_in(there.rooms(), any_order(SEVEN)).expect("rooms of size");
        store.open(1).expect("a free row");
        let mut store = Store::resume(shortened(there.rooms(), which));
        let room = Some(Refusal::Room);
        assert_eq!(store.open(2).err(), room, "room {which}");
        let taken = store.take(0, 2, &[0; 4]).err();
        assert_eq!(taken, room.map(Refused::from), "room {which}");
        assert_eq!(store.write(1, 0, 0).err(), room, "room {which}");
        let composed = store.compose(1).err();
        assert_eq!(composed, room.filter(|_| which == 7), "room {which}");
        // Asking takes the state and the map alone.
        let asked = store.ask().err();
        assert_eq!(
            asked,
            room.filter(|_| [0, 2].contains(&which)),
            "room {which}"
        );
    }
}

#[test]
fn rooms_of_no_element_are_answered() {
    let mut rooms = Rooms {
        state: &mut [],
        chunks: &mut [],
        map: &mut [],
        hashes: &mut [],
        trusted: &mut [],
        has: &mut [],
        wants: &mut [],
        reply: &mut [],
    };
    let started = Store::start_in(rooms.lend(), any_order(1));
    assert_eq!(started.err(), Some(Refusal::Room));
    let mut store = Store::resume(rooms);
    assert_eq!(store.ask(), Err(Refusal::Room));
    assert_eq!(store.compose(1).err(), Some(Refusal::Room));
}

/// Lends rooms for writing, and others for reading, whose reply room is empty.
struct Others(OwnedRooms, OwnedRooms);

impl Lend for Others {
    fn lend(&mut self) -> Rooms<'_> {
        self.0.lend()
    }

    fn view(&self) -> View<'_> {
        let reply = &[];
        View {
            reply,
            ..self.1.view()
        }
    }
}

#[test]
#[should_panic(expected = "out of range")]
fn rooms_that_are_not_the_same_panic() {
    let rooms = OwnedRooms::for_length(SEVEN);
    let others = Others(rooms.clone(), rooms);
    let mut store = Store::start_in(others, any_order(SEVEN)).expect("rooms of size");
    let _ = store.open(1);
}

#[test]
fn rooms_may_be_larger_and_are_given_back() {
    let mut rooms = OwnedRooms::for_length(sizes::MAX_LENGTH);
    let abc = Order::to_build(3);
    let store = Store::build_in(&mut rooms, abc, b"abc").expect("larger rooms");
    assert_eq!(store.bytes(), b"abc");
    let first = rooms.view().map[0];
    assert_eq!(first, 1);
    let store = Store::start_in(rooms, any_order(sizes::MAX_LENGTH)).expect("rooms for any pack");
    assert_eq!(store.missing().count(), 512);
    assert_eq!(store.into_rooms().view().map[0], 0);
}
