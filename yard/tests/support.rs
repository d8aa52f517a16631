//! Settings, and stores that share a channel.

use ppspp::{Addressing, Lend, Order, OwnedRooms, Rooms, Store};
use yard::arguments::defaults;
use yard::radio::Faults;
use yard::run::Settings;

/// A short run with everything on.
pub fn short(seed: u64) -> Settings {
    Settings {
        vans: 8,
        chunks: 24,
        seed,
        ..defaults()
    }
}

/// The same under bins.
pub fn short_bins(seed: u64) -> Settings {
    Settings {
        addressing: Addressing::Bins,
        ..short(seed)
    }
}

/// The first without faults, drop-outs and attacker.
pub fn quiet(seed: u64) -> Settings {
    Settings {
        faults: Faults::NONE,
        attacker: false,
        drop_outs: false,
        ..short(seed)
    }
}

/// A pack of three chunks, the last of 452 bytes.
pub fn content() -> Vec<u8> {
    (0..=250).cycle().take(2_500).collect()
}

/// A whole store of that pack.
pub fn built(addressing: Addressing) -> Store {
    let order = Order::to_build(2_500).addressing(addressing);
    Store::build(order, &content()).expect("a pack's length")
}

/// The order of that pack under ranges, and the datagram of each chunk to channel 17.
pub fn chunks() -> (Order, Vec<Vec<u8>>) {
    chunks_under(Addressing::Ranges)
}

/// The same under an addressing.
pub fn chunks_under(addressing: Addressing) -> (Order, Vec<Vec<u8>>) {
    let mut server = built(addressing);
    let order = server.order().expect("it was built");
    let mut van = Store::start(order).expect("a pack's length");
    let calling = van.open(17).expect("a free row");
    server.take(0, 5, calling).expect("the order's HANDSHAKE");
    let written = (0..3).map(|chunk| server.write(5, chunk, 0).expect("it is held").to_vec());
    (order, written.collect())
}

/// An empty store under an order, with channel 17 open to a peer's channel 5.
pub fn van(order: Order) -> Store {
    let mut van = Store::start(order).expect("a pack's length");
    van.open(17).expect("a free row");
    let composer = van.compose(17).and_then(|c| c.handshake(5, &order.root));
    let answer = composer.expect("it fits").finish().to_vec();
    assert_eq!(van.take(0, 0, &answer), Ok(&[][..]));
    van
}

/// The store with something changed in its rooms.
pub fn spoilt(store: &Store, change: impl Fn(Rooms<'_>)) -> Store {
    let mut rooms: OwnedRooms = store.clone().into_rooms();
    change(rooms.lend());
    Store::resume(rooms)
}
