//! Every number, given once by a case made by hand; each refusal leaves every room as it was.

use crate::support::{any_order, bytes, content, node, Pair, RANGES, SERVER, SEVEN, VAN};
use ppspp::{Lend, Order, OwnedRooms, Refusal, Refused, Store};

/// A call must be refused so, and must leave every room as it was.
fn refused<R, T, E>(
    store: &mut Store<R>,
    call: impl FnOnce(&mut Store<R>) -> Result<T, E>,
    wanted: E,
) where
    R: Lend + Clone + PartialEq + std::fmt::Debug,
    E: PartialEq + std::fmt::Debug,
{
    let before = store.clone();
    assert_eq!(call(store).err().as_ref(), Some(&wanted));
    assert_eq!(*store, before, "{wanted:?}");
}

/// Taking in a datagram must be refused so. The ID is free.
fn take_refused(store: &mut Store, datagram: &[u8], wanted: impl Into<Refused>) {
    let take = |s: &mut Store| s.take(0, 99, datagram).map(<[u8]>::len);
    refused(store, take, wanted.into());
}

/// The same for hexadecimal digits.
fn hex_refused(store: &mut Store, digits: &str, wanted: Refusal) {
    take_refused(store, &bytes(digits), wanted);
}

#[test]
fn size() {
    let mut van = Pair::new(SEVEN).van;
    hex_refused(&mut van, "", Refusal::Size);
    hex_refused(&mut van, "000000", Refusal::Size);
    hex_refused(&mut van, "00000011 0a*2045", Refusal::Size);
    assert!(van.take(0, 0, &bytes("00000011 0a*2044")).is_ok());
}

#[test]
fn malformed() {
    let mut van = Pair::new(SEVEN).van;
    hex_refused(&mut van, "00000011 07", Refusal::Malformed);
    hex_refused(
        &mut van,
        "00000011 03 00000005 00000004",
        Refusal::Malformed,
    );
    // One node twice: the messages can be read one by one.
    let node = "04 00000000 00000003 07*32";
    hex_refused(
        &mut van,
        &format!("00000011 {node} {node}"),
        Refusal::Malformed,
    );
}

#[test]
fn unexpected() {
    let mut van = Pair::new(SEVEN).van;
    hex_refused(&mut van, "00000000 00 00000008 ff 0a", Refusal::Unexpected);
    refused(
        &mut van,
        |s| s.write(8, 0, 0).map(<[u8]>::len),
        Refusal::Unexpected,
    );
    van.open(18).expect("a free row");
    hex_refused(&mut van, "00000012 0a", Refusal::Unexpected);
}

#[test]
fn options() {
    let mut van = Pair::new(SEVEN).van;
    let fixed = "00010101020020 2a*32 03010402060209 00000400 ff";
    hex_refused(
        &mut van,
        &format!("00000000 00 00000008 {fixed}"),
        Refusal::Options,
    );
    hex_refused(&mut van, "00000000 00 00000008 ff", Refusal::Options);
}

#[test]
fn no_channel() {
    let mut van = Pair::new(SEVEN).van;
    hex_refused(&mut van, "00000063", Refusal::NoChannel);
    hex_refused(&mut van, "00000000 0a", Refusal::NoChannel);
}

#[test]
fn channels_full() {
    let mut store = Store::start(any_order(SEVEN)).expect("a pack's length");
    for id in 1..=16 {
        store.open(id).expect("a free row");
    }
    refused(
        &mut store,
        |s| s.open(17).map(<[u8]>::len),
        Refusal::ChannelsFull,
    );
    let fixed = "00010101020020 2a*32 03010402060209 00000400 ff";
    let call = format!("00000000 00 00000008 {fixed}");
    hex_refused(&mut store, &call, Refusal::ChannelsFull);
}

#[test]
fn range() {
    let mut van = Pair::new(SEVEN).van;
    assert!(van
        .take(0, 0, &bytes("00000011 03 00000006 00000006"))
        .is_ok());
    hex_refused(&mut van, "00000011 03 00000007 00000007", Refusal::Range);
    hex_refused(&mut van, "00000011 08 00000000 ffffffff", Refusal::Range);
}

#[test]
fn chunk_size() {
    let mut pair = Pair::new(SEVEN);
    let mut datagram = pair.written(0, 0);
    datagram.push(0);
    take_refused(&mut pair.van, &datagram, Refusal::ChunkSize);
    datagram.truncate(datagram.len() - 2);
    take_refused(&mut pair.van, &datagram, Refusal::ChunkSize);
}

#[test]
fn hash_missing() {
    let mut pair = Pair::new(SEVEN);
    let mut room = [0; 2_048];
    let chunk = &content(SEVEN)[..1_024];
    let data = ppspp::Composer::begin(&mut room, RANGES, VAN).and_then(|c| c.data(0, 0, chunk));
    let datagram = data.expect("DATA fits").finish();
    take_refused(&mut pair.van, datagram, Refused::missing(node(3)));
}

#[test]
fn hash_mismatch() {
    let mut pair = Pair::new(SEVEN);
    let datagram = pair.written(0, 0);
    // A byte of the chunk; then a byte of the first hash, a peak's, which stands behind destination, type and range.
    for (place, missed) in [(datagram.len() - 1, 3), (4 + 1 + 8, 7)] {
        let mut garbled = datagram.clone();
        garbled[place] ^= 1;
        take_refused(&mut pair.van, &garbled, Refused::mismatch(node(missed)));
    }
    assert!(pair.van.take(0, 0, &datagram).is_ok());
}

#[test]
fn room() {
    let rooms = OwnedRooms::for_length(SEVEN);
    let longer = any_order(9 * 1_024);
    assert_eq!(Store::start_in(rooms, longer).err(), Some(Refusal::Room));
    let mut van = Pair::new(SEVEN).van;
    refused(&mut van, |s| s.restart(longer), Refusal::Room);
    refused(
        &mut van,
        |s| s.rebuild(Order::to_build(9_216), &content(9_216)),
        Refusal::Room,
    );
}

#[test]
fn length() {
    for length in [0, 524_289, u32::MAX] {
        assert_eq!(Store::start(any_order(length)).err(), Some(Refusal::Length));
    }
    for length in [0, 524_289] {
        let built = Store::build(Order::to_build(length), &content(length));
        assert_eq!(built.err(), Some(Refusal::Length));
    }
    let mut van = Pair::new(SEVEN).van;
    refused(&mut van, |s| s.restart(any_order(0)), Refusal::Length);
    refused(
        &mut van,
        |s| s.rebuild(Order::to_build(SEVEN), &content(SEVEN - 1)),
        Refusal::Length,
    );
    refused(
        &mut van,
        |s| s.rebuild(Order::to_build(SEVEN), &content(SEVEN + 1)),
        Refusal::Length,
    );
}

#[test]
fn not_held() {
    let mut van = Pair::new(SEVEN).van;
    refused(
        &mut van,
        |s| s.write(VAN, 6, 0).map(<[u8]>::len),
        Refusal::NotHeld,
    );
}

#[test]
fn id() {
    let mut server = Pair::new(SEVEN).server;
    refused(&mut server, |s| s.open(0).map(<[u8]>::len), Refusal::Id);
    refused(
        &mut server,
        |s| s.open(SERVER).map(<[u8]>::len),
        Refusal::Id,
    );
    // A HANDSHAKE that would open a channel under an ID in use.
    let mut other = Store::start(server.order().expect("it was built")).expect("the same length");
    let calling = other.open(1).expect("a free row");
    refused(
        &mut server,
        |s| s.take(0, SERVER, calling).map(<[u8]>::len),
        Refusal::Id.into(),
    );
}
