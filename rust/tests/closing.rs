//! Closing channels of ours, open and calling.

use crate::support::{any_order, bytes, Pair, SERVER, SEVEN, VAN};
use ppspp::{Lend, OwnedRooms, Phase, Refusal, Store};

/// The IDs of the channels, by row.
fn ids(store: &Store) -> Vec<u32> {
    store.channels().map(|channel| channel.id).collect()
}

#[test]
fn calls_that_nobody_answers_are_closed() {
    let mut store = Store::start(any_order(SEVEN)).expect("a pack's length");
    for id in 1..=16 {
        store.open(id).expect("a free row");
    }
    assert_eq!(store.open(17).err(), Some(Refusal::ChannelsFull));
    // A closing HANDSHAKE alone does not free a calling row.
    let closing = bytes("00000003 00 00000000 ff");
    let taken = store.take(0, 0, &closing);
    assert_eq!(taken, Err(Refusal::Unexpected.into()));
    assert_eq!(store.close(3), Ok(()));
    assert_eq!(store.channel(3), None);
    store.open(17).expect("the freed row");
    assert_eq!(store.channel(17).map(|channel| channel.row), Some(2));
    for id in (1..=17).filter(|&id| id != 3) {
        assert_eq!(store.close(id), Ok(()), "{id}");
    }
    assert_eq!(ids(&store), []);
}

#[test]
fn open_channel_is_closed_and_its_peer_not_told() {
    let Pair {
        mut van, server, ..
    } = Pair::new(SEVEN);
    van.open(18).expect("a free row");
    let before = server.clone();
    assert_eq!(van.close(VAN), Ok(()));
    assert_eq!(ids(&van), [18]);
    // The row's four words are as after starting.
    assert_eq!(van.view().state[11..15], [0; 4]);
    assert_eq!(server, before);
    let phase = server.channel(SERVER).map(|channel| channel.phase);
    assert_eq!(phase, Some(Phase::Open));
}

#[test]
fn only_the_row_changes() {
    let Pair {
        mut van,
        mut server,
        ..
    } = Pair::new(SEVEN);
    let written = server.write(SERVER, 2, 0).expect("a chunk of the pack");
    van.take(0, 0, written).expect("a true chunk");
    let before = van.clone();
    van.compose(SERVER).expect("room");
    let composed = van.view().reply.to_vec();
    van.close(VAN).expect("it is open");
    assert_eq!(van.view().reply, composed);
    let mut rooms = van.into_rooms();
    let mut wanted = before.into_rooms();
    wanted.lend().state[11..15].fill(0);
    wanted.lend().reply.copy_from_slice(&composed);
    assert_eq!(rooms.lend(), wanted.lend());
}

#[test]
fn id_without_a_row_is_refused() {
    let mut van = Pair::new(SEVEN).van;
    let before = van.clone();
    for id in [0, 18, SERVER, u32::MAX] {
        assert_eq!(van.close(id), Err(Refusal::NoChannel), "{id}");
    }
    assert_eq!(van, before);
}

#[test]
fn store_without_an_order_or_room_is_refused() {
    let mut store = Store::resume(OwnedRooms::for_length(SEVEN));
    assert_eq!(store.close(0), Err(Refusal::Length));
    assert_eq!(store.close(VAN), Err(Refusal::Length));
    let mut rooms = Pair::new(SEVEN).van.into_rooms();
    let mut lent = rooms.lend();
    lent.reply = &mut [];
    assert_eq!(Store::resume(lent).close(VAN), Err(Refusal::Room));
}
