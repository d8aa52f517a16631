//! Traps 116 and 117: opening a channel, and a channel that is calling.

use super::*;

/// Our HANDSHAKE to channel 0.
fn call_of(root: &Digest, id: u32) -> Vec<u8> {
    to(0, &[&handshake(id, &fixed(root))])
}

/// "A calling row, the lowest free, both bit rows cleared; the reply is our
/// HANDSHAKE to channel 0."
#[test]
fn opening_a_channel() {
    let pack = Pack::new(SEVEN);
    let mut caller = pack.started();
    caller.has[1] = 0x7f;
    caller.wants[1] = u32::MAX;
    let mut wanted = caller.clone();
    let reply = call_of(&pack.root(), 0x0102_0304);
    assert_eq!(caller.open(0x0102_0304), (0, reply.clone()));
    assert_eq!(reply.len(), 60);
    assert_eq!(reply[..9], [0, 0, 0, 0, 0, 1, 2, 3, 4]);
    wanted.state.rows[1] = Row {
        phase: Phase::Calling,
        id: 0x0102_0304,
        peer: 0,
        choked: false,
    };
    wanted.has[1] = 0;
    wanted.wants[1] = 0;
    wanted.reply[..60].copy_from_slice(&reply);
    assert!(caller == wanted);
}

#[test]
fn trap_116_ids_in_use() {
    let pack = Pack::new(SEVEN);
    let mut caller = pack.started();
    assert_eq!(caller.open(0).0, 14);
    assert_eq!(caller.open(5).0, 14);
    for id in 10..25 {
        assert_eq!(caller.open(id).0, 0);
        assert_eq!(caller.open(id).0, 14);
    }
    // All rows are in use: 14 before 6.
    for id in [0, 5, 10, 24] {
        assert_eq!(caller.open(id).0, 14);
    }
    assert_eq!(caller.open(25).0, 6);
    // One closed: its row is used.
    assert_eq!(caller.number(5, &[&closing()]), 0);
    assert_eq!(caller.open(5).0, 0);
    assert_eq!(caller.state.rows[0].phase, Phase::Calling);
    assert_eq!(caller.open(25).0, 6);
    // A calling row's ID is in use for a peer's opening too.
    let opening = to(0, &[&handshake(9, &fixed(&pack.root()))]);
    assert_eq!(caller.take(0, 10, &opening).0, 14);
}

/// A start frees all rows.
#[test]
fn sixteen_again_after_a_start() {
    let pack = Pack::new(SEVEN);
    let mut caller = pack.started();
    for round in 0..2 {
        assert_eq!(caller.start(&pack.root(), SEVEN), 0);
        for id in 1..=16 {
            assert_eq!(caller.open(id).0, 0, "{round}");
        }
        assert_eq!(caller.open(17).0, 6);
    }
}

#[test]
fn trap_117_a_calling_channel() {
    let pack = Pack::new(SEVEN);
    let mut caller = pack.started();
    assert_eq!(caller.open(6).0, 0);
    let calling = caller.clone();
    let opts = fixed(&pack.root());
    for (messages, number) in [
        (CHOKE.to_vec(), 3),
        (have(0, 0), 3),
        (have(0, 7), 3),
        (integrity(0, 0, &[0; 32]), 3),
        (data(0, 0, 0, &[]), 3),
        (closing(), 3),
        (handshake(8, &[255]), 4),
        (handshake(8, &[0, 1, 255]), 4),
        (handshake(0, &opts), 3),
        // B1: a keepalive is no other message.
        (vec![], 0),
    ] {
        let datagram = to(6, &[&messages]);
        assert_eq!(caller.take(0, 0, &datagram), (number, vec![]));
        assert!(caller == calling);
    }
    let good = to(6, &[&handshake(8, &opts)]);
    assert_eq!(caller.take(0, 0, &good), (0, vec![]));
    let mut open = calling;
    open.state.rows[1].phase = Phase::Open;
    open.state.rows[1].peer = 8;
    assert!(caller == open);
    assert_eq!(caller.take(0, 0, &good), (0, vec![]));
    assert_eq!(caller.number(6, &[&handshake(7, &opts)]), 3);
    assert_eq!(caller.number(6, &[&CHOKE]), 0);
}

/// States that no call writes: for a datagram the lowest row in use with an ID
/// counts, and channel 0 has no row; for a chunk to be written the lowest open
/// row with an ID counts, also with ID 0.
#[test]
fn rows_that_no_call_writes() {
    let pack = Pack::new(SEVEN);
    let mut caller = pack.built();
    let row = |phase, id, peer| Row {
        phase,
        id,
        peer,
        choked: true,
    };
    caller.state.rows[..6].copy_from_slice(&[
        row(Phase::Free, 4, 1),
        row(Phase::Calling, 4, 2),
        row(Phase::Open, 4, 3),
        row(Phase::Open, 0, 0),
        row(Phase::Open, 8, 0),
        row(Phase::Open, 8, 7),
    ]);
    assert_eq!(caller.number(4, &[&CHOKE]), 3);
    assert_eq!(caller.write(4, 0, 0).1[..4], [0, 0, 0, 3]);
    assert_eq!(caller.number(0, &[&CHOKE]), 5);
    assert_eq!(caller.number(0, &[]), 5);
    assert_eq!(caller.write(0, 0, 0).1[..4], [0, 0, 0, 0]);
    assert_eq!(caller.number(8, &[&handshake(7, &fixed(&pack.root()))]), 3);
    // The calling row 1 opens, and keeps its ID and its mark.
    let good = handshake(6, &fixed(&pack.root()));
    assert_eq!(caller.number(4, &[&good]), 0);
    assert_eq!(caller.state.rows[1], row(Phase::Open, 4, 6));
    assert_eq!(caller.write(4, 0, 0).1[..4], [0, 0, 0, 6]);
    // A closing HANDSHAKE, though the record has peer 0.
    assert_eq!(caller.number(8, &[&closing()]), 0);
    assert_eq!(caller.state.rows[4], Row::default());
    assert_eq!(caller.number(8, &[&UNCHOKE]), 0);
    assert!(!caller.state.rows[5].choked);
    // Row 0 is free, whatever else stands in it.
    caller.opened_by_peer(1, 12);
    assert_eq!(caller.state.rows[0].id, 1);
}
