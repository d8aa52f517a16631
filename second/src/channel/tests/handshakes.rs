//! Traps 40 to 73: HANDSHAKE.

use super::*;

/// A store for seven chunks with channel 5 open to 9, and its fixed options.
fn seven() -> (Caller, Vec<u8>) {
    let pack = Pack::new(SEVEN);
    (pack.started(), fixed(&pack.root()))
}

/// The number for options in a HANDSHAKE that would open a channel.
fn opening(options: &[u8]) -> u8 {
    let (mut caller, _) = seven();
    caller.take(0, 6, &to(0, &[&handshake(9, options)])).0
}

#[test]
fn traps_40_to_45_alone() {
    let (mut caller, opts) = seven();
    let good = handshake(9, &opts);
    for (messages, number) in [
        ([&good[..], &CHOKE], 3),
        ([&good, &[255]], 3),
        ([&CHOKE, &good], 3),
        ([&REFUSED, &good], 2),
        ([&good, &REFUSED], 3),
        ([&handshake(9, &[10, 1, 255]), &CHOKE], 2),
        ([&CHOKE, &handshake(9, &[1, 1, 0, 1, 255])], 2),
    ] {
        assert_eq!(caller.take(0, 6, &to(0, &messages)).0, number);
        assert_eq!(caller.take(0, 6, &to(5, &messages)).0, number);
    }
}

#[test]
fn traps_46_to_52_source_0() {
    let (mut caller, opts) = seven();
    for (destination, options, number) in [
        (0, &[255][..], 3),
        (0, &opts, 3),
        (5, &opts, 3),
        (5, &[0, 1, 255], 3),
        (77, &opts, 3),
        (77, &[255], 5),
        (5, &[], 2),
    ] {
        let message = handshake(0, options);
        assert_eq!(caller.number(destination, &[&message]), number);
    }
    assert_eq!(caller.number(5, &[&[0, 0, 0, 9]]), 2);
}

#[test]
fn trap_53_unknown_options_and_others() {
    for code in 10..255 {
        assert_eq!(opening(&[code, 0, 255]), 2);
    }
    for option in [&[5, 13][..], &[7, 0, 0, 0, 1], &[8, 2, 0xd9, 0xf0]] {
        assert_eq!(opening(&[option, &[255]].concat()), 4);
    }
    // Each in its place among the fixed ones.
    let (_, opts) = seven();
    let with = |at: usize, option: &[u8]| [&opts[..at], option, &opts[at..]].concat();
    assert_eq!(opening(&with(43, &[5, 13])), 4);
    assert_eq!(opening(&with(45, &[7, 0, 0, 0, 1])), 4);
    assert_eq!(opening(&with(45, &[8, 0])), 4);
}

#[test]
fn traps_54_to_56_order_and_end() {
    let (_, opts) = seven();
    assert_eq!(opening(&opts), 0);
    assert_eq!(opening(&[&[0, 1], &opts[..]].concat()), 2);
    let mut swapped = opts.clone();
    swapped[39..43].copy_from_slice(&[4, 2, 3, 1]);
    assert_eq!(opening(&swapped), 2);
    assert_eq!(opening(&opts[..50]), 2);
    assert_eq!(opening(&[&opts[..], &[0]].concat()), 3);
}

#[test]
fn traps_57_to_60_values() {
    let (_, opts) = seven();
    let with_id = |said: u16, id: &[u8]| {
        let said = said.to_be_bytes();
        [&opts[..5], &said, id, &opts[39..]].concat()
    };
    let root = Pack::new(SEVEN).root();
    assert_eq!(opening(&with_id(32, &root)), 0);
    for len in [0, 31, 33, 288] {
        assert_eq!(opening(&with_id(len, &vec![1; len.into()])), 4, "{len}");
    }
    for said in [100, 288, u16::MAX] {
        assert_eq!(opening(&with_id(said, &root)), 2);
    }
    assert_eq!(opening(&[8, 0, 255]), 4);
    assert_eq!(opening(&[7, 0, 0, 0, 1, 255]), 4);
    assert_eq!(opening(&[7, 0, 0, 0, 1, 0, 0, 0, 1, 255]), 2);
    assert_eq!(opening(&with_id(32, &[1; 32])), 4);
    for (at, value) in [(1, 2), (3, 2), (7, !root[0]), (38, !root[31]), (40, 2)] {
        let mut other = opts.clone();
        other[at] = value;
        assert_eq!(opening(&other), 4, "{at}");
    }
    let mut size = opts.clone();
    size[46..50].fill(0xff);
    assert_eq!(opening(&size), 4);
    // Any one left out.
    for (at, len) in [(0, 2), (2, 2), (4, 35), (39, 2), (41, 2), (43, 2), (45, 5)] {
        let rest = [&opts[..at], &opts[at + len..]].concat();
        assert_eq!(opening(&rest), 4, "{at}");
    }
}

#[test]
fn traps_61_to_64_options_and_sources() {
    let (mut caller, opts) = seven();
    assert_eq!(opening(&[255]), 4);
    let before = caller.clone();
    for (source, options, number) in [
        (8, &[255][..], 3),
        (8, &opts, 3),
        (9, &opts, 0),
        (9, &[255], 4),
        (9, &[0, 1, 255], 4),
    ] {
        let datagram = to(5, &[&handshake(source, options)]);
        assert_eq!(caller.take(7, 0, &datagram), (number, vec![]));
        assert!(caller == before);
    }
}

#[test]
fn traps_65_71_and_73_sources_may_be_equal() {
    let (mut caller, _) = seven();
    caller.opened_by_peer(6, 9);
    caller.opened_by_peer(7, 5);
    caller.opened_by_peer(9, 7);
    let rows: Vec<_> = caller.state.rows.iter().map(|r| (r.id, r.peer)).collect();
    assert_eq!(rows[..5], [(5, 9), (6, 9), (7, 5), (9, 7), (0, 0)]);
}

/// Traps 66, 67, 70, and "16 open: 6; one closed: its row is used".
#[test]
fn traps_66_67_and_70_a_full_table() {
    let (mut caller, opts) = seven();
    for id in 10..25 {
        caller.opened_by_peer(id, 100 + id);
    }
    let good = to(0, &[&handshake(9, &opts)]);
    let bad = to(0, &[&handshake(9, &[255])]);
    assert_eq!(caller.take(0, 99, &bad), (4, vec![]));
    assert_eq!(caller.take(0, 99, &good), (6, vec![]));
    // 14 before 6, 4 before 14.
    assert_eq!(caller.take(0, 0, &good), (14, vec![]));
    assert_eq!(caller.take(0, 24, &good), (14, vec![]));
    assert_eq!(caller.take(0, 24, &bad), (4, vec![]));
    // The row of ID 12 is the fourth.
    assert_eq!(caller.number(12, &[&closing()]), 0);
    assert_eq!(caller.state.rows[3], Row::default());
    caller.opened_by_peer(99, 1);
    let row = Row {
        phase: Phase::Open,
        id: 99,
        peer: 1,
        choked: false,
    };
    assert_eq!(caller.state.rows[3], row);
    assert_eq!(caller.take(0, 98, &good), (6, vec![]));
}

#[test]
fn traps_68_and_69_after_a_close() {
    let (mut caller, opts) = seven();
    let mut freed = caller.clone();
    freed.state.rows[0] = Row::default();
    assert_eq!(caller.take(3, 3, &to(5, &[&closing()])), (0, vec![]));
    assert!(caller == freed);
    for messages in [
        closing(),
        handshake(9, &opts),
        vec![],
        CHOKE.to_vec(),
        have(0, 7),
        data(0, 0, 0, &[]),
    ] {
        assert_eq!(caller.number(5, &[&messages]), 5);
    }
}

/// Trap 72: the bits stay with a close, and a new row has none, nor a mark.
#[test]
fn trap_72_a_new_row_is_clear() {
    let (mut caller, _) = seven();
    assert_eq!((caller.has_of(0), caller.wants_of(0)), (vec![], vec![]));
    let messages = [&have(1, 3)[..], &request(4, 6), &CHOKE];
    assert_eq!(caller.number(5, &messages), 0);
    assert!(caller.state.rows[0].choked);
    assert_eq!(caller.number(5, &[&closing()]), 0);
    assert_eq!(caller.has_of(0), [1, 2, 3]);
    assert_eq!(caller.wants_of(0), [4, 5, 6]);
    let mut called = caller.clone();
    caller.opened_by_peer(5, 9);
    assert_eq!((caller.has_of(0), caller.wants_of(0)), (vec![], vec![]));
    assert!(!caller.state.rows[0].choked);
    assert_eq!(called.open(5).0, 0);
    assert_eq!((called.has_of(0), called.wants_of(0)), (vec![], vec![]));
    assert!(!called.state.rows[0].choked);
}

/// B33: an ID that may not be used does not matter where nothing is opened.
#[test]
fn the_id_matters_for_an_opening_alone() {
    let (mut caller, opts) = seven();
    for id in [0, 5] {
        assert_eq!(caller.take(0, id, &to(5, &[&CHOKE])).0, 0);
        let again = to(5, &[&handshake(9, &opts)]);
        assert_eq!(caller.take(0, id, &again).0, 0);
        let opening = to(0, &[&handshake(9, &opts)]);
        assert_eq!(caller.take(0, id, &opening).0, 14);
    }
}
