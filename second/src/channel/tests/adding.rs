//! Traps 121 to 124: beginning a datagram and adding messages, as entry points.
//! All of their traps stand beside the wire part.

use super::*;
use crate::wire::{Message, Options};

const HAVE: Message = Message::Have { first: 0, last: 9 };

fn outcome(number: u8, length: usize) -> Outcome {
    Outcome {
        number,
        length,
        node: None,
    }
}

#[test]
fn beginning() {
    let mut room = [0xee; 2050];
    assert_eq!(begin(&mut room, 0x0102_0304), outcome(0, 4));
    assert_eq!(room[..5], [1, 2, 3, 4, 0xee]);
    assert!(room[4..] == [0xee; 2046]);
    assert_eq!(begin(&mut room[..2047], 7), outcome(11, 0));
    assert_eq!(room[..4], [1, 2, 3, 4]);
    assert_eq!(begin(&mut [], 7), outcome(11, 0));
}

/// Adds to a datagram; a refusal leaves the room as it is.
fn added(so_far: &[u8], message: Message, source: &[u8]) -> (u8, Vec<u8>) {
    let mut room = [0xee; 2048];
    room[..so_far.len()].copy_from_slice(so_far);
    let before = room;
    let done = add(&mut room, 2, so_far.len(), &message, source);
    let Outcome { number, length, .. } = done;
    assert_eq!(done.node, None);
    assert!(room[length..] == before[length..]);
    (number, room[..length].to_vec())
}

#[test]
fn trap_121_limits_and_places() {
    let chokes = |len: usize| to(5, &[&vec![10; len - 4]]);
    let (number, datagram) = added(&chokes(2039), HAVE, &[]);
    assert_eq!((number, datagram.len()), (0, 2048));
    assert_eq!(added(&chokes(2040), HAVE, &[]), (1, vec![]));
    let with_data = to(5, &[&data(0, 0, 0, &[1])]);
    assert_eq!(added(&with_data, HAVE, &[]), (2, vec![]));
    let root = [3; 32];
    let alone = to(0, &[&handshake(5, &fixed(&root))]);
    assert_eq!(added(&alone, HAVE, &[]), (3, vec![]));
    let hs = |source, options| Message::Handshake { source, options };
    let opts = Options::Fixed { root: 0 };
    let empty = to(0, &[]);
    assert_eq!(added(&empty, hs(5, opts), &root), (0, alone));
    assert_eq!(added(&empty, hs(0, opts), &root), (3, vec![]));
    assert_eq!(added(&to(5, &[]), hs(0, opts), &root), (3, vec![]));
    let end = to(0, &[&handshake(5, &[255])]);
    assert_eq!(added(&empty, hs(5, Options::EndOnly), &[]), (0, end));
}

/// DATA of one chunk and of others, as an entry point.
#[test]
fn data_with_any_range() {
    let over = |first, last| Message::Data {
        first,
        last,
        time: 7,
        start: 0,
        len: 3,
    };
    let empty = to(99, &[]);
    let expected = to(99, &[&data(5, 5, 7, b"abc")]);
    assert_eq!(added(&empty, over(5, 5), b"abc"), (0, expected));
    let alone = to(5, &[&closing()]);
    let full = to(5, &[&vec![10; 2025]]);
    for range in [over(5, 6), over(6, 5), over(0, u32::MAX)] {
        assert_eq!(added(&empty, range, b"abc"), (2, vec![]));
        assert_eq!(added(&alone, range, b"abc"), (3, vec![]));
        assert_eq!(added(&full, range, b"abc"), (1, vec![]));
    }
}

#[test]
fn traps_122_to_124_nothing_later_is_checked() {
    let far = Message::Have {
        first: 7,
        last: u32::MAX,
    };
    let expected = to(99, &[&have(7, u32::MAX)]);
    assert_eq!(added(&to(99, &[]), far, &[]), (0, expected));
    for (so_far, number) in [
        (to(5, &[&REFUSED]), 2),
        (to(5, &[&CHOKE, &closing()]), 3),
        (vec![0; 3], 1),
    ] {
        assert_eq!(added(&so_far, HAVE, &[]), (number, vec![]));
    }
    assert_eq!(add(&mut [0; 2047], 2, 4, &HAVE, &[]), outcome(11, 0));
}

/// A datagram made message by message in the reply room of a running store,
/// which changes nothing but that room, and is taken by another store.
#[test]
fn made_in_the_reply_room_and_taken() {
    let pack = Pack::new(SEVEN);
    let mut sender = pack.built();
    let before = sender.clone();
    let mut length = begin(&mut sender.reply, 5).length;
    for message in [HAVE, Message::Choke, Message::Unchoke] {
        let message = match message {
            Message::Have { .. } => Message::Have { first: 0, last: 6 },
            other => other,
        };
        length = add(&mut sender.reply, 2, length, &message, &[]).length;
    }
    let datagram = sender.reply[..length].to_vec();
    assert_eq!(datagram, to(5, &[&have(0, 6), &CHOKE, &UNCHOKE]));
    sender.reply.clone_from(&before.reply);
    assert!(sender == before);
    let mut taker = pack.started();
    assert_eq!(taker.take(0, 0, &datagram), (0, vec![]));
    assert_eq!(taker.has_of(0).len(), 7);
}
