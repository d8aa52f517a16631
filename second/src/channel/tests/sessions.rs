//! Sessions: the example of 01's replay section, and two stores that talk.

use super::*;
use crate::hex;

/// The example of 01's replay section, line by line, at the entry points.
#[test]
fn the_example_session() {
    let root = [0; 32];
    let mut caller = Caller::new(1);
    assert_eq!(caller.start(&root, 1), 0);
    let opening = to(0, &[&handshake(0x11, &fixed(&root))]);
    let (number, reply) = caller.take(0, 1, &opening);
    let line = format!("{number:02x}{}", hex::encode(&reply));
    assert_eq!(line.len(), 122);
    assert_eq!(
        line,
        "00000000110000000001000101010200200000000000000000000000000000\
         000000000000000000000000000000000000\
         0301040206020900000400ff"
    );
    assert_eq!(caller.take(0, 2, &[0, 0, 0, 0x22]), (5, vec![]));
    assert_eq!(caller.ask(), (0, 0, false));
}

/// A van gets the pack from a server, and another one from this van.
#[test]
fn from_the_server_to_a_van_and_on_to_another() {
    let pack = Pack::new(SEVEN);
    let mut server = Caller::new(SEVEN);
    assert_eq!(server.build(SEVEN, &pack.content), 0);
    let mut vans = [Caller::new(SEVEN), Caller::new(SEVEN)];
    for van in &mut vans {
        assert_eq!(van.start(&pack.root(), SEVEN), 0);
    }
    let [van, other] = &mut vans;
    hand_over(&pack, (&mut server, 100), (van, 7));
    hand_over(&pack, (van, 8), (other, 9));
}

/// The one that takes calls the one that gives, asks for the pack, gets and
/// acknowledges it, and closes.
fn hand_over(pack: &Pack, giver: (&mut Caller, u32), taker: (&mut Caller, u32)) {
    let ((from, from_id), (into, into_id)) = (giver, taker);
    let (_, call) = into.open(into_id);
    let (number, answer) = from.take(0, from_id, &call);
    assert_eq!(number, 0);
    let expected = handshake(from_id, &fixed(&pack.root()));
    assert_eq!(answer, to(into_id, &[&expected]));
    assert_eq!(into.take(0, 0, &answer), (0, vec![]));
    let row = from.state.find(from_id).unwrap();
    assert_eq!(from.number(from_id, &[&request(0, 6)]), 0);
    assert_eq!(from.wants_of(row), [0, 1, 2, 3, 4, 5, 6]);
    for (chunk, first, last) in [
        (3, 3, 3),
        (0, 0, 0),
        (6, 6, 6),
        (5, 5, 6),
        (1, 0, 1),
        (2, 0, 3),
        (4, 0, 6),
    ] {
        let (number, datagram) = from.write(from_id, chunk, 50);
        assert_eq!(number, 0);
        let (number, answer) = into.take(60, 0, &datagram);
        assert_eq!(number, 0);
        assert_eq!(answer, to(from_id, &[&ack(first, last, 10)]));
        assert_eq!(from.take(70, 0, &answer), (0, vec![]));
    }
    assert_eq!(from.has_of(row), [0, 1, 2, 3, 4, 5, 6]);
    assert_eq!(from.wants_of(row), []);
    assert_eq!(from.number(from_id, &[&closing()]), 0);
    assert_eq!(from.number(from_id, &[]), 5);
    assert_eq!(into.ask(), (0, 7, true));
    assert!(into.chunks.starts_with(&pack.content));
}
