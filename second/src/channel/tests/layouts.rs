//! Traps 24 to 39 as taking in a datagram shows them, and the sizes.

use super::*;

/// The number for messages to the open channel of a store for seven chunks.
fn number(messages: &[&[u8]]) -> u8 {
    Pack::new(SEVEN).started().number(5, messages)
}

/// "Datagram of 3 bytes: 1; 4: 5 or done; 2,049: 1."
#[test]
fn sizes_of_a_datagram() {
    let mut caller = Pack::new(SEVEN).started();
    for len in 0..4 {
        assert_eq!(caller.take(0, 0, &[0, 0, 0, 5][..len]), (1, vec![]));
    }
    let chokes = |len: usize| to(5, &[&vec![10; len - 4]]);
    assert_eq!(caller.take(0, 0, &chokes(2048)), (0, vec![]));
    assert_eq!(caller.take(0, 0, &chokes(2049)), (1, vec![]));
    // Size before layout.
    assert_eq!(caller.take(0, 0, &[7; 3]), (1, vec![]));
    assert_eq!(caller.take(0, 0, &[7; 2049]), (1, vec![]));
    assert_eq!(caller.take(0, 0, &[7; 2048]), (2, vec![]));
}

#[test]
fn trap_24_a_keepalive() {
    let mut caller = Pack::new(SEVEN).started();
    let before = caller.clone();
    assert_eq!(caller.take(0, 0, &to(5, &[])), (0, vec![]));
    assert!(caller == before);
    assert_eq!(caller.take(0, 0, &to(0, &[])), (5, vec![]));
    assert_eq!(caller.take(0, 0, &to(6, &[])), (5, vec![]));
}

#[test]
fn trap_25_refused_types() {
    for kind in (5..=7).chain(12..=255) {
        assert_eq!(number(&[&[kind]]), 2, "{kind}");
        assert_eq!(number(&[&CHOKE, &[kind], &[0; 40]]), 2, "{kind}");
    }
}

#[test]
fn traps_26_and_27_first_above_last() {
    for (first, last) in [(5, 4), (u32::MAX, 0), (1, 0)] {
        for message in [
            have(first, last),
            ack(first, last, 0),
            request(first, last),
            cancel(first, last),
            integrity(first, last, &[0; 32]),
            data(first, last, 0, &[]),
        ] {
            assert_eq!(number(&[&message]), 2);
            let mut caller = Pack::new(SEVEN).started();
            assert_eq!(caller.number(77, &[&message]), 2);
            assert_eq!(caller.number(0, &[&message]), 2);
        }
    }
}

#[test]
fn trap_28_one_byte_short() {
    let root = Pack::new(SEVEN).root();
    for message in [
        handshake(9, &fixed(&root)),
        closing(),
        data(0, 0, 0, &[]),
        ack(0, 0, 0),
        have(0, 0),
        integrity(0, 0, &[0; 32]),
        request(0, 0),
        cancel(0, 0),
    ] {
        assert_eq!(number(&[&message[..message.len() - 1]]), 2, "{message:?}");
    }
}

#[test]
fn traps_29_to_31_data() {
    assert_eq!(number(&[&data(0, 0, 0, &[])]), 8);
    let short = data(0, 0, 0, &[]);
    assert_eq!(number(&[&short[..16]]), 2);
    assert_eq!(number(&[&data(0, 1, 0, &[1; 1024])]), 2);
}

#[test]
fn traps_32_to_35_nodes() {
    let node = |first, last| integrity(first, last, &[9; 32]);
    for (first, last) in [(1, 2), (0, 2), (2, 5)] {
        assert_eq!(number(&[&node(first, last)]), 2);
    }
    assert_eq!(number(&[&node(6, 6), &CHOKE, &node(0, 3), &node(6, 6)]), 2);
    let mut caller = Pack::new(SEVEN).started();
    let before = caller.clone();
    assert_eq!(caller.number(5, &[&node(6, 6)]), 0);
    assert_eq!(caller.number(5, &[&node(6, 6)]), 0);
    assert_eq!(caller.number(5, &[&node(0, 3), &node(0, 1)]), 0);
    assert!(caller == before, "INTEGRITY without DATA has no effect");
}

#[test]
fn traps_36_and_37_from_left_to_right() {
    assert_eq!(number(&[&have(0, 7), &CHOKE, &REFUSED]), 2);
    assert_eq!(number(&[&have(0, 7), &CHOKE]), 7);
    let node = integrity(0, 1, &[9; 32]);
    let good = handshake(9, &fixed(&Pack::new(SEVEN).root()));
    assert_eq!(number(&[&node, &node, &good]), 2);
    assert_eq!(number(&[&node, &good, &node]), 3);
}

/// Trap 38: the chunk of a pack of one looks like messages, some of them bad.
#[test]
fn trap_38_what_a_chunk_looks_like() {
    let content = [have(0, 0), data(0, 0, 0, &[]), REFUSED.to_vec(), closing()].concat();
    let pack = Pack { content };
    let mut caller = pack.started();
    let answer = to(9, &[&ack(0, 0, 0)]);
    assert_eq!(caller.take(0, 0, &to(5, &[&pack.data(0)])), (0, answer));
    assert_eq!(caller.ask(), (0, 1, true));
    assert_eq!(caller.has_of(0), []);
    assert_eq!(caller.state.rows[0].phase, Phase::Open);
}

#[test]
fn trap_39_layout_before_destination() {
    let mut caller = Pack::new(SEVEN).started();
    for destination in [0, 6, u32::MAX] {
        assert_eq!(caller.number(destination, &[&REFUSED]), 2);
        assert_eq!(caller.number(destination, &[&CHOKE]), 5);
    }
}
