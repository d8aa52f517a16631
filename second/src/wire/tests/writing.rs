use super::*;

const RANGES: Addressing = Addressing::Ranges;
const HAVE: Message = Message::Have { first: 2, last: 5 };
const REVERSED: Message = Message::Have { first: 5, last: 2 };
const CLOSING: Message = Message::Handshake {
    source: 0,
    options: Options::EndOnly,
};
const OTHER: Message = Message::Handshake {
    source: 1,
    options: Options::Other,
};

fn opening(source: u32, root: usize) -> Message {
    let options = Options::Fixed { root };
    Message::Handshake { source, options }
}

fn chunk(start: usize, len: usize) -> Message {
    Message::Data {
        first: 3,
        last: 3,
        time: 258,
        start,
        len,
    }
}

#[test]
fn beginning() {
    let (mut room, _) = room(&[]);
    assert_eq!(begin(&mut room, 0x0102_0304), Ok(4));
    assert_eq!(room[..4], [1, 2, 3, 4]);
    assert_eq!(room[4..], [0xee; 2044]);
    assert_eq!(begin(&mut room[..2047], 0), Err(11));
    assert_eq!(begin(&mut [], 0), Err(11));
    assert_eq!(room[..4], [1, 2, 3, 4]);
}

#[test]
fn each_message_of_the_table() {
    let source: Vec<u8> = (100..200).collect();
    let (first, last) = (4, 5);
    let hash = 7;
    let delay = 258;
    let mut expected_hash = ranged(4, 4, 5);
    expected_hash.extend(107..139);
    let expected_ack = [&ranged(2, 4, 5)[..], &[0, 0, 0, 0, 0, 0, 1, 2]].concat();
    let mut fixed = fixed();
    for (byte, value) in fixed[7..39].iter_mut().zip(168..) {
        *byte = value;
    }
    for (message, bytes) in [
        (Message::Choke, vec![10]),
        (Message::Unchoke, vec![11]),
        (Message::Have { first, last }, ranged(3, 4, 5)),
        (Message::Request { first, last }, ranged(8, 4, 5)),
        (Message::Cancel { first, last }, ranged(9, 4, 5)),
        (Message::Ack { first, last, delay }, expected_ack),
        (Message::Integrity { first, last, hash }, expected_hash),
        (chunk(0, 3), data(3, 3, 258, &[100, 101, 102])),
        (chunk(100, 0), data(3, 3, 258, &[])),
        (CLOSING, handshake(0, &[255])),
        (opening(17, 68), handshake(17, &fixed)),
    ] {
        let expected = to(5, &[&bytes]);
        assert_eq!(added(&to(5, &[]), message, &source), Ok(expected));
    }
}

/// Rooms first, then sizes; any length may be told.
#[test]
fn rooms_and_lengths() {
    let (mut room, len) = room(&to(5, &[]));
    assert_eq!(add(&mut room[..2047], RANGES, len, &HAVE, &[]), Err(11));
    assert_eq!(add(&mut [], RANGES, usize::MAX, &HAVE, &[]), Err(11));
    for len in [0, 3, 2049, usize::MAX] {
        assert_eq!(add(&mut room, RANGES, len, &HAVE, &[]), Err(1));
        assert_eq!(add(&mut room, RANGES, len, &OTHER, &[]), Err(1));
    }
    let mut large = vec![10; 5000];
    assert_eq!(add(&mut large, RANGES, 2049, &HAVE, &[]), Err(1));
    assert_eq!(add(&mut large, RANGES, 2039, &HAVE, &[]), Ok(2048));
    assert_eq!(large[2039..2049], [3, 0, 0, 0, 2, 0, 0, 0, 5, 10]);
}

#[test]
fn up_to_the_limit() {
    let full = vec![10; 2040];
    assert_eq!(added(&full[..2039], HAVE, &[]).unwrap().len(), 2048);
    assert_eq!(added(&full, HAVE, &[]), Err(1));
    let source = vec![1; 2100];
    assert_eq!(
        added(&to(5, &[]), chunk(3, 2027), &source).unwrap().len(),
        2048
    );
    assert_eq!(added(&to(5, &[]), chunk(3, 2028), &source), Err(1));
    // Size before layout: the HANDSHAKE would be misplaced too.
    assert_eq!(added(&full, opening(1, 0), &source), Err(1));
    assert_eq!(added(&[10; 2048], REVERSED, &[]), Err(1));
}

/// B8: the datagram so far first, whatever the message is.
#[test]
fn the_datagram_so_far_is_judged_first() {
    let mut full = vec![10; 2048];
    full[4] = 7;
    assert_eq!(added(&full, HAVE, &[]), Err(2));
    assert_eq!(added(&to(5, &[&[7]]), HAVE, &[]), Err(2));
    let misplaced = to(5, &[&[10], &handshake(1, &[255])]);
    for message in [HAVE, REVERSED, OTHER, chunk(usize::MAX, 1)] {
        assert_eq!(added(&misplaced, message, &[]), Err(3));
    }
}

/// Our decision: 2 before the lengthened datagram is judged.
#[test]
fn messages_that_cannot_be_written() {
    let source = [1; 40];
    let node = |hash| Message::Integrity {
        first: 0,
        last: 0,
        hash,
    };
    let alone = to(5, &[&handshake(1, &[255])]);
    let full = [10; 2048];
    for (message, fits) in [
        (chunk(40, 0), true),
        (chunk(0, 40), true),
        (chunk(41, 0), false),
        (chunk(0, 41), false),
        (chunk(usize::MAX, 1), false),
        (chunk(1, usize::MAX), false),
        (chunk(usize::MAX, usize::MAX), false),
        (node(8), true),
        (node(9), false),
        (node(usize::MAX), false),
        (node(usize::MAX - 31), false),
        (opening(1, 8), true),
        (opening(1, 9), false),
        (opening(1, usize::MAX), false),
        (OTHER, false),
    ] {
        let expected = |number| if fits { Err(number) } else { Err(2) };
        assert_eq!(added(&to(5, &[]), message, &source).is_ok(), fits);
        assert_eq!(added(&full, message, &source), expected(1));
        assert_eq!(added(&alone, message, &source), expected(3));
    }
}

/// "besides with 2 where it already has DATA", after 1 (B7).
#[test]
fn nothing_after_data() {
    let so_far = to(5, &[&data(0, 0, 0, &[1; 100])]);
    for message in [HAVE, REVERSED, CLOSING, Message::Choke, chunk(0, 0)] {
        assert_eq!(added(&so_far, message, &[]), Err(2));
    }
    let full = to(5, &[&data(0, 0, 0, &[1; 2027])]);
    assert_eq!(added(&full, Message::Choke, &[]), Err(1));
}

#[test]
fn layout_of_the_lengthened_one() {
    let empty = to(5, &[]);
    let (source, delay, hash) = ([1; 32], 0, 0);
    assert_eq!(added(&empty, REVERSED, &[]), Err(2));
    for (first, last) in [(5, 4), (u32::MAX, 0)] {
        let ack = Message::Ack { first, last, delay };
        assert_eq!(added(&empty, ack, &[]), Err(2));
        let request = Message::Request { first, last };
        assert_eq!(added(&empty, request, &[]), Err(2));
        let cancel = Message::Cancel { first, last };
        assert_eq!(added(&empty, cancel, &[]), Err(2));
    }
    for (first, last) in [(1, 2), (0, 2), (3, 0), (u32::MAX, 0)] {
        let node = Message::Integrity { first, last, hash };
        assert_eq!(added(&empty, node, &source), Err(2));
    }
    let (first, last) = (0, u32::MAX);
    let node = Message::Integrity { first, last, hash };
    let once = added(&empty, node, &source).unwrap();
    assert_eq!(added(&once, node, &source), Err(2));
    // HANDSHAKE: not alone, both channel numbers 0, closing with others.
    assert_eq!(added(&once, opening(1, 0), &source), Err(3));
    assert_eq!(added(&to(0, &[]), CLOSING, &[]), Err(3));
    assert_eq!(added(&to(0, &[]), opening(0, 0), &source), Err(3));
    assert_eq!(added(&empty, opening(0, 0), &source), Err(3));
    // Behind a HANDSHAKE, which is judged before what stands behind it.
    let alone = added(&empty, CLOSING, &[]).unwrap();
    for message in [HAVE, REVERSED, CLOSING, Message::Choke] {
        assert_eq!(added(&alone, message, &[]), Err(3));
    }
}

/// 49 nodes and no more.
#[test]
fn as_many_nodes_as_fit() {
    let mut datagram = to(5, &[]);
    let hash = 0;
    for chunk in 0..49 {
        let (first, last) = (chunk, chunk);
        let node = Message::Integrity { first, last, hash };
        datagram = added(&datagram, node, &[9; 32]).unwrap();
        let expected = if chunk == 48 { Err(1) } else { Err(2) };
        assert_eq!(added(&datagram, node, &[9; 32]), expected);
    }
    assert_eq!(datagram.len(), 4 + 49 * 41);
}
