//! Adding DATA with any range: the numbers are worked out by hand from 01,
//! "Adding a message" and "Numbers given back".

use super::*;

/// More chunks than one, or the first above the last; some differ in one byte.
const NOT_ONE: [(u32, u32); 14] = [
    (5, 6),
    (6, 5),
    (0, 1),
    (1, 0),
    (5, 0x0105),
    (0x0105, 5),
    (5, 0x0100_0005),
    (0x0100_0005, 5),
    (0x7fff_ffff, 0x8000_0000),
    (0x8000_0000, 0x7fff_ffff),
    (0, u32::MAX),
    (u32::MAX, 0),
    (u32::MAX - 1, u32::MAX),
    (u32::MAX, u32::MAX - 1),
];

const RANGES: Addressing = Addressing::Ranges;

/// The bytes that chunks are taken from.
const SOURCE: [u8; 2100] = [7; 2100];

/// DATA with so many of them.
fn over((first, last): (u32, u32), len: usize) -> Message {
    Message::Data {
        first,
        last,
        time: 0x0102_0304_0506_0708,
        start: 9,
        len,
    }
}

/// Each such DATA is refused with a number.
#[track_caller]
fn all_refused(so_far: &[u8], len: usize, number: u8) {
    for range in NOT_ONE {
        let answer = added(so_far, over(range, len), &SOURCE);
        assert_eq!(answer, Err(number), "{range:?}");
    }
}

/// The number for one chunk, at the same place.
fn one(so_far: &[u8], len: usize) -> u8 {
    let answer = added(so_far, over((5, 5), len), &SOURCE);
    answer.err().unwrap_or(0)
}

#[test]
fn one_chunk_is_added() {
    let five = [
        0, 0, 0, 9, 1, 0, 0, 0, 5, 0, 0, 0, 5, 1, 2, 3, 4, 5, 6, 7, 8, 7, 7,
    ];
    let written = added(&to(9, &[]), over((5, 5), 2), &SOURCE);
    assert_eq!(written, Ok(five.to_vec()));
    for chunk in [0, 1, 0x0105, 0x7fff_ffff, 0x8000_0000, u32::MAX] {
        let bytes = data(chunk, chunk, 0x0102_0304_0506_0708, &[7; 3]);
        let written = added(&to(5, &[]), over((chunk, chunk), 3), &SOURCE);
        assert_eq!(written, Ok(to(5, &[&bytes])));
    }
}

/// "DATA range not one chunk", with any number of chunk bytes.
#[test]
fn not_one_chunk() {
    for len in [0, 1, 1024] {
        all_refused(&to(5, &[]), len, 2);
        all_refused(&to(0, &[]), len, 2);
        all_refused(&to(5, &[&[10], &integrity(4, 7), &ranged(3, 5, 6)]), len, 2);
    }
}

/// The size of the lengthened datagram, 1, comes before its layout, 2: DATA has
/// 17 bytes and the chunk's.
#[test]
fn over_the_limit() {
    let empty = to(5, &[]);
    all_refused(&empty, 2027, 2);
    all_refused(&empty, 2028, 1);
    assert_eq!([one(&empty, 2027), one(&empty, 2028)], [0, 1]);
    let chokes = [10; 2048];
    all_refused(&chokes[..2031], 0, 2);
    all_refused(&chokes[..2031], 1, 1);
    all_refused(&chokes[..2032], 0, 1);
    all_refused(&chokes, 1024, 1);
}

/// "besides with 2 where it already has DATA": the lengthened datagram, whose
/// DATA swallows the message, may have a sound layout, but not any size.
#[test]
fn behind_data() {
    let so_far = |len: usize| to(5, &[&[10], &data(5, 5, 0, &vec![1; len - 22])]);
    for (len, bytes, number) in [
        (22, 0, 2),
        (100, 3, 2),
        (2031, 0, 2),
        (2031, 1, 1),
        (2032, 0, 1),
        (2048, 1024, 1),
    ] {
        all_refused(&so_far(len), bytes, number);
        assert_eq!(one(&so_far(len), bytes), number);
    }
}

/// The HANDSHAKE is no longer alone, which is judged at its place: 3 before the
/// range is read, and behind the size.
#[test]
fn behind_a_handshake() {
    for alone in [
        to(0, &[&handshake(1, &fixed())]),
        to(5, &[&handshake(1, &fixed())]),
        to(5, &[&handshake(0, &[255])]),
        to(5, &[&handshake(1, &[4, 2, 255])]),
    ] {
        all_refused(&alone, 3, 3);
        all_refused(&alone, 2028, 1);
        assert_eq!([one(&alone, 3), one(&alone, 2028)], [3, 1]);
    }
    // The swarm ID fills it up: 13 bytes are around it.
    let long = |len: usize| {
        let id = (len - 13) as u16;
        let options = [&[2][..], &id.to_be_bytes(), &vec![7; len - 13], &[255]];
        to(5, &[&handshake(1, &options.concat())])
    };
    all_refused(&long(2031), 0, 3);
    all_refused(&long(2032), 0, 1);
    all_refused(&long(2048), 0, 1);
}

/// The number of the datagram so far, also where the lengthened one is too long.
#[test]
fn behind_a_malformed_datagram() {
    let full = |messages: &[u8]| {
        let mut datagram = to(5, &[messages]);
        datagram.resize(2048, 10);
        datagram
    };
    let node = integrity(4, 7);
    for (messages, number) in [
        (vec![7], 2),
        (vec![3, 0, 0], 2),
        (ranged(3, 6, 5), 2),
        (data(5, 6, 0, &[1]), 2),
        (data(6, 5, 0, &[1]), 2),
        ([&node[..], &node].concat(), 2),
        ([&[10], &handshake(1, &[255])[..]].concat(), 3),
        ([&handshake(1, &[255])[..], &data(5, 6, 0, &[])].concat(), 3),
        (handshake(0, &fixed()), 3),
    ] {
        all_refused(&to(5, &[&messages]), 3, number);
        assert_eq!(one(&to(5, &[&messages]), 3), number);
    }
    all_refused(&full(&[7]), 3, 2);
    all_refused(&full(&data(5, 6, 0, &[])), 3, 2);
    all_refused(&full(&handshake(1, &[255])), 3, 3);
    for len in 0..4 {
        all_refused(&vec![0; len], 3, 1);
    }
}

/// A length over the limit is 1, and a room too small 11, before all else.
#[test]
fn rooms_and_lengths() {
    for range in NOT_ONE {
        let message = over(range, 3);
        let mut room = [10; 2100];
        assert_eq!(
            add(&mut room[..2047], RANGES, 4, &message, &SOURCE),
            Err(11)
        );
        assert_eq!(add(&mut room, RANGES, 2049, &message, &SOURCE), Err(1));
        assert_eq!(
            add(&mut room, RANGES, usize::MAX, &message, &SOURCE),
            Err(1)
        );
        assert_eq!(room, [10; 2100]);
    }
}

/// Our decision on bytes that the source lacks: 2 right behind the datagram so
/// far, whatever the range is.
#[test]
fn bytes_that_are_not_there() {
    let alone = to(5, &[&handshake(1, &[255])]);
    let misplaced = to(5, &[&[10], &handshake(1, &[255])]);
    for range in NOT_ONE.into_iter().chain([(5, 5)]) {
        for (so_far, number) in [
            (&to(5, &[]), 2),
            (&alone, 2),
            (&vec![10; 2048], 2),
            (&misplaced, 3),
            (&vec![0; 3], 1),
        ] {
            let answer = added(so_far, over(range, 4), &SOURCE[..12]);
            assert_eq!(answer, Err(number), "{range:?}");
        }
    }
    let answer = added(&alone, over((5, 6), 3), &SOURCE[..12]);
    assert_eq!(answer, Err(3));
}

/// Every pair of numbers has an answer: the reader's for the lengthened one.
#[test]
fn every_pair_of_numbers() {
    let numbers = NOT_ONE.map(|(first, _)| first);
    let so_far = [
        to(5, &[]),
        to(5, &[&[10], &ranged(3, 5, 6)]),
        to(5, &[&data(5, 5, 0, &[1; 9])]),
        to(5, &[&data(5, 6, 0, &[1; 9])]),
        to(5, &[&handshake(1, &fixed())]),
        vec![10; 2020],
    ];
    for pair in numbers.map(|first| numbers.map(|last| (first, last))) {
        for range in pair {
            for (so_far, len) in so_far.iter().flat_map(|one| [(one, 0), (one, 12)]) {
                let message = over(range, len);
                let expected = plain::add(RANGES, so_far, &message, &SOURCE);
                assert_eq!(added(so_far, message, &SOURCE), expected, "{range:?}");
            }
            let taken = added(&so_far[0], over(range, 1), &SOURCE).is_ok();
            assert_eq!(taken, range.0 == range.1);
        }
    }
}
