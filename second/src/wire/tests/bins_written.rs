//! Adding under bins: "Under bins a message to be added over chunks that no bin
//! names is 2", at its place of the order.

use super::*;

const BINS: Addressing = Addressing::Bins;

/// The bytes that hashes and chunks are taken from.
const SOURCE: [u8; 2100] = [7; 2100];

/// Each message that names chunks, over these, with so many bytes of chunk.
fn over((first, last): (u32, u32), len: usize) -> [Message; 6] {
    let (delay, hash, time, start) = (258, 3, 258, 9);
    [
        Message::Have { first, last },
        Message::Request { first, last },
        Message::Cancel { first, last },
        Message::Ack { first, last, delay },
        Message::Integrity { first, last, hash },
        Message::Data {
            first,
            last,
            time,
            start,
            len,
        },
    ]
}

/// Their sizes, DATA with its chunk.
fn sizes(len: usize) -> [usize; 6] {
    [5, 5, 5, 13, 37, 13 + len]
}

/// Chunks that no bin names.
const NO_BIN: [(u32, u32); 14] = [
    (0, 2),
    (1, 2),
    (5, 3),
    (1, 0),
    (2, 5),
    (0, u32::MAX),
    (0, u32::MAX - 1),
    (1, 0x7fff_ffff),
    (0x7fff_ffff, 0x8000_0000),
    (0x8000_0000, 0x8000_0000),
    (0x8000_0000, u32::MAX),
    (u32::MAX, u32::MAX),
    (u32::MAX - 1, u32::MAX),
    (u32::MAX, 0),
];

/// The numbers for them behind a datagram so far.
fn numbers(so_far: &[u8], range: (u32, u32), len: usize) -> [u8; 6] {
    over(range, len).map(|message| {
        let added = added_under(BINS, so_far, message, &SOURCE);
        added.err().unwrap_or(0)
    })
}

#[test]
fn each_message_of_the_table() {
    let late = [0, 0, 0, 0, 0, 0, 1, 2];
    let front = |kind| [kind, 0, 0, 0, 9];
    let expected = [
        front(3).to_vec(),
        front(8).to_vec(),
        front(9).to_vec(),
        [&front(2)[..], &late].concat(),
        [&front(4)[..], &[7; 32]].concat(),
    ];
    let messages = over((4, 5), 3);
    for ((message, bytes), size) in messages.into_iter().zip(&expected).zip(sizes(3)) {
        assert_eq!(bytes.len(), size);
        let added = added_under(BINS, &to(5, &[&[10]]), message, &SOURCE);
        assert_eq!(added, Ok(to(5, &[&[10], bytes])));
    }
    let [.., data] = over((5, 5), 3);
    let bytes = [&[1, 0, 0, 0, 10][..], &late, &[7; 3]].concat();
    let added = added_under(BINS, &to(5, &[]), data, &SOURCE);
    assert_eq!(added, Ok(to(5, &[&bytes])));
    for (message, byte) in [(Message::Choke, 10), (Message::Unchoke, 11)] {
        let added = added_under(BINS, &to(5, &[]), message, &[]);
        assert_eq!(added, Ok(to(5, &[&[byte]])));
    }
}

/// Our own HANDSHAKE has `06 00`, and 60 bytes still.
#[test]
fn handshakes() {
    let (source, options) = (17, Options::Fixed { root: 1 });
    let opening = Message::Handshake { source, options };
    let mut bytes = fixed();
    bytes[44] = 0;
    let expected = to(0, &[&handshake(17, &bytes)]);
    assert_eq!(expected.len(), 60);
    assert_eq!(
        added_under(BINS, &to(0, &[]), opening, &SOURCE),
        Ok(expected)
    );
    let (source, options) = (0, Options::EndOnly);
    let closing = Message::Handshake { source, options };
    let expected = to(5, &[&handshake(0, &[255])]);
    assert_eq!(added_under(BINS, &to(5, &[]), closing, &[]), Ok(expected));
}

#[test]
fn chunks_that_no_bin_names() {
    let haves = [3, 0, 0, 0, 9, 3, 0xff, 0xff, 0xff, 0xff];
    for so_far in [to(5, &[]), to(0, &[]), to(5, &[&[10], &haves])] {
        for range in NO_BIN {
            assert_eq!(numbers(&so_far, range, 3), [2; 6], "{range:?}");
        }
        assert_eq!(numbers(&so_far, (0, 0x7fff_ffff), 3), [0, 0, 0, 2, 2, 2]);
        for several in [(0, 1), (4, 7), (0, 0x3fff_ffff), (0x4000_0000, 0x7fff_ffff)] {
            assert_eq!(numbers(&so_far, several, 3), [0, 0, 0, 0, 0, 2]);
        }
        for one in [0, 1, 511, 0x7fff_fffe, 0x7fff_ffff] {
            assert_eq!(numbers(&so_far, (one, one), 3), [0; 6]);
        }
    }
}

/// "Everything" is written as 7FFFFFFF, the highest leaf as FFFFFFFE.
#[test]
fn the_highest_bins() {
    for (range, bin) in [
        ((0, 0x7fff_ffff), [0x7f, 0xff, 0xff, 0xff]),
        ((0, 0x3fff_ffff), [0x3f, 0xff, 0xff, 0xff]),
        ((0x4000_0000, 0x7fff_ffff), [0xbf, 0xff, 0xff, 0xff]),
        ((0x7fff_fffe, 0x7fff_ffff), [0xff, 0xff, 0xff, 0xfd]),
        ((0x7fff_ffff, 0x7fff_ffff), [0xff, 0xff, 0xff, 0xfe]),
    ] {
        let [have, ..] = over(range, 0);
        let expected = to(5, &[&[3], &bin]);
        assert_eq!(added_under(BINS, &to(5, &[]), have, &[]), Ok(expected));
    }
}

/// "Every bin message has a known length": 1, then 3 behind a HANDSHAKE, before
/// the 2 of chunks without a bin.
#[test]
fn size_and_handshake_come_first() {
    let alone = to(5, &[&handshake(1, &[255])]);
    let with_data = to(5, &[&[1, 0, 0, 0, 0], &[0; 8], &[1; 100]]);
    for range in NO_BIN.into_iter().chain([(0, 0x7fff_ffff), (0, 0), (4, 7)]) {
        assert_eq!(numbers(&alone, range, 3), [3; 6]);
        assert_eq!(numbers(&with_data, range, 3), [2; 6]);
        for (index, size) in sizes(3).into_iter().enumerate() {
            let chokes = [10; 2048];
            let fits = numbers(&chokes[..2048 - size], range, 3)[index];
            assert!(fits == 0 || fits == 2);
            let too_long = numbers(&chokes[..2049 - size], range, 3)[index];
            assert_eq!(too_long, 1, "{range:?}");
        }
        // The datagram so far comes before all of them.
        assert_eq!(numbers(&to(5, &[&[7]]), range, 3), [2; 6]);
        let misplaced = to(5, &[&[10], &handshake(1, &[255])]);
        assert_eq!(numbers(&misplaced, range, 2048), [3; 6]);
        assert_eq!(numbers(&[0; 3], range, 3), [1; 6]);
    }
}

/// Bytes that the source lacks are 2 before the size is looked at.
#[test]
fn bytes_that_are_not_there() {
    let full = [10; 2048];
    for range in NO_BIN.into_iter().chain([(5, 5)]) {
        let [.., integrity, data] = over(range, 4);
        for message in [integrity, data] {
            for so_far in [&full[..], &to(5, &[&handshake(1, &[255])])] {
                let added = added_under(BINS, so_far, message, &SOURCE[..12]);
                assert_eq!(added, Err(2));
            }
        }
    }
}

/// The empty message is of HAVE, REQUEST and CANCEL under bins, and else cannot
/// be written.
#[test]
fn empty_messages() {
    let empty = to(5, &[]);
    let alone = to(5, &[&handshake(1, &[255])]);
    let chokes = [10; 2048];
    for kind in 0..=255 {
        let message = Message::Empty { kind };
        let written = matches!(kind, 3 | 8 | 9);
        for addressing in [Addressing::Bins, Addressing::Ranges] {
            let fits = written && addressing == BINS;
            let added = |so_far: &[u8]| added_under(addressing, so_far, message, &[]);
            let or_2 = |number| Err(if fits { number } else { 2 });
            let expected = match fits {
                true => Ok(to(5, &[&[kind, 255, 255, 255, 255]])),
                false => Err(2),
            };
            assert_eq!(added(&empty), expected, "{kind}");
            assert_eq!(added(&alone), or_2(3));
            assert_eq!(added(&chokes), or_2(1));
            assert_eq!(added(&chokes[..2044]), or_2(1));
            assert_eq!(added(&chokes[..2043]).is_ok(), fits);
            assert_eq!(added(&to(5, &[&[7]])), Err(2));
            assert_eq!(added(&[0; 3]), Err(1));
        }
    }
}

/// A node once; as many as fit.
#[test]
fn nodes() {
    let mut datagram = to(5, &[]);
    let hash = 0;
    for chunk in 0..55 {
        let (first, last) = (chunk, chunk);
        let node = Message::Integrity { first, last, hash };
        datagram = added_under(BINS, &datagram, node, &SOURCE).unwrap();
        let expected = if chunk == 54 { Err(1) } else { Err(2) };
        assert_eq!(added_under(BINS, &datagram, node, &SOURCE), expected);
    }
    assert_eq!(datagram.len(), 2_039);
}

/// A length over the limit is 1, and a room too small 11, before all else.
#[test]
fn rooms_and_lengths() {
    for range in NO_BIN {
        for message in over(range, 3) {
            let mut room = [10; 2100];
            assert_eq!(add(&mut room[..2047], BINS, 4, &message, &SOURCE), Err(11));
            assert_eq!(add(&mut room, BINS, 2049, &message, &SOURCE), Err(1));
            assert_eq!(add(&mut room, BINS, usize::MAX, &message, &SOURCE), Err(1));
            assert_eq!(room, [10; 2100]);
        }
    }
}
