//! Composing datagrams that name chunks by bins, and reading them back. A bin is first + last of its chunks.

use crate::support::{bytes, BINS, RANGES};
use ppspp::{messages, Addressing, Composer, EmptyKind, Message, Options, Refusal};

/// A root or hash.
const HASH: [u8; 32] = [7; 32];

/// The highest chunk that a bin names.
const HIGHEST: u32 = (1 << 31) - 1;

const EMPTY: [Message<'_>; 3] = [
    Message::Empty {
        kind: EmptyKind::Have,
    },
    Message::Empty {
        kind: EmptyKind::Request,
    },
    Message::Empty {
        kind: EmptyKind::Cancel,
    },
];

/// The messages that have a range, over one; DATA with three bytes.
fn over(first: u32, last: u32) -> [Message<'static>; 6] {
    [
        Message::Have { first, last },
        Message::Request { first, last },
        Message::Cancel { first, last },
        Message::Ack {
            first,
            last,
            delay: 9,
        },
        Message::Integrity {
            first,
            last,
            hash: &HASH,
        },
        Message::Data {
            first,
            last,
            timestamp: 9,
            bytes: b"abc",
        },
    ]
}

/// Adds a message behind others; the answer, and that a refusal leaves the datagram so far.
fn added(
    addressing: Addressing,
    so_far: &[Message<'_>],
    message: Message<'_>,
) -> Result<Vec<u8>, Refusal> {
    let mut room = [0xc5; 2_048];
    let mut composer = Composer::begin(&mut room, addressing, 9).expect("room");
    for &before in so_far {
        composer.add(before).expect("a sound message");
    }
    let before = composer.datagram().to_vec();
    let answer = composer.add(message);
    let datagram = composer.finish().to_vec();
    assert!(answer.is_ok() || datagram == before, "{message}");
    assert!(room[datagram.len()..].iter().all(|&byte| byte == 0xc5));
    answer.map(|()| datagram[before.len()..].to_vec())
}

#[test]
fn composed_bytes_have_one_bin() {
    let mut room = [0xc5; 2_048];
    let composed = Composer::begin(&mut room, BINS, 0x0102_0304)
        .and_then(|c| c.have(0, 3))
        .and_then(|c| c.ack(3, 3, 100))
        .and_then(|c| c.integrity(4, 5, &HASH))
        .and_then(|c| c.request(4, 7))
        .and_then(|c| c.cancel(8, 8))
        .and_then(|c| c.choke())
        .and_then(|c| c.unchoke())
        .and_then(|c| c.empty(EmptyKind::Have))
        .and_then(|c| c.data(10, 0x0b, b"abc"));
    let wanted = bytes(
        "01020304 03 00000003 02 00000006 0000000000000064 04 00000009 07*32 08 0000000b 09 00000010 0a 0b \
         03 ffffffff 01 00000014 000000000000000b 616263",
    );
    assert_eq!(composed.expect("sound messages").finish(), wanted);
    assert!(room[wanted.len()..].iter().all(|&byte| byte == 0xc5));
}

#[test]
fn messages_read_back_as_composed() {
    let mut room = [0; 2_048];
    let mut composer = Composer::begin(&mut room, BINS, 9).expect("room");
    let mut wanted: Vec<Message<'_>> = EMPTY.to_vec();
    for (first, last) in [
        (0, 0),
        (4, 7),
        (0, 511),
        (HIGHEST, HIGHEST),
        (0, HIGHEST / 2),
    ] {
        wanted.extend(&over(first, last)[..5]);
    }
    wanted.extend([Message::Choke, Message::Unchoke, over(HIGHEST, HIGHEST)[5]]);
    for &message in &wanted {
        composer.add(message).expect("a sound message");
    }
    let datagram = composer.finish();
    let read: Result<Vec<_>, _> = messages(BINS, datagram).collect();
    let read = read.expect("sound").into_iter().map(|(_, message)| message);
    assert_eq!(read.collect::<Vec<_>>(), wanted);
}

#[test]
fn everything_is_one_bin() {
    let all = over(0, HIGHEST);
    for (message, digits) in all.iter().zip(["03", "08", "09"]) {
        let wanted = bytes(&format!("{digits} 7fffffff"));
        assert_eq!(added(BINS, &[], *message), Ok(wanted));
    }
    for message in &all[3..] {
        assert_eq!(added(BINS, &[], *message), Err(Refusal::Malformed));
    }
    // It is read as all chunks that a bin names.
    let datagram = bytes("00000009 03 7fffffff 08 7fffffff 09 7fffffff");
    let read = messages(BINS, &datagram).map(|found| found.expect("sound").1);
    assert!(read.eq(all[..3].iter().copied()));
}

#[test]
fn messages_over_no_chunk_are_for_bins_alone() {
    for (message, digits) in EMPTY.into_iter().zip(["03", "08", "09"]) {
        let wanted = bytes(&format!("{digits} ffffffff"));
        assert_eq!(added(BINS, &[], message), Ok(wanted));
        // Under ranges it cannot be written at all, which is found before the size and the HANDSHAKE.
        let malformed = Err(Refusal::Malformed);
        assert_eq!(added(RANGES, &[], message), malformed);
        assert_eq!(added(RANGES, &[Message::CLOSING], message), malformed);
        let full = [Message::Choke; 2_044];
        assert_eq!(added(RANGES, &full, message), malformed);
        assert_eq!(added(BINS, &full, message), Err(Refusal::Size));
        let closing = [Message::CLOSING];
        assert_eq!(added(BINS, &closing, message), Err(Refusal::Unexpected));
        assert_eq!(added(BINS, &[over(0, 0)[5]], message), malformed);
    }
}

/// Chunks that are no bin's.
const NAMELESS: [(u32, u32); 12] = [
    (0, 2),
    (1, 2),
    (5, 3),
    (2, 5),
    (0, 6),
    (4, 10),
    (1, 0),
    (0, u32::MAX),
    (HIGHEST + 1, HIGHEST + 1),
    (u32::MAX, u32::MAX),
    (HIGHEST + 1, u32::MAX),
    (HIGHEST, HIGHEST + 1),
];

/// Chunks that no bin names are 2, behind 1 for the lengthened datagram, 3 behind a HANDSHAKE, and 2 behind DATA.
#[test]
fn chunks_that_no_bin_names_are_refused() {
    for (first, last) in NAMELESS {
        for message in over(first, last) {
            assert_eq!(
                added(BINS, &[], message),
                Err(Refusal::Malformed),
                "{message}"
            );
            let choke = [Message::Choke];
            assert_eq!(added(BINS, &choke, message), Err(Refusal::Malformed));
            let closing = [Message::CLOSING];
            assert_eq!(added(BINS, &closing, message), Err(Refusal::Unexpected));
            let data = [over(0, 0)[5]];
            assert_eq!(added(BINS, &data, message), Err(Refusal::Malformed));
            let full = [Message::Choke; 2_044];
            assert_eq!(added(BINS, &full, message), Err(Refusal::Size));
        }
    }
    // DATA over a bin of more chunks than one.
    assert_eq!(added(BINS, &[], over(0, 3)[5]), Err(Refusal::Malformed));
}

#[test]
fn sizes_of_messages() {
    // HAVE, REQUEST and CANCEL 5 bytes, ACK 13, INTEGRITY 37, DATA 13 and the chunk: each fits to byte 2,048.
    let sizes = [5, 5, 5, 13, 37, 16];
    for (named, nameless, size) in three(over(6, 6), over(0, 2), sizes) {
        let full = vec![Message::Choke; 2_044 - size + 1];
        assert_eq!(added(BINS, &full, named), Err(Refusal::Size), "{named}");
        assert_eq!(added(BINS, &full, nameless), Err(Refusal::Size), "{named}");
        let fitting = &full[1..];
        let length = added(BINS, fitting, named).map(|bytes| bytes.len());
        assert_eq!(length, Ok(size), "{named}");
        assert_eq!(added(BINS, fitting, nameless), Err(Refusal::Malformed));
    }
}

/// Three rows side by side.
fn three<'a>(
    named: [Message<'a>; 6],
    nameless: [Message<'a>; 6],
    sizes: [usize; 6],
) -> impl Iterator<Item = (Message<'a>, Message<'a>, usize)> {
    let pairs = named.into_iter().zip(nameless).zip(sizes);
    pairs.map(|((named, nameless), size)| (named, nameless, size))
}

#[test]
fn node_is_added_once() {
    let leaves: Vec<_> = (0..55).map(|i| over(i, i)[4]).collect();
    let last = added(BINS, &leaves[..54], leaves[54]);
    assert_eq!(last, Ok(bytes("04 0000006c 07*32")));
    assert_eq!(
        added(BINS, &leaves[..54], leaves[0]),
        Err(Refusal::Malformed)
    );
    assert_eq!(added(BINS, &leaves, over(55, 55)[4]), Err(Refusal::Size));
}

#[test]
fn handshakes_have_the_addressing() {
    let options = Options::Fixed { root: &HASH };
    let source = 17;
    let handshake = Message::Handshake { source, options };
    let fixed = "00 00000011 00010101020020 07*32 0301 0402 0600 09 00000400 ff";
    assert_eq!(added(BINS, &[], handshake), Ok(bytes(fixed)));
    let datagram = bytes(&format!("00000009 {fixed}"));
    assert_eq!(datagram.len(), 60);
    assert!(messages(BINS, &datagram).eq([Ok((4, handshake))]));
    // Under ranges these are other options, and the other way round.
    let options = Options::Other;
    let other = Message::Handshake { source, options };
    assert!(messages(RANGES, &datagram).eq([Ok((4, other))]));
    let ranges = bytes(&format!("00000009 {}", fixed.replace("0600", "0602")));
    assert!(messages(RANGES, &ranges).eq([Ok((4, handshake))]));
    assert!(messages(BINS, &ranges).eq([Ok((4, other))]));
    assert_eq!(
        added(BINS, &[], Message::CLOSING),
        Ok(bytes("00 00000000 ff"))
    );
}
