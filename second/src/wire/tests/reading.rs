use super::*;

/// What stands behind the destination of a datagram with this message alone.
fn alone(message: &[u8]) -> Step {
    step(Addressing::Ranges, &to(5, &[message]), 4)
}

fn read(message: Message, next: usize) -> Step {
    Step::Read { message, next }
}

#[test]
fn each_message_of_the_table() {
    let (first, last) = (2, 5);
    let at = |message, size: usize| read(message, 4 + size);
    for (bytes, expected) in [
        (vec![10], at(Message::Choke, 1)),
        (vec![11], at(Message::Unchoke, 1)),
        (ranged(3, 2, 5), at(Message::Have { first, last }, 9)),
        (ranged(8, 2, 5), at(Message::Request { first, last }, 9)),
        (ranged(9, 2, 5), at(Message::Cancel { first, last }, 9)),
    ] {
        assert_eq!(alone(&bytes), expected);
    }
    let ack = [&ranged(2, 2, 5)[..], &[0, 0, 0, 0, 0, 0, 1, 2]].concat();
    let delay = 258;
    assert_eq!(alone(&ack), at(Message::Ack { first, last, delay }, 17));
    let (first, last, hash) = (4, 5, 13);
    let node = Message::Integrity { first, last, hash };
    assert_eq!(alone(&integrity(4, 5)), at(node, 41));
    let chunk = Message::Data {
        first: 3,
        last: 3,
        time: 1 << 63,
        start: 21,
        len: 6,
    };
    assert_eq!(alone(&data(3, 3, 1 << 63, b"chunk!")), at(chunk, 23));
}

/// The table's borders: one byte short (28), the type byte alone, and the
/// message's own bytes only.
#[test]
fn every_cut_of_every_message() {
    let ack = [&ranged(2, 2, 5)[..], &[0; 8]].concat();
    let all_options = b"\0\x01\x01\x01\x02\0\x02ab\x03\x01\x04\x02\x05\x0d\x06\x02\
\x07\0\0\0\x10\x08\x02\xd9\xf0\x09\0\0\x04\0\xff";
    for message in [
        vec![10],
        ranged(3, 2, 5),
        ranged(8, 2, 5),
        ranged(9, 2, 5),
        ack,
        integrity(4, 7),
        data(3, 3, 9, &[]),
        handshake(1, &[255]),
        handshake(1, &fixed()),
        handshake(1, all_options),
    ] {
        for len in 1..message.len() {
            assert_eq!(alone(&message[..len]), Step::Refused, "{message:?} {len}");
        }
        assert!(matches!(alone(&message), Step::Read { next, .. } if next == 4 + message.len()));
    }
    assert_eq!(alone(&[]), Step::End);
}

/// 25: "Types 5 to 7, 12 to 254 and 255 are refused".
#[test]
fn refused_types() {
    for kind in (5..=7).chain(12..=255) {
        for behind in [0, 8, 64] {
            let message = [&[kind][..], &vec![0; behind]].concat();
            assert_eq!(alone(&message), Step::Refused, "{kind}");
        }
    }
}

/// 26, 27: the numbers are unsigned, and equal ones are a range.
#[test]
fn first_above_last() {
    let tail = [1; 40];
    for kind in [2, 3, 8, 9] {
        for (first, last, sound) in [
            (5, 4, false),
            (u32::MAX, 0, false),
            (1 << 31, (1 << 31) - 1, false),
            (5, 5, true),
            ((1 << 31) - 1, 1 << 31, true),
            (0, u32::MAX, true),
            (u32::MAX, u32::MAX, true),
        ] {
            let message = [&ranged(kind, first, last)[..], &tail].concat();
            let found = matches!(alone(&message), Step::Read { .. });
            assert_eq!(found, sound, "{kind} {first}..{last}");
        }
    }
}

/// 29, 30, 31: DATA may have no chunk byte; its range is one chunk.
#[test]
fn data_borders() {
    let none = Message::Data {
        first: u32::MAX,
        last: u32::MAX,
        time: u64::MAX,
        start: 21,
        len: 0,
    };
    let whole = data(u32::MAX, u32::MAX, u64::MAX, &[]);
    assert_eq!(alone(&whole), read(none, 21));
    assert_eq!(alone(&whole[..16]), Step::Refused);
    for (first, last) in [(0, 1), (1, 0), (0, u32::MAX), (u32::MAX, 0)] {
        assert_eq!(alone(&data(first, last, 0, b"chunk")), Step::Refused);
    }
}

/// 32, and the readings of A1 and A2: every node of 32-bit ranges is one.
#[test]
fn nodes_and_no_nodes() {
    for (first, last, sound) in [
        (0, 3, true),
        (4, 5, true),
        (6, 6, true),
        (0, u32::MAX, true),
        (1 << 31, 1 << 31, true),
        (1 << 31, u32::MAX, true),
        (u32::MAX, u32::MAX, true),
        (1, 2, false),
        (0, 2, false),
        (2, 5, false),
        (3, 0, false),
        (1, 0, false),
        (u32::MAX, 0, false),
        (0, u32::MAX - 1, false),
        (1, u32::MAX, false),
        ((1 << 31) - 1, 1 << 31, false),
    ] {
        let found = matches!(alone(&integrity(first, last)), Step::Read { .. });
        assert_eq!(found, sound, "{first}..{last}");
    }
}

/// The options of a HANDSHAKE and the place behind it.
fn options(bytes: &[u8]) -> Option<(Options, usize)> {
    match alone(&handshake(17, bytes)) {
        Step::Read {
            message: Message::Handshake { source, options },
            next,
        } => {
            assert_eq!(source, 17);
            Some((options, next))
        }
        Step::Refused => None,
        other => panic!("{other:?}"),
    }
}

#[test]
fn fixed_options_and_end() {
    assert_eq!(fixed().len(), 51);
    let root = 16;
    assert_eq!(options(&fixed()), Some((Options::Fixed { root }, 60)));
    assert_eq!(options(&[255]), Some((Options::EndOnly, 10)));
    // Bytes behind are not the step's business (41, 56).
    let behind = [&fixed()[..], &[255]].concat();
    assert_eq!(options(&behind), Some((Options::Fixed { root }, 60)));
    assert_eq!(options(&[255, 0, 1]), Some((Options::EndOnly, 10)));
    // Any ID, but no other byte may differ.
    for place in 0..51 {
        let mut changed = fixed();
        changed[place] ^= 0x40;
        let is_fixed = matches!(options(&changed), Some((Options::Fixed { .. }, 60)));
        assert_eq!(is_fixed, (7..39).contains(&place), "{place}");
    }
}

/// 53, 57, 58, 59: each option with its own length.
#[test]
fn other_options() {
    for sound in [
        &b"\0\x02\xff"[..],
        b"\x01\xff\xff",
        b"\x02\0\0\xff",
        b"\x02\0\x03abc\xff",
        b"\x03\x01\xff",
        b"\x04\x02\xff",
        b"\x05\x0d\xff",
        b"\x06\x02\xff",
        b"\x07\xff\xff\xff\xff\xff",
        b"\x08\0\xff",
        b"\x08\x02\xd9\xf0\xff",
        b"\x09\xff\xff\xff\xff\xff",
        b"\0\x01\x09\0\0\x04\0\xff",
    ] {
        let expected = Some((Options::Other, 9 + sound.len()));
        assert_eq!(options(sound), expected, "{sound:?}");
    }
    let long = [&[2, 1, 32][..], &[7; 288], &[255]].concat();
    assert_eq!(options(&long), Some((Options::Other, 9 + 292)));
}

/// 53 to 57: unknown, repeated, out of order, without End, cut short.
#[test]
fn refused_options() {
    for code in 10..255 {
        assert_eq!(options(&[code, 255]), None);
        assert_eq!(options(&[code, 0, 255]), None);
    }
    for bad in [
        &b""[..],
        b"\0\x01",
        b"\0\x01\0\x01\xff",
        b"\x04\x02\x03\x01\xff",
        b"\x09\0\0\x04\0\0\x01\xff",
        b"\x02\0\x20\xff",
        b"\x02\xff\xff\xff",
        b"\x02\0",
        b"\x07\0\0\0\0\0\0\0\x10\xff",
        b"\x08\x01\xff",
        b"\x09\0\x04\0\xff",
    ] {
        assert_eq!(options(bad), None, "{bad:?}");
    }
    let mut out_of_order = fixed();
    out_of_order[39..43].copy_from_slice(&[4, 2, 3, 1]);
    assert_eq!(options(&out_of_order), None);
}

/// Places count from the datagram's front, wherever the message stands.
#[test]
fn places_in_the_middle() {
    let datagram = to(5, &[&[10], &integrity(0, 1), &data(0, 0, 0, b"abc")]);
    let Step::Read { message, next } = step(Addressing::Ranges, &datagram, 5) else {
        panic!("an INTEGRITY");
    };
    let (first, last, hash) = (0, 1, 14);
    assert_eq!(message, Message::Integrity { first, last, hash });
    assert_eq!(datagram[hash..hash + 32], [9; 32]);
    let Step::Read { message, next } = step(Addressing::Ranges, &datagram, next) else {
        panic!("DATA");
    };
    assert!(matches!(
        message,
        Message::Data {
            start: 63,
            len: 3,
            ..
        }
    ));
    assert_eq!(next, datagram.len());
    for past in [next, next + 1, usize::MAX] {
        assert_eq!(step(Addressing::Ranges, &datagram, past), Step::End);
    }
}
