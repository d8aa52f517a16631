//! Adding to datagrams: cases made by hand of what cannot be written or is
//! refused before it is looked at, mostly 123 and 124 of the list of traps. The
//! numbers are worked out on paper from 01, "Adding a message" and "Numbers given
//! back", and from the table of the interface's header; no program gave them.

use harness::by_hand::*;
use ppspp::calls::Numbers;
use second::wire::{Message, Options};

/// A message whose bytes do not all lie in the source, of 3,000 bytes, or with
/// options that 01 has no words for writing.
#[test]
fn messages_that_cannot_be_written() {
    for hash in [2_969, 3_000, usize::MAX - 31, usize::MAX] {
        refused(RANGES, "00000005", integrity(0, 0, hash), 2);
        let options = Options::Fixed { root: hash };
        refused(RANGES, "00000005", handshake(5, options), 2);
        refused(RANGES, WITH_HANDSHAKE, integrity(0, 0, hash), 2);
    }
    for (start, len) in [
        (2_999, 2),
        (3_000, 1),
        (3_001, 0),
        (usize::MAX, 1),
        (1, usize::MAX),
    ] {
        let chunk = Message::Data {
            first: 3,
            last: 3,
            time: 0,
            start,
            len,
        };
        refused(RANGES, "00000005", chunk, 2);
    }
    refused(RANGES, "00000005", handshake(5, Options::Other), 2);
    let last =
        "04 00000000 00000000 98999a9b9c9d9e9fa0a1a2a3a4a5a6a7a8a9aaabacadaeafb0b1b2b3b4b5b6b7";
    taken(RANGES, "00000005", integrity(0, 0, 2_968), last);
}

/// 125: "DATA range not one chunk" is 2, at its place of the order. The number of
/// the datagram so far comes before it; of the lengthened one the size, 1; and a
/// HANDSHAKE that stands there, 3, which is judged at its own place.
#[test]
fn data_that_is_not_of_one_chunk() {
    let five = "01 00000005 00000005 000000000000002a 000102";
    taken(RANGES, "00000005", data_over(5, 5, 3), five);
    for (first, last) in [
        (5, 6),
        (6, 5),
        (0, 1),
        (1, 0),
        (5, 5 + (1 << 8)),
        (5 + (1 << 24), 5),
        (0, u32::MAX),
        (u32::MAX, 0),
    ] {
        let short = data_over(first, last, 3);
        refused(RANGES, "00000005", short, 2);
        refused(RANGES, "00000000", short, 2);
        refused(RANGES, "00000005 0a 03 00000005 00000006", short, 2);
        refused(RANGES, "00000005", data_over(first, last, 0), 2);
        refused(RANGES, "00000005", data_over(first, last, 2_027), 2);
        refused(RANGES, "00000005", data_over(first, last, 2_028), 1);
        refused(RANGES, "00000005 0a*2024", short, 2);
        refused(RANGES, "00000005 0a*2025", short, 1);
        refused(RANGES, WITH_HANDSHAKE, short, 3);
        refused(RANGES, WITH_HANDSHAKE, data_over(first, last, 2_028), 1);
        refused(RANGES, WITH_DATA, short, 2);
        refused(RANGES, WITH_DATA, data_over(first, last, 2_028), 1);
        refused(RANGES, REFUSED_TYPE, data_over(first, last, 2_500), 2);
        refused(RANGES, HANDSHAKE_BEHIND, short, 3);
        refused(RANGES, "000000", short, 1);
        refused_in(RANGES, 2_047, 4, "00000005", short, 11);
    }
}

/// Numbers that no message has: 2, unless the datagram so far has a number of its
/// own. The header's table has no other types than 0 to 4, 8 to 11, and for bins
/// 259, 264 and 265, and no other options than 0 to 2, of which 2 is never written.
#[test]
fn numbers_that_no_message_has() {
    let source = source();
    let with = |kind, last| Numbers {
        kind,
        first: 3,
        last,
        number: 0x2a,
        bytes: &source[1..33],
    };
    let mut all: Vec<Numbers> = (5..=7)
        .chain(12..=600)
        .chain([1 << 16, 1 << 24, u32::MAX])
        .map(|kind| with(kind, 3))
        .collect();
    for options in [2, 3, 4, 255, 256, 257, 1 << 16, u32::MAX] {
        all.push(with(0, options));
    }
    for numbers in all {
        of_no_message(RANGES, WITH_DATA, numbers);
        if ![259, 264, 265].contains(&numbers.kind) {
            of_no_message(BINS, WITH_DATA_BIN, numbers);
        }
    }
}

/// Each is refused, in a datagram that ends in DATA too.
fn of_no_message(method: u32, with_data: &str, numbers: Numbers) {
    for so_far in ["00000005", "00000005 0a*2044", with_data, WITH_HANDSHAKE] {
        refused_as(method, 2_048, bytes(so_far).len(), so_far, numbers, 2);
    }
    refused_as(method, 2_048, 3, "000000", numbers, 1);
    refused_as(method, 2_048, 2_049, "00000005", numbers, 1);
    refused_as(method, 2_048, 6, REFUSED_TYPE, numbers, 2);
    refused_as(method, 2_048, 11, HANDSHAKE_BEHIND, numbers, 3);
    refused_as(method, 2_047, 4, "00000005", numbers, 11);
}

/// 123: a datagram so far that is itself refused gives its number, whatever is
/// to be added.
#[test]
fn onto_a_refused_datagram() {
    let messages = [
        CHOKE,
        have(5, 4),
        integrity(0, 0, 5_000),
        data(3, 2_500),
        handshake(0, FIXED),
        handshake(0, Options::Other),
    ];
    for message in messages {
        for short in ["", "00", "000000"] {
            refused(RANGES, short, message, 1);
        }
        refused(RANGES, REFUSED_TYPE, message, 2);
        refused(RANGES, "00000005 03 00000005 00000004", message, 2);
        refused(
            RANGES,
            "00000005 01 00000003 00000003 000000000000",
            message,
            2,
        );
        refused(RANGES, HANDSHAKE_BEHIND, message, 3);
        refused(RANGES, "00000000 00 00000000 ff", message, 3);
        refused(RANGES, "00000005 00 00000011 ff 0a", message, 3);
        for len in [2_049, 2_060, 3_000, 3_001, usize::MAX] {
            refused_in(RANGES, 3_000, len, "00000005", message, 1);
        }
        refused_in(RANGES, 2_048, 2_049, "00000005", message, 1);
    }
}

/// 124, and 11 before all else: a room under 2,048 bytes.
#[test]
fn rooms_too_small() {
    for so_far in [
        "00000005",
        WITH_DATA,
        REFUSED_TYPE,
        HANDSHAKE_BEHIND,
        "000000",
    ] {
        for size in [100, 2_047] {
            for message in [CHOKE, have(5, 4), handshake(0, FIXED), data(3, 2_500)] {
                refused_in(RANGES, size, bytes(so_far).len(), so_far, message, 11);
                refused_in(RANGES, size, usize::MAX, so_far, message, 11);
            }
        }
    }
}
