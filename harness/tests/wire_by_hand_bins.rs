//! Adding to datagrams under bins: cases made by hand. The numbers and the bytes
//! are worked out on paper from 01, "Adding a message", and from 02, No. 1; no
//! program gave them.

use harness::by_hand::*;
use harness::packets::METHODS;
use ppspp::calls::Numbers;
use second::wire::{Addressing, Message, Options};

/// The types that have an empty message.
const HAVE: u8 = 3;
const REQUEST: u8 = 8;
const CANCEL: u8 = 9;

/// The last chunk that bins can name.
const LAST: u32 = 0x7fff_ffff;

fn request(first: u32, last: u32) -> Message {
    Message::Request { first, last }
}

fn cancel(first: u32, last: u32) -> Message {
    Message::Cancel { first, last }
}

fn ack(first: u32, last: u32) -> Message {
    let delay = 0x0102_0304_0506_0708;
    Message::Ack { first, last, delay }
}

fn empty(kind: u8) -> Message {
    Message::Empty { kind }
}

/// A bin is first + last.
#[test]
fn each_message_is_written_as_the_table_says() {
    taken(BINS, "00000005", CHOKE, "0a");
    taken(BINS, "00000005", Message::Unchoke, "0b");
    taken(BINS, "00000005 0a", have(4, 7), "03 0000000b");
    taken(BINS, "00000005", request(0, 3), "08 00000003");
    taken(BINS, "00000005", cancel(6, 6), "09 0000000c");
    taken(BINS, "00000005", ack(0, 1), "02 00000001 0102030405060708");
    let added = format!("04 00000009 {ROOT}");
    taken(BINS, "00000005", integrity(4, 5, 1), &added);
    let chunk = "01 00000006 000000000000002a 00 01 02";
    taken(BINS, "00000005 0a", data(3, 3), chunk);
    let added = format!("00 00000011 00010101020020 {ROOT} 030104020600090000 0400ff");
    taken(BINS, "00000000", handshake(0x11, FIXED), &added);
    let closing = handshake(0, Options::EndOnly);
    taken(BINS, "00000005", closing, "00 00000000 ff");
}

/// "FFFFFFFF is empty": in HAVE, REQUEST and CANCEL, and under bins alone.
#[test]
fn the_empty_bin() {
    for (kind, added) in [
        (HAVE, "03 ffffffff"),
        (REQUEST, "08 ffffffff"),
        (CANCEL, "09 ffffffff"),
    ] {
        taken(BINS, "00000005", empty(kind), added);
        taken(BINS, "00000005 03 ffffffff", empty(kind), added);
        refused(RANGES, "00000005", empty(kind), 2);
        refused(BINS, "00000005 0a*2040", empty(kind), 1);
        refused(BINS, WITH_HANDSHAKE, empty(kind), 3);
        refused(BINS, WITH_DATA_BIN, empty(kind), 2);
        refused(BINS, REFUSED_TYPE, empty(kind), 2);
        refused_in(BINS, 2_047, 4, "00000005", empty(kind), 11);
    }
    for kind in [0, 1, 2, 4, 5, 6, 7, 10, 11, 12, 255] {
        for method in [BINS, RANGES] {
            refused(method, "00000005", empty(kind), 2);
            // As with all that cannot be written, before 1 and 3.
            refused(method, "00000005 0a*2044", empty(kind), 2);
            refused(method, WITH_HANDSHAKE, empty(kind), 2);
        }
    }
}

/// The header's table: the numbers and bytes of an empty message are not looked
/// at.
#[test]
fn what_has_no_use_is_not_looked_at() {
    for (first, last) in [(0, 0), (5, 4), (1, 2), (u32::MAX, 0)] {
        let numbers = Numbers {
            kind: 264,
            first,
            last,
            number: 0x2a,
            bytes: &[0x61, 0x62],
        };
        taken_as(BINS, "00000005", numbers, "08 ffffffff");
        refused_as(RANGES, 2_048, 4, "00000005", numbers, 2);
    }
}

/// "7FFFFFFF is everything", the chunks 0 to 2^31 - 1; "either in DATA, ACK or
/// INTEGRITY is 2".
#[test]
fn everything() {
    taken(BINS, "00000005", have(0, LAST), "03 7fffffff");
    taken(BINS, "00000005", request(0, LAST), "08 7fffffff");
    taken(BINS, "00000005", cancel(0, LAST), "09 7fffffff");
    refused(BINS, "00000005", ack(0, LAST), 2);
    refused(BINS, "00000005", integrity(0, LAST, 1), 2);
    refused(BINS, "00000005", data_over(0, LAST, 3), 2);
}

/// "a message to be added over chunks that no bin names is 2": no node's range,
/// the ends the wrong way round, and chunks from 2^31 on, whose node would be no
/// 32-bit number or the empty bin.
#[test]
fn chunks_that_no_bin_names() {
    let ranges = [
        (0, 2),
        (1, 2),
        (5, 3),
        (1, 0),
        (2, 5),
        (4, 6),
        (0, 4),
        (1, LAST),
        (0, LAST + 1),
        (0, u32::MAX),
        (LAST, LAST + 1),
        (LAST + 1, LAST + 1),
        (LAST + 1, u32::MAX),
        (u32::MAX, u32::MAX),
        (u32::MAX, 0),
    ];
    for (first, last) in ranges {
        let all = [
            have(first, last),
            request(first, last),
            cancel(first, last),
            ack(first, last),
            integrity(first, last, 1),
            data_over(first, last, 3),
        ];
        for message in all {
            refused(BINS, "00000005", message, 2);
            refused(BINS, "00000005 0a*2044", message, 1);
            refused(BINS, WITH_HANDSHAKE, message, 3);
            refused(BINS, WITH_DATA_BIN, message, 2);
            refused(BINS, HANDSHAKE_BEHIND, message, 3);
            refused_in(BINS, 2_047, 4, "00000005", message, 11);
        }
    }
}

/// The bins at the end of what there is.
#[test]
fn the_last_bins() {
    taken(BINS, "00000005", have(LAST, LAST), "03 fffffffe");
    taken(BINS, "00000005", have(LAST - 1, LAST), "03 fffffffd");
    taken(BINS, "00000005", have(1 << 30, LAST), "03 bfffffff");
    taken(BINS, "00000005", have(0, (1 << 30) - 1), "03 3fffffff");
    let chunk = "01 fffffffe 000000000000002a";
    taken(BINS, "00000005", data(LAST, 0), chunk);
    let added = format!("04 bfffffff {ROOT}");
    taken(BINS, "00000005", integrity(1 << 30, LAST, 1), &added);
    taken(
        BINS,
        "00000005",
        ack(1 << 30, LAST),
        "02 bfffffff 0102030405060708",
    );
}

/// DATA has one chunk.
#[test]
fn data_of_several_chunks() {
    for (first, last) in [(0, 1), (4, 7), (0, LAST)] {
        refused(BINS, "00000005", data_over(first, last, 3), 2);
        refused(BINS, "00000005", data_over(first, last, 2_031), 2);
        refused(BINS, "00000005", data_over(first, last, 2_032), 1);
    }
}

/// 2,048 bytes are taken, and 2,049 are refused with 1.
#[test]
fn the_longest_datagram() {
    taken(BINS, "00000005 0a*2039", have(4, 7), "03 0000000b");
    refused(BINS, "00000005 0a*2040", have(4, 7), 1);
    taken(
        BINS,
        "00000005 0a*2031",
        data(3, 0),
        "01 00000006 000000000000002a",
    );
    refused(BINS, "00000005 0a*2032", data(3, 0), 1);
    let all: String = (0..2_031).map(|i| format!("{:02x}", i % 256)).collect();
    let chunk = format!("01 00000006 000000000000002a {all}");
    taken(BINS, "00000005", data(3, 2_031), &chunk);
    refused(BINS, "00000005", data(3, 2_032), 1);
}

/// 55 INTEGRITY have 2,035 bytes: the 55th is taken, and a 56th is too long. A
/// node that is there is refused.
#[test]
fn most_nodes() {
    let of = |chunk: u32| format!("04 {:08x} {ROOT}", 2 * chunk);
    let nodes = |count: u32| (0..count).map(of).collect::<Vec<_>>().join(" ");
    let so_far = format!("00000005 {}", nodes(54));
    taken(BINS, &so_far, integrity(54, 54, 1), &of(54));
    refused(BINS, &so_far, integrity(53, 53, 1), 2);
    let full = format!("00000005 {}", nodes(55));
    refused(BINS, &full, integrity(55, 55, 1), 1);
    // Under ranges 49 are the most.
    let of = |chunk: u32| format!("04 {chunk:08x} {chunk:08x} {ROOT}");
    let full = (0..49).map(of).collect::<Vec<_>>().join(" ");
    refused(RANGES, &format!("00000005 {full}"), integrity(49, 49, 1), 1);
}

/// What has no name of chunks is alike under both: HANDSHAKE, but for its fixed
/// options, and CHOKE.
#[test]
fn without_a_name() {
    for method in METHODS.map(Addressing::number) {
        refused(method, "00000005", handshake(0, FIXED), 3);
        refused(method, "00000000", handshake(0, Options::EndOnly), 3);
        refused(method, "00000005 0a", handshake(5, FIXED), 3);
        refused(method, "00000005", handshake(5, Options::Other), 2);
        refused(method, WITH_HANDSHAKE, CHOKE, 3);
        refused(method, REFUSED_TYPE, CHOKE, 2);
        refused(method, "00000005 0a*2044", CHOKE, 1);
        taken(
            method,
            "00000005",
            handshake(5, Options::EndOnly),
            "00 00000005 ff",
        );
    }
    refused(BINS, WITH_DATA_BIN, CHOKE, 2);
    // Each is read under its own method: this is DATA of three chunks, cut.
    refused(BINS, WITH_DATA, CHOKE, 2);
    refused(RANGES, WITH_DATA_BIN, CHOKE, 2);
}
