//! Adding to datagrams: cases made by hand, mostly 121, 122 and 124 of the list
//! of traps. The numbers and the bytes are worked out on paper from 01, "Adding a
//! message" and "Numbers given back"; no program gave them.

use harness::by_hand::*;
use ppspp::calls::{begin, Numbers};
use second::wire::{Message, Options};

#[test]
fn each_message_is_written_as_the_table_says() {
    taken(RANGES, "00000005", CHOKE, "0a");
    taken(RANGES, "00000005", Message::Unchoke, "0b");
    taken(RANGES, "00000005 0a", have(5, 10), "03 00000005 0000000a");
    let (first, last) = (0, 6);
    let request = Message::Request { first, last };
    taken(RANGES, "00000005", request, "08 00000000 00000006");
    let cancel = Message::Cancel { first, last };
    taken(RANGES, "00000005", cancel, "09 00000000 00000006");
    let delay = 0x0102_0304_0506_0708;
    let ack = Message::Ack { first, last, delay };
    taken(
        RANGES,
        "00000005",
        ack,
        "02 00000000 00000006 0102030405060708",
    );
    let added = format!("04 00000004 00000005 {ROOT}");
    taken(RANGES, "00000005", integrity(4, 5, 1), &added);
    let chunk = Message::Data {
        first: 3,
        last: 3,
        time: 0xfedc_ba98_7654_3210,
        start: 254,
        len: 5,
    };
    let added = "01 00000003 00000003 fedcba9876543210 fe ff 00 01 02";
    taken(RANGES, "00000005 0a", chunk, added);
    let added = format!("00 00000011 00010101020020 {ROOT} 030104020602090000 0400ff");
    taken(RANGES, "00000000", handshake(0x11, FIXED), &added);
    taken(
        RANGES,
        "00000005",
        handshake(0, Options::EndOnly),
        "00 00000000 ff",
    );
}

/// The header's table: the numbers and bytes of a CHOKE are not looked at, nor the
/// number and bytes of a HAVE.
#[test]
fn what_has_no_use_is_not_looked_at() {
    let with = |kind, last| Numbers {
        kind,
        first: 3,
        last,
        number: 0x2a,
        bytes: &[0x61, 0x62],
    };
    for last in [3, 4, 2, 0, 512, u32::MAX] {
        taken_as(RANGES, "00000005", with(10, last), "0a");
        taken_as(RANGES, "00000005", with(11, last), "0b");
    }
    taken_as(RANGES, "00000005", with(3, 4), "03 00000003 00000004");
    taken_as(RANGES, "00000005", with(0, 0), "00 00000003 ff");
}

/// 121: 2,048 bytes are taken, and 2,049 are refused with 1.
#[test]
fn the_longest_datagram() {
    taken(RANGES, "00000005 0a*2043", CHOKE, "0a");
    refused(RANGES, "00000005 0a*2044", CHOKE, 1);
    taken(
        RANGES,
        "00000005 0a*2035",
        have(5, 10),
        "03 00000005 0000000a",
    );
    refused(RANGES, "00000005 0a*2036", have(5, 10), 1);
    let chunk = "01 00000003 00000003 000000000000002a";
    let all: String = (0..2_027).map(|i| format!("{:02x}", i % 256)).collect();
    taken(
        RANGES,
        "00000005",
        data(3, 2_027),
        &format!("{chunk} {all}"),
    );
    refused(RANGES, "00000005", data(3, 2_028), 1);
    taken(RANGES, "00000005 0a*2027", data(3, 0), chunk);
    refused(RANGES, "00000005 0a*2028", data(3, 0), 1);
}

/// 121: 1 comes before what the layout of the lengthened datagram would give.
#[test]
fn too_long_comes_first() {
    refused(RANGES, WITH_DATA, data(3, 2_048), 1);
    refused(RANGES, WITH_HANDSHAKE, data(3, 2_048), 1);
    refused(RANGES, "00000005 0a*2044", have(5, 4), 1);
    refused(RANGES, "00000005 0a*2044", integrity(1, 2, 0), 1);
    refused(RANGES, "00000005 0a*2044", handshake(0x11, FIXED), 1);
}

/// 121: whatever comes behind DATA is refused with 2. It would be part of the
/// chunk, so a HANDSHAKE is not judged there, nor a range.
#[test]
fn behind_data() {
    refused(RANGES, WITH_DATA, CHOKE, 2);
    refused(RANGES, WITH_DATA, have(5, 10), 2);
    refused(RANGES, WITH_DATA, have(5, 4), 2);
    refused(RANGES, WITH_DATA, data(4, 10), 2);
    refused(RANGES, WITH_DATA, handshake(0x11, FIXED), 2);
    refused(RANGES, WITH_DATA, handshake(0, FIXED), 2);
    let no_chunk_byte = "00000005 01 00000003 00000003 000000000000002a";
    refused(RANGES, no_chunk_byte, CHOKE, 2);
}

/// 121: behind a HANDSHAKE it is no longer alone, which is judged at its place,
/// before what comes behind it.
#[test]
fn behind_a_handshake() {
    refused(RANGES, WITH_HANDSHAKE, CHOKE, 3);
    refused(RANGES, WITH_HANDSHAKE, have(5, 4), 3);
    refused(RANGES, WITH_HANDSHAKE, integrity(1, 2, 0), 3);
    refused(RANGES, WITH_HANDSHAKE, data(3, 10), 3);
    refused(RANGES, WITH_HANDSHAKE, handshake(0x11, Options::EndOnly), 3);
    let closing = "00000005 00 00000000 ff";
    refused(RANGES, closing, CHOKE, 3);
}

/// 121: a HANDSHAKE is alone; from source 0 it is to a channel and has End
/// alone, from another source End alone will do.
#[test]
fn handshakes() {
    refused(RANGES, "00000005", handshake(0, FIXED), 3);
    refused(RANGES, "00000000", handshake(0, FIXED), 3);
    refused(RANGES, "00000000", handshake(0, Options::EndOnly), 3);
    taken(
        RANGES,
        "00000005",
        handshake(5, Options::EndOnly),
        "00 00000005 ff",
    );
    taken(
        RANGES,
        "00000000",
        handshake(5, Options::EndOnly),
        "00 00000005 ff",
    );
    refused(RANGES, "00000005 0a", handshake(5, Options::EndOnly), 3);
    refused(RANGES, "00000005 0a", handshake(5, FIXED), 3);
    refused(RANGES, "00000005 0a", handshake(0, Options::EndOnly), 3);
}

/// 122: no range is held against a pack's chunks, no destination against the
/// rows, and no other message of a chunk against its DATA.
#[test]
fn nothing_later_is_checked() {
    taken(
        RANGES,
        "00000005",
        have(0, u32::MAX),
        "03 00000000 ffffffff",
    );
    taken(RANGES, "00000005", have(512, 512), "03 00000200 00000200");
    taken(RANGES, "00000000", CHOKE, "0a");
    taken(RANGES, "ffffffff", have(7, 7), "03 00000007 00000007");
    let added = format!("04 00000000 ffffffff {ROOT}");
    taken(RANGES, "00000005", integrity(0, u32::MAX, 1), &added);
    let chunk = "01 ffffffff ffffffff 000000000000002a";
    taken(RANGES, "00000005", data(u32::MAX, 0), chunk);
    let added = format!("{chunk} 000102");
    taken(
        RANGES,
        "00000005 03 00000005 0000000a",
        data(u32::MAX, 3),
        &added,
    );
}

/// A message that would be refused with 2 by itself, or with the node before.
#[test]
fn bad_messages() {
    refused(RANGES, "00000005", have(5, 4), 2);
    let (first, last, delay) = (1, 0, 0);
    refused(RANGES, "00000005", Message::Ack { first, last, delay }, 2);
    refused(RANGES, "00000005", Message::Request { first, last }, 2);
    refused(RANGES, "00000005", Message::Cancel { first, last }, 2);
    refused(RANGES, "00000005", integrity(1, 0, 0), 2);
    refused(RANGES, "00000005", integrity(1, 2, 0), 2);
    refused(RANGES, "00000005", integrity(0, 2, 0), 2);
    refused(RANGES, "00000005", integrity(2, 5, 0), 2);
    let with_node = format!("00000005 04 00000004 00000005 {ROOT}");
    refused(RANGES, &with_node, integrity(4, 5, 0), 2);
    let added = format!("04 00000004 00000007 {ROOT}");
    taken(RANGES, &with_node, integrity(4, 7, 1), &added);
}

/// 124: beginning writes the destination, big-endian, and nothing else.
#[test]
fn beginning() {
    for size in [2_048, 3_000] {
        let mut got = room(size, &[]);
        assert_eq!(begin(&mut got, 0x0102_0304), (0, 4));
        assert_eq!(got, room(size, &bytes("01020304")));
    }
    for size in [0, 4, 2_047] {
        let mut got = room(size, &[]);
        assert_eq!(begin(&mut got, 0x0102_0304), (11, 0));
        assert_eq!(got, room(size, &[]));
    }
}
