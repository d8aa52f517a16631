//! Taking in messages that name chunks by bins. For seven chunks, by hand: bin 2i is chunk i; 1, 5 and 9 are over 0..1,
//! 2..3 and 4..5, 3 over 0..3, 11 over 4..7, 7 over 0..7 and 13 over 6..7; 14 is chunk 7, and 23 over 8..15.

use crate::support::{built, bytes, content, Pair, BINS, SERVER, SEVEN, VAN};
use ppspp::{Refusal, Refused, Store};

/// The refusals of these tests.
const MALFORMED: Refusal = Refusal::Malformed;
const RANGE: Refusal = Refusal::Range;

/// A server of seven chunks, whose channel 5 is open.
fn server() -> Store {
    Pair::under(BINS, SEVEN).server
}

/// The server takes in a datagram to its channel, and has no reply.
fn take(server: &mut Store, digits: &str) -> Result<(), Refused> {
    let datagram = bytes(&format!("{SERVER:08x} {digits}"));
    let reply = server.take(0, 0, &datagram)?;
    assert_eq!(reply, [], "{digits}");
    Ok(())
}

/// The server must refuse it so, and stay as it was.
fn refused(digits: &str, wanted: Refusal) {
    let mut server = server();
    let before = server.clone();
    assert_eq!(take(&mut server, digits), Err(wanted.into()), "{digits}");
    assert_eq!(server, before, "{digits}");
}

/// What the van has, and what it wants, as the server knows it.
fn told(server: &Store) -> [Vec<u32>; 2] {
    let those = |is: &dyn Fn(u32) -> bool| (0..600).filter(|&chunk| is(chunk)).collect();
    [
        those(&|chunk| server.peer_has(0, chunk)),
        those(&|chunk| server.peer_wants(0, chunk)),
    ]
}

/// Bins, and the chunks of seven under them.
const UNDER: [(u32, &[u32]); 14] = [
    (0, &[0]),
    (2, &[1]),
    (12, &[6]),
    (1, &[0, 1]),
    (9, &[4, 5]),
    (3, &[0, 1, 2, 3]),
    (7, &[0, 1, 2, 3, 4, 5, 6]),
    (11, &[4, 5, 6]),
    (13, &[6]),
    (15, &[0, 1, 2, 3, 4, 5, 6]),
    (511, &[0, 1, 2, 3, 4, 5, 6]),
    (0x3fff_ffff, &[0, 1, 2, 3, 4, 5, 6]),
    (0x7fff_ffff, &[0, 1, 2, 3, 4, 5, 6]),
    (0xffff_ffff, &[]),
];

#[test]
fn have_request_and_cancel_mean_the_part_inside_the_pack() {
    for (bin, chunks) in UNDER {
        let mut server = server();
        assert_eq!(take(&mut server, &format!("08 {bin:08x}")), Ok(()));
        assert_eq!(told(&server), [&[], chunks], "REQUEST {bin}");
        assert_eq!(take(&mut server, "08 7fffffff"), Ok(()));
        assert_eq!(take(&mut server, &format!("09 {bin:08x}")), Ok(()));
        let rest: Vec<u32> = (0..7).filter(|chunk| !chunks.contains(chunk)).collect();
        assert_eq!(told(&server), [vec![], rest.clone()], "CANCEL {bin}");
        assert_eq!(take(&mut server, "08 7fffffff"), Ok(()));
        assert_eq!(take(&mut server, &format!("03 {bin:08x}")), Ok(()));
        assert_eq!(told(&server), [chunks, &rest], "HAVE {bin}");
    }
}

#[test]
fn ack_means_the_part_inside_the_pack() {
    for (bin, chunks) in &UNDER[..12] {
        let mut server = server();
        let ack = format!("08 7fffffff 02 {bin:08x} 0000000000000007");
        assert_eq!(take(&mut server, &ack), Ok(()));
        let rest: Vec<u32> = (0..7).filter(|chunk| !chunks.contains(chunk)).collect();
        assert_eq!(told(&server), [chunks, &rest[..]], "ACK {bin}");
    }
}

#[test]
fn bins_wholly_past_the_pack_are_refused() {
    for bin in [
        "0000000e", "00000017", "00000013", "80000000", "fffffffd", "fffffffe",
    ] {
        for kind in ["03", "08", "09"] {
            refused(&format!("{kind} {bin}"), RANGE);
        }
        refused(&format!("02 {bin} 0000000000000000"), RANGE);
    }
}

#[test]
fn empty_and_everything() {
    for bin in ["ffffffff", "7fffffff"] {
        refused(&format!("01 {bin} 0000000000000000 61"), MALFORMED);
        refused(&format!("02 {bin} 0000000000000000"), MALFORMED);
        refused(&format!("04 {bin} 07*32"), MALFORMED);
    }
    let mut server = server();
    let before = server.clone();
    assert_eq!(
        take(&mut server, "03 ffffffff 08 ffffffff 09 ffffffff"),
        Ok(())
    );
    assert_eq!(server, before);
    assert_eq!(take(&mut server, "08 7fffffff 09 ffffffff"), Ok(()));
    assert_eq!(told(&server), [vec![], (0..7).collect()]);
    assert_eq!(take(&mut server, "09 7fffffff 03 7fffffff"), Ok(()));
    assert_eq!(told(&server), [(0..7).collect(), vec![]]);
}

#[test]
fn empty_one_is_a_message_all_the_same() {
    let mut server = server();
    server.open(18).expect("a free row");
    for kind in ["03", "08", "09"] {
        let mut to = |id: &str| {
            server
                .take(0, 0, &bytes(&format!("{id} {kind} ffffffff")))
                .err()
        };
        assert_eq!(to("00000012"), Some(Refusal::Unexpected.into()));
        assert_eq!(to("00000063"), Some(Refusal::NoChannel.into()));
        assert_eq!(to("00000000"), Some(Refusal::NoChannel.into()));
        refused(
            &format!("{kind} ffffffff 00 00000000 ff"),
            Refusal::Unexpected,
        );
    }
    // The layout is read before the destination is looked for.
    let ack = bytes("00000063 02 ffffffff 0000000000000000");
    assert_eq!(server.take(0, 0, &ack).err(), Some(MALFORMED.into()));
}

#[test]
fn integrity_that_reaches_past_is_refused() {
    for node in ["00000007", "0000000b", "0000000d", "0000000e", "3fffffff"] {
        refused(&format!("04 {node} 07*32"), RANGE);
    }
    let mut server = server();
    for node in ["00000003", "00000009", "0000000c"] {
        assert_eq!(take(&mut server, &format!("04 {node} 07*32")), Ok(()));
    }
    refused("04 00000003 07*32 04 00000003 07*32", MALFORMED);
    refused(
        "04 00000003 07*32 0a 04 00000009 07*32 04 00000003 08*32",
        MALFORMED,
    );
}

#[test]
fn fifty_five_hashes_fit() {
    // Each has 37 bytes: 4 + 55 * 37 is 2,039, and 56 would be 2,076. The leaves of chunks 0 to 54.
    let leaves = |count| {
        (0..count)
            .map(|i| format!("04 {:08x} 07*32 ", 2 * i))
            .collect()
    };
    let hashes: String = leaves(55);
    assert_eq!(bytes(&hashes).len() + 4, 2_039);
    let mut server = Pair::under(BINS, 64 * 1_024).server;
    assert_eq!(take(&mut server, &hashes), Ok(()));
    assert_eq!(take(&mut server, &leaves(56)), Err(Refusal::Size.into()));
    let again = leaves(54) + "04 00000000 07*32";
    assert_eq!(take(&mut server, &again), Err(MALFORMED.into()));
}

#[test]
fn data_of_one_chunk_is_taken() {
    refused("01 00000001 0000000000000000 61*1024", MALFORMED);
    refused("01 0000000d 0000000000000000 61*1018", MALFORMED);
    refused("01 0000000e 0000000000000000 61*1024", RANGE);
    let Pair { mut van, .. } = Pair::under(BINS, SEVEN);
    let whole = built(BINS, SEVEN);
    let mut datagram = bytes(&format!("{VAN:08x}"));
    // The peaks 3, 9 and 12, from the hash room of the whole store.
    for node in [3, 9, 12] {
        let words = &whole.view().hashes[8 * node..][..8];
        datagram.extend(bytes(&format!("04 {node:08x}")));
        datagram.extend(words.iter().flat_map(|word| word.to_be_bytes()));
    }
    datagram.extend(bytes("01 0000000c 0000000000000003"));
    datagram.extend(&content(SEVEN)[6_144..]);
    let ack = van.take(10, 0, &datagram).expect("a true chunk");
    // An ACK of bin 12, chunk 6, after 7 microseconds: 17 bytes.
    assert_eq!(ack, bytes("00000005 02 0000000c 0000000000000007"));
    assert_eq!(van.missing().collect::<Vec<_>>(), [0, 1, 2, 3, 4, 5]);
}

#[test]
fn messages_one_byte_short_are_refused() {
    for whole in ["03 00000000", "08 00000000", "09 00000000"] {
        refused(&whole[..whole.len() - 2], MALFORMED);
        assert_eq!(take(&mut server(), whole), Ok(()));
    }
    refused("02 00000000 00000000000000", MALFORMED);
    assert_eq!(take(&mut server(), "02 00000000 0000000000000000"), Ok(()));
    refused("04 00000000 07*31", MALFORMED);
    assert_eq!(take(&mut server(), "04 00000000 07*32"), Ok(()));
    refused("01 00000000 00000000000000", MALFORMED);
    // A chunk of no byte is not cut short, but has another size than chunk 0.
    refused("01 00000000 0000000000000000", Refusal::ChunkSize);
    // A range: behind bin 0 stands the type of a HANDSHAKE, cut short.
    refused("03 00000000 00000006", MALFORMED);
}
