//! Composing datagrams, and reading them back.

use crate::support::{bytes, Pair, RANGES, SEVEN, VAN};
use ppspp::{destination, messages, Composer, Malformed, Message, Options, Refusal};

/// A root or hash.
const HASH: [u8; 32] = [7; 32];

/// One message of each type but HANDSHAKE, DATA last, as DATA must be.
fn one_of_each() -> [Message<'static>; 8] {
    let (first, last) = (4, 5);
    [
        Message::Have { first, last },
        Message::Ack {
            first,
            last,
            delay: u64::MAX,
        },
        Message::Integrity {
            first,
            last,
            hash: &HASH,
        },
        Message::Request { first, last },
        Message::Cancel { first, last },
        Message::Choke,
        Message::Unchoke,
        Message::Data {
            first: 6,
            last: 6,
            timestamp: 1 << 40,
            bytes: b"chunk",
        },
    ]
}

/// The messages of a datagram that has no other.
fn read(datagram: &[u8]) -> Vec<Message<'_>> {
    let all: Result<Vec<_>, Malformed> = messages(RANGES, datagram).collect();
    all.expect("sound").into_iter().map(|(_, m)| m).collect()
}

#[test]
fn messages_read_back_as_composed() {
    let mut room = [0xc5; 2_048];
    let mut composer = Composer::begin(&mut room, RANGES, 9).expect("room");
    for message in one_of_each() {
        composer.add(message).expect("a sound message");
    }
    let datagram = composer.finish();
    assert_eq!(destination(datagram), Some(9));
    assert_eq!(read(datagram), one_of_each());
}

#[test]
fn composed_bytes_are_those_of_01() {
    let mut room = [0xc5; 2_048];
    let composed = Composer::begin(&mut room, RANGES, 0x0102_0304)
        .and_then(|c| c.have(1, 2))
        .and_then(|c| c.ack(3, 3, 100))
        .and_then(|c| c.integrity(4, 5, &HASH))
        .and_then(|c| c.request(6, 7))
        .and_then(|c| c.cancel(8, 9))
        .and_then(|c| c.choke())
        .and_then(|c| c.unchoke())
        .and_then(|c| c.data(10, 0x0b, b"abc"));
    let wanted = bytes(
        "01020304 03 00000001 00000002 02 00000003 00000003 0000000000000064 04 00000004 00000005 07*32 \
         08 00000006 00000007 09 00000008 00000009 0a 0b 01 0000000a 0000000a 000000000000000b 616263",
    );
    assert_eq!(composed.expect("sound messages").finish(), wanted);
    assert!(room[wanted.len()..].iter().all(|&byte| byte == 0xc5));
}

#[test]
fn handshakes_read_back_as_composed() {
    let mut room = [0; 2_048];
    let opening = Composer::begin(&mut room, RANGES, 0).and_then(|c| c.handshake(17, &HASH));
    let opening = opening.expect("a sound message").finish();
    let fixed = "00010101020020 07*32 0301040206020900000400ff";
    assert_eq!(opening, bytes(&format!("00000000 00 00000011 {fixed}")));
    let options = Options::Fixed { root: &HASH };
    assert_eq!(
        read(opening),
        [Message::Handshake {
            source: 17,
            options
        }]
    );
    let closing = Composer::begin(&mut room, RANGES, 17).and_then(|c| c.close());
    let closing = closing.expect("a sound message").finish();
    assert_eq!(closing, bytes("00000011 00 00000000 ff"));
    assert_eq!(read(closing), [Message::CLOSING]);
}

/// A message behind another one must be refused so, and leave the datagram; then one more fits.
fn refused_behind(so_far: Option<Message<'_>>, message: Message<'_>, wanted: Refusal) {
    let mut room = [0xc5; 2_048];
    let mut composer = Composer::begin(&mut room, RANGES, 9).expect("room");
    if let Some(so_far) = so_far {
        composer.add(so_far).expect("a sound message");
    }
    let before = composer.datagram().to_vec();
    assert_eq!(composer.add(message), Err(wanted), "{message}");
    assert_eq!(composer.datagram(), before, "{message}");
    assert_eq!(composer.finish(), before);
    assert!(room[before.len()..].iter().all(|&byte| byte == 0xc5));
}

/// DATA of chunk 0.
fn data(bytes: &[u8]) -> Message<'_> {
    over((0, 0), bytes)
}

/// DATA with any range.
fn over((first, last): (u32, u32), bytes: &[u8]) -> Message<'_> {
    Message::Data {
        first,
        last,
        timestamp: 0x2a,
        bytes,
    }
}

/// INTEGRITY of a range.
fn integrity(first: u32, last: u32, hash: &[u8]) -> Message<'_> {
    Message::Integrity { first, last, hash }
}

/// HANDSHAKE from channel 1.
fn handshake(options: Options<'_>) -> Message<'_> {
    Message::Handshake { source: 1, options }
}

#[test]
fn message_that_cannot_be_read_is_refused() {
    let malformed = Refusal::Malformed;
    refused_behind(None, Message::Have { first: 5, last: 4 }, malformed);
    refused_behind(None, integrity(1, 2, &HASH), malformed);
    refused_behind(None, handshake(Options::Other), malformed);
    let node = integrity(0, 3, &HASH);
    refused_behind(Some(node), node, malformed);
    refused_behind(Some(data(b"a")), Message::Choke, malformed);
}

/// 01: "DATA range not one chunk" is 2. The size of the lengthened datagram, 1, comes before its layout, and there a
/// HANDSHAKE is judged at its place, 3 before the range behind it. Behind DATA anything is 2.
#[test]
fn data_that_is_not_of_one_chunk_is_refused() {
    let mut room = [0xc5; 2_048];
    let mut composer = Composer::begin(&mut room, RANGES, 9).expect("room");
    assert_eq!(composer.add(over((5, 5), b"abc")), Ok(()));
    let five = "00000009 01 00000005 00000005 000000000000002a 616263";
    assert_eq!(composer.finish(), bytes(five));
    for range in [
        (5, 6),
        (6, 5),
        (0, 1),
        (0, u32::MAX),
        (u32::MAX, 0),
        (5, 5 + (1 << 16)),
    ] {
        refused_behind(None, over(range, b"abc"), Refusal::Malformed);
        let choke = Some(Message::Choke);
        refused_behind(choke, over(range, b""), Refusal::Malformed);
        refused_behind(None, over(range, &[0; 2_027]), Refusal::Malformed);
        refused_behind(None, over(range, &[0; 2_028]), Refusal::Size);
        let closing = Some(Message::CLOSING);
        refused_behind(closing, over(range, b"abc"), Refusal::Unexpected);
        refused_behind(closing, over(range, &[0; 2_028]), Refusal::Size);
        let chunk = Some(data(b"abc"));
        refused_behind(chunk, over(range, b"abc"), Refusal::Malformed);
    }
}

#[test]
fn hash_or_root_of_31_bytes_is_refused() {
    let root = &HASH[..31];
    refused_behind(None, integrity(0, 3, root), Refusal::Malformed);
    let options = Options::Fixed { root };
    refused_behind(None, handshake(options), Refusal::Malformed);
}

#[test]
fn handshake_that_is_not_alone_or_not_sound_is_refused() {
    let (closing, choke) = (Message::CLOSING, Message::Choke);
    refused_behind(Some(choke), closing, Refusal::Unexpected);
    refused_behind(Some(closing), choke, Refusal::Unexpected);
    let options = Options::Fixed { root: &HASH };
    let closing = Message::Handshake { source: 0, options };
    refused_behind(None, closing, Refusal::Unexpected);
}

#[test]
fn datagram_over_2048_bytes_is_refused() {
    // Destination, type, range and timestamp leave 2,027 bytes.
    refused_behind(None, data(&[0; 2_028]), Refusal::Size);
    let mut room = [0; 2_048];
    let mut composer = Composer::begin(&mut room, RANGES, 9).expect("room");
    assert_eq!(composer.add(data(&[0; 2_027])), Ok(()));
    assert_eq!(composer.finish().len(), 2_048);
}

#[test]
fn message_fits_after_a_refused_one() {
    let mut room = [0; 2_048];
    let mut composer = Composer::begin(&mut room, RANGES, 9).expect("room");
    assert!(composer.add(Message::Have { first: 1, last: 0 }).is_err());
    assert!(composer.add(Message::Have { first: 0, last: 1 }).is_ok());
    assert_eq!(composer.finish(), bytes("00000009 03 00000000 00000001"));
}

#[test]
fn room_under_2048_bytes_is_too_small() {
    assert_eq!(
        Composer::begin(&mut [0; 2_047], RANGES, 9).err(),
        Some(Refusal::Room)
    );
    assert_eq!(
        Composer::begin(&mut [], RANGES, 9).err(),
        Some(Refusal::Room)
    );
}

#[test]
fn store_composes_in_its_reply_room() {
    let Pair {
        mut van,
        mut server,
        ..
    } = Pair::new(SEVEN);
    let peer = van.channel(VAN).expect("it is open").peer;
    let composer = van.compose(peer).and_then(|c| c.request(2, 3));
    let datagram = composer.expect("a sound message").finish();
    assert_eq!(datagram, bytes("00000005 08 00000002 00000003"));
    server.take(0, 0, datagram).expect("sound");
    let wanted: Vec<u32> = (0..7).filter(|&c| server.peer_wants(0, c)).collect();
    assert_eq!(wanted, [2, 3]);
}
