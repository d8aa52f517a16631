//! Messages added to datagrams where what is wanted is written down by hand: the
//! datagrams so far, the messages, and how they are added.

use crate::numbers::numbers;
use ppspp::calls::{add, Numbers};
use second::by_hand::parse;
use second::wire::{Message, Options};

/// The numbers of the methods.
pub const BINS: u32 = 0;
pub const RANGES: u32 = 2;

/// A datagram that ends in DATA, under ranges and under bins.
pub const WITH_DATA: &str = "00000005 01 00000003 00000003 000000000000002a 61";
pub const WITH_DATA_BIN: &str = "00000005 01 00000006 000000000000002a 61";

/// A datagram that is a HANDSHAKE.
pub const WITH_HANDSHAKE: &str = "00000005 00 00000011 ff";

/// A datagram that is refused with 2, for a type.
pub const REFUSED_TYPE: &str = "00000005 0a 07";

/// A datagram that is refused with 3, for a HANDSHAKE that is not alone.
pub const HANDSHAKE_BEHIND: &str = "00000005 0a 00 00000011 ff";

/// What stands in a room behind the datagram.
const BEHIND: u8 = 0xc5;

/// Hashes, chunks and roots are taken from the bytes 0, 1, 2 and so on.
pub fn source() -> Vec<u8> {
    (0..=255).cycle().take(3_000).collect()
}

/// The 32 bytes of the source from place 1 on.
pub const ROOT: &str = "0102030405060708090a0b0c0d0e0f101112131415161718191a1b1c1d1e1f20";

/// The fixed options around them.
pub const FIXED: Options = Options::Fixed { root: 1 };

/// A CHOKE.
pub const CHOKE: Message = Message::Choke;

/// A HAVE of a range.
pub fn have(first: u32, last: u32) -> Message {
    Message::Have { first, last }
}

/// An INTEGRITY of a range, its hash at a place of the source.
pub fn integrity(first: u32, last: u32, hash: usize) -> Message {
    Message::Integrity { first, last, hash }
}

/// DATA of a chunk, the first bytes of the source.
pub fn data(chunk: u32, len: usize) -> Message {
    data_over(chunk, chunk, len)
}

/// The same with any range.
pub fn data_over(first: u32, last: u32, len: usize) -> Message {
    Message::Data {
        first,
        last,
        time: 0x2a,
        start: 0,
        len,
    }
}

/// A HANDSHAKE.
pub fn handshake(source: u32, options: Options) -> Message {
    Message::Handshake { source, options }
}

/// The bytes that hexadecimal digits name, in groups, `xx*N` for N times xx.
pub fn bytes(text: &str) -> Vec<u8> {
    let line = format!("0 {text} # by hand");
    parse(&line).expect(text).remove(0).datagram
}

/// A room of a size that begins with these bytes.
pub fn room(size: usize, so_far: &[u8]) -> Vec<u8> {
    let mut room = so_far.to_vec();
    room.resize(size, BEHIND);
    room
}

/// Adds a message under a method to these bytes in a room of 2,048 and more: it
/// must be taken, and then these bytes stand behind them, and nothing else has
/// changed.
pub fn taken(method: u32, so_far: &str, message: Message, added: &str) {
    taken_as(method, so_far, numbers(&message, &source()), added);
}

/// The same with the numbers of a message.
pub fn taken_as(method: u32, so_far: &str, numbers: Numbers, added: &str) {
    for size in [2_048, 2_049, 3_000] {
        let before = bytes(so_far);
        let after = [before.clone(), bytes(added)].concat();
        let mut got = room(size, &before);
        let told = add(&mut got, method, before.len(), numbers);
        assert_eq!(told, (0, after.len()), "{so_far}, {numbers:?}");
        assert_eq!(got, room(size, &after), "{so_far}, {numbers:?}");
    }
}

/// The same for a message that must be refused with a number: every byte stays.
pub fn refused(method: u32, so_far: &str, message: Message, wanted: u32) {
    let len = bytes(so_far).len();
    for size in [2_048, 3_000] {
        refused_in(method, size, len, so_far, message, wanted);
    }
}

/// The same with a size of the room and the length that the call is told.
pub fn refused_in(
    method: u32,
    size: usize,
    len: usize,
    so_far: &str,
    message: Message,
    wanted: u32,
) {
    let source = source();
    refused_as(
        method,
        size,
        len,
        so_far,
        numbers(&message, &source),
        wanted,
    );
}

/// The same with the numbers of a message.
pub fn refused_as(
    method: u32,
    size: usize,
    len: usize,
    so_far: &str,
    numbers: Numbers,
    wanted: u32,
) {
    let before = room(size, &bytes(so_far));
    let mut got = before.clone();
    let told = add(&mut got, method, len, numbers);
    assert_eq!(told, (wanted, 0), "{so_far}, {numbers:?}");
    assert_eq!(got, before, "{so_far}, {numbers:?}");
}
