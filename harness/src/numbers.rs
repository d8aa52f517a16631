//! Messages in the numbers and bytes of the loader's interface, by the table of
//! its header.

use crate::random::Random;
use ppspp::calls::Numbers;
use second::wire::{Message, Options, HASH_SIZE};

/// The types that are named here.
const HANDSHAKE: u32 = 0;
const DATA: u32 = 1;
const ACK: u32 = 2;
const INTEGRITY: u32 = 4;
const CHOKE: u32 = 10;
const UNCHOKE: u32 = 11;

/// What the type of an empty message is above that of the message.
const EMPTY: u32 = 256;

/// A type that the table lacks.
const NO_TYPE: u32 = 255;

/// The number of the fixed options.
const FIXED: u32 = 1;

/// A message that cannot be written, in `second`'s form.
pub const UNWRITABLE: Message = Message::Handshake {
    source: 0,
    options: Options::Other,
};

/// A message to be added, whose hash, chunk or root stands in a source.
///
/// The interface is handed these bytes and not their place. So where they do not
/// lie within the source, which `second` refuses as a message that cannot be
/// written, it is handed another one that cannot: for a hash or a root what is
/// left of the source, which is under 32 bytes, and for a chunk, which may have
/// any length, a type that the table lacks.
#[inline]
pub fn numbers<'a>(message: &Message, source: &'a [u8]) -> Numbers<'a> {
    let of = |kind, first, last, number, bytes| Numbers {
        kind,
        first,
        last,
        number,
        bytes,
    };
    let from = |place: usize| source.get(place..).unwrap_or_default();
    match *message {
        Message::Handshake { source, options } => {
            let (options, bytes) = match options {
                Options::EndOnly => (0, &[][..]),
                Options::Fixed { root } => (FIXED, from(root)),
                Options::Other => (2, &[][..]),
            };
            of(HANDSHAKE, source, options, 0, bytes)
        }
        Message::Data {
            first,
            last,
            time,
            start,
            len,
        } => match source.get(start..).and_then(|rest| rest.get(..len)) {
            Some(bytes) => of(DATA, first, last, time, bytes),
            None => of(NO_TYPE, first, last, time, &[]),
        },
        Message::Ack { first, last, delay } => of(ACK, first, last, delay, &[]),
        Message::Have { first, last } => of(3, first, last, 0, &[]),
        Message::Integrity { first, last, hash } => of(INTEGRITY, first, last, 0, from(hash)),
        Message::Request { first, last } => of(8, first, last, 0, &[]),
        Message::Cancel { first, last } => of(9, first, last, 0, &[]),
        Message::Choke => of(CHOKE, 0, 0, 0, &[]),
        Message::Unchoke => of(UNCHOKE, 0, 0, 0, &[]),
        Message::Empty { kind } => of(EMPTY + u32::from(kind), 0, 0, 0, &[]),
    }
}

/// The words of a message that was read from a datagram, and of the place behind
/// it. The place of no bytes is 0.
pub fn found(message: &Message, datagram: &[u8], next: usize) -> [u64; 7] {
    let (place, count) = match *message {
        Message::Handshake {
            options: Options::Fixed { root },
            ..
        } => (root, HASH_SIZE),
        Message::Data { start, len, .. } => (start, len),
        Message::Integrity { hash, .. } => (hash, HASH_SIZE),
        _ => (0, 0),
    };
    let read = numbers(message, datagram);
    [
        read.kind.into(),
        read.first.into(),
        read.last.into(),
        read.number,
        place as u64,
        count as u64,
        next as u64,
    ]
}

/// The same message, with anything in the numbers and bytes that its type has no
/// use for.
pub fn with_unused<'a>(
    random: &mut Random,
    message: Numbers<'a>,
    any_bytes: &'a [u8],
) -> Numbers<'a> {
    let mut changed = message;
    if ![DATA, ACK].contains(&message.kind) {
        changed.number = random.long_words(1)[0];
    }
    if [CHOKE, UNCHOKE].contains(&message.kind) || message.kind >= EMPTY {
        changed.first = random.number();
        changed.last = random.number();
    }
    let with_root = message.kind == HANDSHAKE && message.last == FIXED;
    if !with_root && ![DATA, INTEGRITY].contains(&message.kind) {
        changed.bytes = any_bytes;
    }
    changed
}

/// Numbers that no message has, made of those of one: a type that the table
/// lacks, in a byte or in more, whose low byte may then be a type; an empty
/// message that there is none of; or a HANDSHAKE with options that the table lacks
/// or that are never written.
pub fn of_no_message<'a>(random: &mut Random, message: Numbers<'a>) -> Numbers<'a> {
    let mut changed = message;
    match random.below(5) {
        0 => changed.kind = 5 + random.below(3),
        1 => changed.kind = 12 + random.below(244),
        2 => changed.kind = message.kind % 256 + 256 * (2 + random.below((1 << 24) - 2)),
        3 => {
            let of_type = random.one_of(&[0, 1, 2, 4, 5, 7, 10, 11, 12, 255]);
            changed.kind = EMPTY + of_type;
        }
        _ => {
            changed.kind = HANDSHAKE;
            let any = 2 + random.below(u32::MAX - 1);
            changed.last = random.one_of(&[2, 3, 255, 256, 257, u32::MAX, any]);
        }
    }
    changed
}
