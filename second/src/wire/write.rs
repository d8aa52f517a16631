//! Writing a datagram message by message.

use super::layout::{check, source_fits};
use super::{behind_id, kind, BEFORE_ID, END, FIXED_SIZE, HASH_SIZE, MAX_SIZE, MIN_SIZE};
use super::{Addressing, ByBins, ByRanges, Layout, Message, Names, Nodes, Options};
use crate::answer::{BAD_LAYOUT, BAD_SIZE, MISPLACED, ROOM_TOO_SMALL};

/// Begins a datagram: writes its destination and gives its length, 4. The
/// error is 11, for a room under 2,048 bytes.
pub fn begin(room: &mut [u8], destination: u32) -> Result<usize, u8> {
    if room.len() < MAX_SIZE {
        return Err(ROOM_TOO_SMALL);
    }
    Ok(address(room, destination))
}

/// The same in a room that is known to be large enough.
#[inline]
pub(crate) fn address(room: &mut [u8], destination: u32) -> usize {
    room[..MIN_SIZE].copy_from_slice(&destination.to_be_bytes());
    MIN_SIZE
}

/// Adds a message to the datagram in the first `len` bytes of the room and
/// gives its new length. The bytes of a hash, chunk or root are taken from
/// `source`.
///
/// The error is the first of these that applies, and leaves every byte of the
/// room: 11 for a room under 2,048 bytes; the number that the reader's size and
/// layout checks give for the datagram so far; 2 for a message that cannot be
/// written, since its bytes do not lie wholly in `source`, its options are
/// others, or it is empty and there is no such message; the number that those
/// checks give for the lengthened datagram, where chunks without a bin are as a
/// bin that they refuse; 2 where the datagram so far ends in DATA.
pub fn add(
    room: &mut [u8],
    addressing: Addressing,
    len: usize,
    message: &Message,
    source: &[u8],
) -> Result<usize, u8> {
    match addressing {
        Addressing::Bins => add_by::<ByBins>(room, len, message, source),
        Addressing::Ranges => add_by::<ByRanges>(room, len, message, source),
    }
}

#[inline]
fn add_by<N: Names>(
    room: &mut [u8],
    len: usize,
    message: &Message,
    source: &[u8],
) -> Result<usize, u8> {
    if room.len() < MAX_SIZE {
        return Err(ROOM_TOO_SMALL);
    }
    if len > MAX_SIZE {
        return Err(BAD_SIZE);
    }
    let (so_far, free) = room.split_at_mut(len);
    let mut nodes = Nodes::<N>::of(so_far);
    let laid = check::<N>(so_far, |node, place| nodes.keep(node, place))?;
    let (size, bytes) = parts::<N>(message, source).ok_or(BAD_LAYOUT)?;
    let lengthened = len + size;
    if lengthened > MAX_SIZE {
        return Err(BAD_SIZE);
    }
    match laid.layout {
        // It would no longer be alone, and is judged first.
        Layout::HandshakeAlone { .. } => return Err(MISPLACED),
        // It would swallow the message.
        Layout::MessagesAndData { .. } => return Err(BAD_LAYOUT),
        Layout::Messages => {}
    }
    check_behind(so_far, &nodes, message)?;
    write::<N>(&mut free[..size], message, bytes);
    Ok(lengthened)
}

/// The reader's layout checks of a message behind a datagram so far that has
/// neither HANDSHAKE nor DATA.
#[inline(always)]
fn check_behind<N: Names>(so_far: &[u8], nodes: &Nodes<N>, message: &Message) -> Result<(), u8> {
    let fits = match *message {
        Message::Handshake { source, options } => {
            let destination = u32::from_be_bytes([so_far[0], so_far[1], so_far[2], so_far[3]]);
            if so_far.len() > MIN_SIZE || !source_fits(destination, source, options) {
                return Err(MISPLACED);
            }
            true
        }
        Message::Integrity { first, last, .. } => {
            // A node is halfway between the leaves of its first and last chunk.
            let node = u64::from(first) + u64::from(last);
            N::can_name(kind::INTEGRITY, first, last) && nodes.hash(node).is_none()
        }
        Message::Data { first, last, .. } => N::can_name(kind::DATA, first, last),
        Message::Ack { first, last, .. } => N::can_name(kind::ACK, first, last),
        Message::Have { first, last } => N::can_name(kind::HAVE, first, last),
        Message::Request { first, last } => N::can_name(kind::REQUEST, first, last),
        Message::Cancel { first, last } => N::can_name(kind::CANCEL, first, last),
        Message::Choke | Message::Unchoke | Message::Empty { .. } => true,
    };
    if fits {
        Ok(())
    } else {
        Err(BAD_LAYOUT)
    }
}

/// Adds a message that `add` would take, without any look at the datagram so
/// far, and gives the new length. `bytes` are its hash, chunk or root, if it has
/// one, wherever it says that they stand.
#[inline(always)]
pub(crate) fn append<N: Names>(
    room: &mut [u8],
    len: usize,
    message: &Message,
    bytes: &[u8],
) -> usize {
    let around = shape::<N>(message).map_or(0, |shape| shape.around);
    let lengthened = len + around + bytes.len();
    write::<N>(&mut room[len..lengthened], message, bytes);
    lengthened
}

/// The number of bytes of a message, and those it takes from the source; none
/// if it cannot be written.
#[inline]
fn parts<'a, N: Names>(message: &Message, source: &'a [u8]) -> Option<(usize, &'a [u8])> {
    let Shape { around, start, len } = shape::<N>(message)?;
    let bytes = source.get(start..)?.get(..len)?;
    Some((around + len, bytes))
}

/// What a message is made of.
struct Shape {
    /// The number of its bytes without those it takes from the source.
    around: usize,
    /// The place of those.
    start: usize,
    /// Their number.
    len: usize,
}

/// The shape of a message, if there is one.
#[inline(always)]
fn shape<N: Names>(message: &Message) -> Option<Shape> {
    let (around, start, len) = match *message {
        Message::Handshake { options, .. } => match options {
            Options::Fixed { root } => (5 + FIXED_SIZE - HASH_SIZE, root, HASH_SIZE),
            Options::EndOnly => (6, 0, 0),
            Options::Other => return None,
        },
        Message::Data { start, len, .. } => (1 + N::WITH_TIME, start, len),
        Message::Ack { .. } => (1 + N::WITH_TIME, 0, 0),
        Message::Integrity { hash, .. } => (1 + N::SIZE, hash, HASH_SIZE),
        Message::Have { .. } | Message::Request { .. } | Message::Cancel { .. } => {
            (1 + N::SIZE, 0, 0)
        }
        Message::Choke | Message::Unchoke => (1, 0, 0),
        Message::Empty { kind } if N::can_be_empty(kind) => (1 + N::SIZE, 0, 0),
        Message::Empty { .. } => return None,
    };
    Some(Shape { around, start, len })
}

/// Writes a message into the bytes that are its own; `bytes` are those it takes
/// from the source.
#[inline(always)]
fn write<N: Names>(own: &mut [u8], message: &Message, bytes: &[u8]) {
    match *message {
        Message::Handshake { source, options } => {
            own[0] = kind::HANDSHAKE;
            own[1..5].copy_from_slice(&source.to_be_bytes());
            if options == Options::EndOnly {
                own[5] = END;
                return;
            }
            let (before, rest) = own[5..].split_at_mut(BEFORE_ID.len());
            let (id, behind) = rest.split_at_mut(HASH_SIZE);
            before.copy_from_slice(&BEFORE_ID);
            id.copy_from_slice(bytes);
            behind.copy_from_slice(&behind_id(N::ADDRESSING));
        }
        Message::Data {
            first, last, time, ..
        } => {
            put_name::<N>(own, kind::DATA, first, last);
            own[1 + N::SIZE..1 + N::WITH_TIME].copy_from_slice(&time.to_be_bytes());
            own[1 + N::WITH_TIME..].copy_from_slice(bytes);
        }
        Message::Ack { first, last, delay } => {
            put_name::<N>(own, kind::ACK, first, last);
            own[1 + N::SIZE..1 + N::WITH_TIME].copy_from_slice(&delay.to_be_bytes());
        }
        Message::Have { first, last } => put_name::<N>(own, kind::HAVE, first, last),
        Message::Integrity { first, last, .. } => {
            put_name::<N>(own, kind::INTEGRITY, first, last);
            own[1 + N::SIZE..].copy_from_slice(bytes);
        }
        Message::Request { first, last } => put_name::<N>(own, kind::REQUEST, first, last),
        Message::Cancel { first, last } => put_name::<N>(own, kind::CANCEL, first, last),
        Message::Choke => own[0] = kind::CHOKE,
        Message::Unchoke => own[0] = kind::UNCHOKE,
        Message::Empty { kind } => {
            own[0] = kind;
            own[1..].fill(0xff);
        }
    }
}

/// Writes a type byte and the name of chunks.
#[inline(always)]
fn put_name<N: Names>(own: &mut [u8], kind: u8, first: u32, last: u32) {
    own[0] = kind;
    N::put(&mut own[1..], first, last);
}
