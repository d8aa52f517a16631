//! Reading and writing against 01's words and against the list of traps, whose
//! numbers the tests give.

mod bins;
mod bins_written;
mod data_ranges;
mod layouts;
mod many;
mod reading;
mod writing;

use super::*;

/// The fixed options around an ID of 32 times the byte 7.
fn fixed() -> Vec<u8> {
    let behind = [3, 1, 4, 2, 6, 2, 9, 0, 0, 4, 0, 255];
    [&BEFORE_ID[..], &[7; 32], &behind].concat()
}

/// A HANDSHAKE.
fn handshake(source: u32, options: &[u8]) -> Vec<u8> {
    [&[0], &source.to_be_bytes()[..], options].concat()
}

/// A type byte and a range.
fn ranged(kind: u8, first: u32, last: u32) -> Vec<u8> {
    [&[kind], &first.to_be_bytes()[..], &last.to_be_bytes()].concat()
}

/// An INTEGRITY, its hash 32 times the byte 9.
fn integrity(first: u32, last: u32) -> Vec<u8> {
    [&ranged(4, first, last)[..], &[9; 32]].concat()
}

/// DATA.
fn data(first: u32, last: u32, time: u64, chunk: &[u8]) -> Vec<u8> {
    [&ranged(1, first, last)[..], &time.to_be_bytes(), chunk].concat()
}

/// A datagram.
fn to(destination: u32, messages: &[&[u8]]) -> Vec<u8> {
    [&destination.to_be_bytes()[..], &messages.concat()].concat()
}

/// The number of its layout under ranges.
fn number(datagram: &[u8]) -> u8 {
    number_under(Addressing::Ranges, datagram)
}

/// The same under a method.
fn number_under(addressing: Addressing, datagram: &[u8]) -> u8 {
    let layout = layout(addressing, datagram, &mut Vec::new());
    layout.err().unwrap_or(0)
}

/// A room of 2,048 bytes with a datagram in it, and the datagram's length.
fn room(datagram: &[u8]) -> ([u8; 2048], usize) {
    let mut room = [0xee; 2048];
    room[..datagram.len()].copy_from_slice(datagram);
    (room, datagram.len())
}

/// Adds to a datagram under ranges: the answer is the lengthened datagram. The
/// bytes behind it stay, and after a refusal all bytes.
fn added(datagram: &[u8], message: Message, source: &[u8]) -> Result<Vec<u8>, u8> {
    added_under(Addressing::Ranges, datagram, message, source)
}

/// The same under a method.
fn added_under(
    addressing: Addressing,
    datagram: &[u8],
    message: Message,
    source: &[u8],
) -> Result<Vec<u8>, u8> {
    let (mut room, len) = room(datagram);
    let before = room;
    match add(&mut room, addressing, len, &message, source) {
        Ok(lengthened) => {
            assert_eq!(room[lengthened..], before[lengthened..]);
            Ok(room[..lengthened].to_vec())
        }
        Err(number) => {
            assert_eq!(room, before);
            Err(number)
        }
    }
}
