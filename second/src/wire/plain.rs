//! Writing a second time, as near to 01's words as can be, for the tests to
//! compare with: the lengthened datagram is made and given to the reader.

use super::{layout, Addressing, Layout, Message, Options};

/// What `add` is to give, and the datagram afterwards.
pub fn add(
    addressing: Addressing,
    so_far: &[u8],
    message: &Message,
    source: &[u8],
) -> Result<Vec<u8>, u8> {
    let mut nodes = Vec::new();
    let before = layout(addressing, so_far, &mut nodes)?;
    let mut lengthened = so_far.to_vec();
    lengthened.extend(encode(addressing, message, source).ok_or(2)?);
    layout(addressing, &lengthened, &mut nodes)?;
    match before {
        Layout::MessagesAndData { .. } => Err(2),
        _ if addressing == Addressing::Bins && !has_bin(message) => Err(2),
        _ => Ok(lengthened),
    }
}

/// The bytes of a message, if it can be written; its hash, chunk or root is
/// taken from a slice. Chunks without a bin are written as the empty one.
pub fn encode(addressing: Addressing, message: &Message, from: &[u8]) -> Option<Vec<u8>> {
    let mut bytes = Vec::new();
    let mut range = |kind: u8, first: u32, last: u32| {
        bytes.push(kind);
        match addressing {
            Addressing::Bins => {
                let bin = bin_of(first, last).unwrap_or(u32::MAX);
                bytes.extend(bin.to_be_bytes());
            }
            Addressing::Ranges => {
                bytes.extend(first.to_be_bytes());
                bytes.extend(last.to_be_bytes());
            }
        }
    };
    match *message {
        Message::Handshake { source, options } => {
            bytes.extend([&[0], &source.to_be_bytes()[..]].concat());
            bytes.extend(encode_options(addressing, options, from)?);
        }
        Message::Data {
            first,
            last,
            time,
            start,
            len,
        } => {
            range(1, first, last);
            bytes.extend(time.to_be_bytes());
            bytes.extend(slice(from, start, len)?);
        }
        Message::Ack { first, last, delay } => {
            range(2, first, last);
            bytes.extend(delay.to_be_bytes());
        }
        Message::Have { first, last } => range(3, first, last),
        Message::Integrity { first, last, hash } => {
            range(4, first, last);
            bytes.extend(slice(from, hash, 32)?);
        }
        Message::Request { first, last } => range(8, first, last),
        Message::Cancel { first, last } => range(9, first, last),
        Message::Choke => bytes.push(10),
        Message::Unchoke => bytes.push(11),
        Message::Empty { kind } => match (addressing, kind) {
            (Addressing::Bins, 3 | 8 | 9) => bytes.extend([kind, 0xFF, 0xFF, 0xFF, 0xFF]),
            _ => return None,
        },
    }
    Some(bytes)
}

/// Whether a bin names the chunks of a message, if it has any.
fn has_bin(message: &Message) -> bool {
    match *message {
        Message::Data { first, last, .. }
        | Message::Ack { first, last, .. }
        | Message::Have { first, last }
        | Message::Integrity { first, last, .. }
        | Message::Request { first, last }
        | Message::Cancel { first, last } => bin_of(first, last).is_some(),
        Message::Handshake { .. } | Message::Choke | Message::Unchoke | Message::Empty { .. } => {
            true
        }
    }
}

/// The bin over these chunks. "Node b of height h covers 2^h chunks from
/// (b - 2^h + 1) / 2": here by trying each height. Height 32 is the empty bin's.
pub fn bin_of(first: u32, last: u32) -> Option<u32> {
    let (first, last) = (u64::from(first), u64::from(last));
    let width = |height: u32| 1u64 << height;
    let height = (0..32).find(|&height| first + width(height) == last + 1)?;
    let bin = 2 * first + width(height) - 1;
    (bin.trailing_ones() == height).then_some(u32::try_from(bin).ok()?)
}

/// The bytes of the options, if they can be written.
fn encode_options(addressing: Addressing, options: Options, from: &[u8]) -> Option<Vec<u8>> {
    let Options::Fixed { root } = options else {
        return (options == Options::EndOnly).then(|| vec![0xFF]);
    };
    let mut bytes = b"\x00\x01\x01\x01\x02\x00\x20".to_vec();
    bytes.extend(slice(from, root, 32)?);
    bytes.extend(match addressing {
        Addressing::Bins => b"\x03\x01\x04\x02\x06\x00\x09\x00\x00\x04\x00\xFF",
        Addressing::Ranges => b"\x03\x01\x04\x02\x06\x02\x09\x00\x00\x04\x00\xFF",
    });
    Some(bytes)
}

/// The bytes at `start..start + len` if the slice has them all.
fn slice(from: &[u8], start: usize, len: usize) -> Option<&[u8]> {
    let end = start.checked_add(len)?;
    (end <= from.len()).then(|| &from[start..end])
}
