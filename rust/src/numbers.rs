//! Messages in the numbers of the library.

use crate::message::{EmptyKind, Message, Options};
use crate::sys;

/// A message in numbers and bytes, as the header's table has it. Numbers that its type has no use for are not looked at.
#[derive(Clone, Copy, Debug, PartialEq, Eq, Hash)]
pub struct Numbers<'a> {
    /// The type.
    pub kind: u32,
    /// The first chunk; of a HANDSHAKE the source.
    pub first: u32,
    /// The last chunk; of a HANDSHAKE the number of its options.
    pub last: u32,
    /// The timestamp of DATA, the delay of an ACK.
    pub number: u64,
    /// The chunk, the hash, or the root of the fixed options. Of a hash or a root the first 32 bytes count.
    pub bytes: &'a [u8],
}

impl<'a> Message<'a> {
    /// In the numbers of the library.
    pub(crate) fn numbers(&self) -> Numbers<'a> {
        let of = |kind, first, last, number, bytes| Numbers {
            kind,
            first,
            last,
            number,
            bytes,
        };
        match *self {
            Message::Handshake { source, options } => {
                let (options, root) = options.numbers();
                of(sys::PPSPP_HANDSHAKE, source, options, 0, root)
            }
            Message::Data {
                first,
                last,
                timestamp,
                bytes,
            } => of(sys::PPSPP_DATA, first, last, timestamp, bytes),
            Message::Ack { first, last, delay } => of(sys::PPSPP_ACK, first, last, delay, &[]),
            Message::Have { first, last } => of(sys::PPSPP_HAVE, first, last, 0, &[]),
            Message::Integrity { first, last, hash } => {
                of(sys::PPSPP_INTEGRITY, first, last, 0, hash)
            }
            Message::Request { first, last } => of(sys::PPSPP_REQUEST, first, last, 0, &[]),
            Message::Cancel { first, last } => of(sys::PPSPP_CANCEL, first, last, 0, &[]),
            Message::Choke => of(sys::PPSPP_CHOKE, 0, 0, 0, &[]),
            Message::Unchoke => of(sys::PPSPP_UNCHOKE, 0, 0, 0, &[]),
            Message::Empty { kind } => of(kind.number(), 0, 0, 0, &[]),
        }
    }

    /// Of the numbers of the library, which has no other types than these.
    pub(crate) fn of(numbers: Numbers<'a>) -> Message<'a> {
        let Numbers {
            kind,
            first,
            last,
            number,
            bytes,
        } = numbers;
        match kind {
            sys::PPSPP_HANDSHAKE => Message::Handshake {
                source: first,
                options: Options::of(last, bytes),
            },
            sys::PPSPP_DATA => Message::Data {
                first,
                last,
                timestamp: number,
                bytes,
            },
            sys::PPSPP_ACK => Message::Ack {
                first,
                last,
                delay: number,
            },
            sys::PPSPP_HAVE => Message::Have { first, last },
            sys::PPSPP_INTEGRITY => Message::Integrity {
                first,
                last,
                hash: bytes,
            },
            sys::PPSPP_REQUEST => Message::Request { first, last },
            sys::PPSPP_CANCEL => Message::Cancel { first, last },
            sys::PPSPP_CHOKE => Message::Choke,
            sys::PPSPP_UNCHOKE => Message::Unchoke,
            _ => Message::Empty {
                kind: EmptyKind::of(kind),
            },
        }
    }
}

impl EmptyKind {
    /// The type of the library.
    fn number(self) -> u32 {
        match self {
            EmptyKind::Have => sys::PPSPP_EMPTY_HAVE,
            EmptyKind::Request => sys::PPSPP_EMPTY_REQUEST,
            EmptyKind::Cancel => sys::PPSPP_EMPTY_CANCEL,
        }
    }

    /// Of the type of the library, which has no other types than these and those of other messages.
    fn of(number: u32) -> EmptyKind {
        match number {
            sys::PPSPP_EMPTY_HAVE => EmptyKind::Have,
            sys::PPSPP_EMPTY_REQUEST => EmptyKind::Request,
            sys::PPSPP_EMPTY_CANCEL => EmptyKind::Cancel,
            _ => {
                unreachable!("the library read a message of type {number}, which there is none of")
            }
        }
    }
}

impl<'a> Options<'a> {
    /// The number of the library, and the root.
    fn numbers(&self) -> (u32, &'a [u8]) {
        match *self {
            Options::Fixed { root } => (sys::PPSPP_OPTIONS_FIXED, root),
            Options::End => (sys::PPSPP_OPTIONS_END, &[]),
            Options::Other => (sys::PPSPP_OPTIONS_OTHER, &[]),
        }
    }

    /// Of the number of the library, and the root.
    fn of(number: u32, root: &'a [u8]) -> Options<'a> {
        match number {
            sys::PPSPP_OPTIONS_FIXED => Options::Fixed { root },
            sys::PPSPP_OPTIONS_END => Options::End,
            _ => Options::Other,
        }
    }
}
