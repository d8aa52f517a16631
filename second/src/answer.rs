//! The numbers a store gives back, and the nodes that go with two of them.

/// Done.
pub const DONE: u8 = 0;
/// A datagram under 4 or over 2,048 bytes.
pub const BAD_SIZE: u8 = 1;
/// A message that cannot be read as 01's table says, or comes after DATA.
pub const BAD_LAYOUT: u8 = 2;
/// A HANDSHAKE that is not alone or cannot be, or closes in a wrong way; a
/// message that the channel's phase does not allow; a chunk to be written on an
/// ID without an open row.
pub const MISPLACED: u8 = 3;
/// An option of a HANDSHAKE is missing or another one than in 01.
pub const BAD_OPTIONS: u8 = 4;
/// The destination matches no row of the channel table.
pub const NO_CHANNEL: u8 = 5;
/// All rows of the channel table are in use.
pub const TABLE_FULL: u8 = 6;
/// A chunk past the last one.
pub const PAST_THE_END: u8 = 7;
/// A chunk of another length than its number has.
pub const WRONG_LENGTH: u8 = 8;
/// A needed hash is not there.
pub const HASH_MISSING: u8 = 9;
/// The peaks do not give the root, or the climb misses the trusted node.
pub const HASH_WRONG: u8 = 10;
/// A room is too small.
pub const ROOM_TOO_SMALL: u8 = 11;
/// The order's length is 0 or over the limit, or the content has another one.
pub const BAD_LENGTH: u8 = 12;
/// The order, or a message to be added, is under an addressing method that no
/// paper gives.
pub const BAD_METHOD: u8 = 12;
/// The chunk to be written is not held.
pub const NOT_HELD: u8 = 13;
/// A channel is to be opened under ID 0 or one in use.
pub const BAD_ID: u8 = 14;

/// Why a call is refused.
#[derive(Clone, Copy, Debug, PartialEq, Eq)]
pub(crate) enum Refusal {
    /// With another number than 9 and 10, which names no node.
    Number(u8),
    /// With 9: the first node in the sending order whose hash is needed and missing.
    HashMissing(u64),
    /// With 10: the trusted node that the climb missed, or the root if the peaks
    /// do not give it.
    HashWrong(u64),
}

impl Refusal {
    /// The number given back.
    pub fn number(self) -> u8 {
        match self {
            Refusal::Number(number) => number,
            Refusal::HashMissing(_) => HASH_MISSING,
            Refusal::HashWrong(_) => HASH_WRONG,
        }
    }

    /// The node that is named with it, if any.
    pub fn node(self) -> Option<u64> {
        match self {
            Refusal::Number(_) => None,
            Refusal::HashMissing(node) | Refusal::HashWrong(node) => Some(node),
        }
    }
}

impl From<u8> for Refusal {
    /// A number without a node.
    fn from(number: u8) -> Self {
        Refusal::Number(number)
    }
}
