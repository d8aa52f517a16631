//! The numbers given back.

use core::error::Error;
use core::fmt;

/// Why a call was refused: the numbers 1 to 14 of the header's `enum ppspp_answer`. After a refusal every room is as it
/// was.
#[derive(Clone, Copy, Debug, PartialEq, Eq, Hash, PartialOrd, Ord)]
#[repr(u32)]
pub enum Refusal {
    /// The datagram has under 4 or over 2,048 bytes.
    Size = 1,
    /// A message is malformed (type, length, range, node, options), or added behind DATA.
    Malformed = 2,
    /// The channel is not open, or a HANDSHAKE is not alone, not sound or not due.
    Unexpected = 3,
    /// The HANDSHAKE has other options than the yard profile's, or another root.
    Options = 4,
    /// No channel of ours has the datagram's destination.
    NoChannel = 5,
    /// All 16 rows of the channel table are in use.
    ChannelsFull = 6,
    /// A range or a chunk's number runs past the last chunk.
    Range = 7,
    /// The chunk's size is not the one that its number has.
    ChunkSize = 8,
    /// A hash that is needed to check the chunk did not come with it.
    HashMissing = 9,
    /// The peaks do not give the root, or the chunk does not lead to a trusted hash.
    HashMismatch = 10,
    /// A room is too small.
    Room = 11,
    /// No order, its length 0, over 524,288 or not the content's, or no such addressing.
    Length = 12,
    /// The chunk to be written is not held.
    NotHeld = 13,
    /// A channel is to be opened under ID 0 or one in use.
    Id = 14,
}

impl Refusal {
    /// All of them, by rising number.
    pub const ALL: [Refusal; 14] = [
        Refusal::Size,
        Refusal::Malformed,
        Refusal::Unexpected,
        Refusal::Options,
        Refusal::NoChannel,
        Refusal::ChannelsFull,
        Refusal::Range,
        Refusal::ChunkSize,
        Refusal::HashMissing,
        Refusal::HashMismatch,
        Refusal::Room,
        Refusal::Length,
        Refusal::NotHeld,
        Refusal::Id,
    ];

    /// Its number, 1 to 14.
    pub const fn number(self) -> u32 {
        self as u32
    }

    /// The refusal of a number, if it has one.
    pub fn of(number: u32) -> Option<Refusal> {
        Refusal::ALL.into_iter().find(|r| r.number() == number)
    }

    /// What a number of the library says: done, or a refusal.
    ///
    /// # Panics
    ///
    /// With a number over 14, which the library cannot give.
    pub fn check(number: u32) -> Result<(), Refusal> {
        match (number, Refusal::of(number)) {
            (crate::sys::PPSPP_DONE, _) => Ok(()),
            (_, Some(refusal)) => Err(refusal),
            (_, None) => {
                unreachable!("the library answered with {number}, which is no number of its table")
            }
        }
    }
}

/// The sentence of the number in the header.
impl fmt::Display for Refusal {
    fn fmt(&self, f: &mut fmt::Formatter<'_>) -> fmt::Result {
        f.write_str(match self {
            Refusal::Size => "the datagram has under 4 or over 2,048 bytes",
            Refusal::Malformed => {
                "a message is malformed (type, length, range, node, options), or added behind DATA"
            }
            Refusal::Unexpected => {
                "the channel is not open, or a HANDSHAKE is not alone, not sound or not due"
            }
            Refusal::Options => {
                "the HANDSHAKE has other options than the yard profile's, or another root"
            }
            Refusal::NoChannel => "no channel of ours has the datagram's destination",
            Refusal::ChannelsFull => "all 16 rows of the channel table are in use",
            Refusal::Range => "a range or a chunk's number runs past the last chunk",
            Refusal::ChunkSize => "the chunk's size is not the one that its number has",
            Refusal::HashMissing => "a hash that is needed to check the chunk did not come with it",
            Refusal::HashMismatch => {
                "the peaks do not give the root, or the chunk does not lead to a trusted hash"
            }
            Refusal::Room => "a room is too small",
            Refusal::Length => {
                "no order, its length 0, over 524,288 or not the content's, or no such addressing"
            }
            Refusal::NotHeld => "the chunk to be written is not held",
            Refusal::Id => "a channel is to be opened under ID 0 or one in use",
        })
    }
}

impl Error for Refusal {}
