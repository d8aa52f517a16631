//! The limits of a pack, and the sizes of the rooms for a pack of n chunks.
//!
//! The functions are those of the library, proved for every number. It is also proved that a start or a build under a
//! length of 1 to 524,288, in rooms of at least these sizes, [`STATE_WORDS`] of state among them, is not answered with
//! [`Refusal::Room`](crate::Refusal::Room). For static rooms, whose sizes are wanted at compile time, [`fixed`] has the
//! header's formulas.

use crate::{calls, sys};

/// Bytes of a chunk; the last one has 1 to 1,024.
pub const CHUNK_SIZE: u32 = sys::PPSPP_CHUNK_SIZE;
/// Bytes of a pack, at most.
pub const MAX_LENGTH: u32 = sys::PPSPP_MAX_LENGTH;
/// Chunks of a pack, at most.
pub const MAX_CHUNKS: u32 = sys::PPSPP_MAX_CHUNKS;
/// Rows of the channel table.
pub const CHANNELS: u32 = sys::PPSPP_CHANNELS;
/// Bytes of a root hash.
pub const ROOT_BYTES: usize = sys::PPSPP_ROOT_BYTES;
/// Bytes of a datagram, at least.
pub const MIN_DATAGRAM: usize = sys::PPSPP_MIN_DATAGRAM;
/// Bytes of a datagram, at most.
pub const MAX_DATAGRAM: usize = sys::PPSPP_MAX_DATAGRAM;
/// Words of the state room.
pub const STATE_WORDS: usize = sys::PPSPP_STATE_WORDS;
/// Bytes of the reply room.
pub const REPLY_BYTES: usize = sys::PPSPP_REPLY_BYTES;

/// The chunks of a pack of a length.
pub fn chunk_count(length: u32) -> u32 {
    calls::chunk_count(length)
}

/// Words of the map: a bit for each chunk.
pub fn map_words(n: u32) -> usize {
    calls::words(n)[0]
}

/// Words of the hash room: eight for each node.
pub fn hash_words(n: u32) -> usize {
    calls::words(n)[1]
}

/// Words of the room for trusted nodes: a bit for each node.
pub fn trusted_words(n: u32) -> usize {
    calls::words(n)[2]
}

/// Words of the room for what peers have, and of the one for what they want: a bit for each chunk in each of 16 rows.
pub fn peer_words(n: u32) -> usize {
    calls::words(n)[3]
}

/// Whether the linked library has the layout of the state that this crate was written for.
pub fn library_matches() -> bool {
    calls::layout() == (sys::PPSPP_LAYOUT_VERSION, sys::PPSPP_STATE_WORDS)
}

/// Made once with each store: a library of another layout is a fault of the build.
pub(crate) fn demand_match() {
    let (version, words) = calls::layout();
    assert!(
        library_matches(),
        "the linked library has version {version} of the layout and {words} state words, this crate {} and {}",
        sys::PPSPP_LAYOUT_VERSION,
        sys::PPSPP_STATE_WORDS
    );
}

/// The same sizes by the header's formulas, for n from 1 to 512, as constants.
///
/// ```
/// use ppspp::sizes::fixed;
/// static HASHES: [u32; fixed::hash_words(7)] = [0; fixed::hash_words(7)];
/// assert_eq!(HASHES.len(), 128);
/// ```
pub mod fixed {
    use crate::sys;

    /// The chunks of a pack of a length.
    pub const fn chunk_count(length: u32) -> u32 {
        length.div_ceil(sys::PPSPP_CHUNK_SIZE)
    }

    /// The leaf places of the least tree over n chunks.
    pub const fn leaf_places(n: u32) -> usize {
        if n > sys::PPSPP_MAX_CHUNKS {
            return sys::PPSPP_MAX_CHUNKS as usize;
        }
        n.next_power_of_two() as usize
    }

    /// Words of the map.
    pub const fn map_words(n: u32) -> usize {
        n.div_ceil(32) as usize
    }

    /// Words of the hash room.
    pub const fn hash_words(n: u32) -> usize {
        16 * leaf_places(n)
    }

    /// Words of the room for trusted nodes.
    pub const fn trusted_words(n: u32) -> usize {
        (2 * leaf_places(n)).div_ceil(32)
    }

    /// Words of the room for what peers have, and of the one for what they want.
    pub const fn peer_words(n: u32) -> usize {
        sys::PPSPP_CHANNELS as usize * map_words(n)
    }
}
