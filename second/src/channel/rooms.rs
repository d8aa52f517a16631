//! The rooms that the caller lends, and the bits and hashes in them.

use super::CHANNELS;
use crate::answer;
use crate::climb::Hashes;
use crate::sha256::Digest;
use crate::store::MOST_LENGTH;
use crate::tree::{self, CHUNK_SIZE};
use crate::wire;

/// The bits of a word.
const BITS: u32 = u32::BITS;

/// The rooms, with anything in them. Bit rows are in whole words, the low bit
/// of the first word first; what lies past them stays as it is.
pub struct Rooms<'r> {
    /// The chunks' bytes: chunk i stands at 1,024 i.
    pub chunks: &'r mut [u8],
    /// One bit a chunk: whether it is held.
    pub map: &'r mut [u32],
    /// Eight words a node, by node number: its hash, read big-endian.
    pub hashes: &'r mut [u32],
    /// One bit a node: whether its hash is trusted.
    pub trusted: &'r mut [u32],
    /// For each row of the channel table a row of one bit a chunk: whether the
    /// peer has it.
    pub has: &'r mut [u32],
    /// The same: whether the peer wants it.
    pub wants: &'r mut [u32],
    /// Where replies are written.
    pub reply: &'r mut [u8],
}

/// The least sizes of the rooms: bytes for the chunks and the reply, words for
/// the others.
#[derive(Clone, Copy, Debug, PartialEq, Eq)]
pub struct Sizes {
    /// As many as the order's length.
    pub chunks: usize,
    /// One row.
    pub map: usize,
    /// 16 words a leaf place.
    pub hashes: usize,
    /// One row of two bits a leaf place.
    pub trusted: usize,
    /// A row as in the map for each channel.
    pub has: usize,
    /// The same.
    pub wants: usize,
    /// The longest datagram.
    pub reply: usize,
}

impl Sizes {
    /// Those for an order of a length.
    pub fn of(length: u32) -> Self {
        let count = tree::chunk_count(length);
        let places = tree::leaf_places(count);
        let row = count.div_ceil(BITS) as usize;
        Sizes {
            chunks: length as usize,
            map: row,
            hashes: 16 * places as usize,
            trusted: (2 * places).div_ceil(BITS) as usize,
            has: CHANNELS * row,
            wants: CHANNELS * row,
            reply: wire::MAX_SIZE,
        }
    }
}

impl Rooms<'_> {
    /// Refuses with 11 where any room is too small.
    pub(super) fn check(&self, sizes: &Sizes) -> Result<(), u8> {
        let large_enough = self.chunks.len() >= sizes.chunks
            && self.map.len() >= sizes.map
            && self.hashes.len() >= sizes.hashes
            && self.trusted.len() >= sizes.trusted
            && self.has.len() >= sizes.has
            && self.wants.len() >= sizes.wants
            && self.reply.len() >= sizes.reply;
        if large_enough {
            Ok(())
        } else {
            Err(answer::ROOM_TOO_SMALL)
        }
    }

    /// Clears all bit rows.
    pub(super) fn clear_rows(&mut self, sizes: &Sizes) {
        self.map[..sizes.map].fill(0);
        self.trusted[..sizes.trusted].fill(0);
        self.has[..sizes.has].fill(0);
        self.wants[..sizes.wants].fill(0);
    }

    /// The two bit rows of a channel: what the peer has, and what it wants.
    pub(super) fn channel_rows(&mut self, index: usize, sizes: &Sizes) -> [&mut [u32]; 2] {
        let start = index * sizes.map;
        let row = start..start + sizes.map;
        [&mut self.has[row.clone()], &mut self.wants[row]]
    }

    /// The hashes in the rooms.
    pub(super) fn lent_hashes(&mut self) -> LentHashes<'_> {
        LentHashes {
            words: self.hashes,
            trusted: self.trusted,
        }
    }
}

/// The hashes in lent words, and the row of trusted nodes.
pub(super) struct LentHashes<'r> {
    words: &'r mut [u32],
    trusted: &'r mut [u32],
}

impl Hashes for LentHashes<'_> {
    fn is_trusted(&self, node: u64) -> bool {
        bit(self.trusted, node as usize)
    }

    fn kept(&self, node: u64) -> Digest {
        hash_at(self.words, node)
    }

    fn trust(&mut self, node: u64, hash: &Digest) {
        let words = &mut self.words[8 * node as usize..][..8];
        for (word, bytes) in words.iter_mut().zip(hash.as_chunks().0) {
            *word = u32::from_be_bytes(*bytes);
        }
        set_bit(self.trusted, node as usize);
    }
}

/// The bytes of a node's hash.
pub(super) fn hash_at(words: &[u32], node: u64) -> Digest {
    let words = &words[8 * node as usize..][..8];
    let mut hash = [0; 32];
    for (bytes, word) in hash.as_chunks_mut().0.iter_mut().zip(words) {
        *bytes = word.to_be_bytes();
    }
    hash
}

/// Whether a bit of a row is set.
pub(super) fn bit(row: &[u32], number: usize) -> bool {
    row[number / BITS as usize] >> (number % BITS as usize) & 1 == 1
}

/// Sets one bit of a row.
pub(super) fn set_bit(row: &mut [u32], number: usize) {
    row[number / BITS as usize] |= 1 << (number % BITS as usize);
}

/// Sets the bits `first` to `last` of a row, both included.
#[inline(always)]
pub(super) fn set_range(row: &mut [u32], first: u32, last: u32) {
    change_range(row, first, last, |word, bits| word | bits);
}

/// Clears the bits `first` to `last` of a row, both included.
#[inline(always)]
pub(super) fn clear_range(row: &mut [u32], first: u32, last: u32) {
    change_range(row, first, last, |word, bits| word & !bits);
}

/// Changes the bits `first` to `last` of a row, `first` not above `last` and both
/// within the longest row: `change` makes a new word of a word and the bits of it
/// that are meant.
///
/// Between the words at both ends it goes over all words, with no bits where none
/// are meant: a loop over some of them would cost more where ranges cannot be
/// foreseen.
#[inline(always)]
fn change_range(row: &mut [u32], first: u32, last: u32, change: impl Fn(u32, u32) -> u32) {
    let (low, high) = ((first / BITS) as usize, (last / BITS) as usize);
    let front = u32::MAX << (first % BITS);
    let back = u32::MAX >> (BITS - 1 - last % BITS);
    if low == high {
        row[low] = change(row[low], front & back);
        return;
    }
    let ends = [change(row[low], front), change(row[high], back)];
    let (up_to_low, below_high) = (below(low + 1), below(high));
    for ((word, up_to_low), below_high) in row.iter_mut().zip(up_to_low).zip(below_high) {
        *word = change(*word, below_high & !up_to_low);
    }
    [row[low], row[high]] = ends;
}

/// All bits of the words below one, which is at most the one behind the longest
/// row, then none to the end of that row at least.
fn below(word: usize) -> &'static [u32] {
    &ONES_THEN_ZEROS[MOST_WORDS - word..]
}

/// The words of the longest row of one bit a chunk.
const MOST_WORDS: usize = (MOST_LENGTH / CHUNK_SIZE / BITS) as usize;

static ONES_THEN_ZEROS: [u32; 2 * MOST_WORDS] = {
    let mut words = [0; 2 * MOST_WORDS];
    let mut i = 0;
    while i < MOST_WORDS {
        words[i] = u32::MAX;
        i += 1;
    }
    words
};

/// How many of the first `count` bits of a row are set.
pub(super) fn count_first(row: &[u32], count: u32) -> u32 {
    let words = (count / BITS) as usize;
    let whole: u32 = row[..words].iter().map(|word| word.count_ones()).sum();
    match count % BITS {
        0 => whole,
        bits => whole + (row[words] & !(u32::MAX << bits)).count_ones(),
    }
}
