//! The biggest complete interval of held chunks that covers a chunk (RFC 7574,
//! 4.3.2; 02, No. 2), found in the words of a chunk map: a bit for each chunk,
//! low bit first.
//!
//! Throughout, the chunk is one of `count` and held, and the map has a bit for
//! each of them. Bits past these do not count, whatever they are.

#[cfg(test)]
mod tests;

use crate::wire::Addressing;

/// The bits of a word.
const BITS: u32 = u32::BITS;
/// A word of ones.
const ONES: u32 = u32::MAX;
/// The words that are looked at together where many are ones.
const BLOCK: usize = 8;

/// The first and the last chunk of the biggest interval that an addressing method
/// can name.
pub fn biggest_interval(addressing: Addressing, map: &[u32], count: u32, chunk: u32) -> (u32, u32) {
    match addressing {
        Addressing::Bins => largest_subtree(map, count, chunk),
        Addressing::Ranges => longest_run(map, count, chunk),
    }
}

/// The first and the last chunk of "the longest run of held chunks around it".
pub fn longest_run(map: &[u32], count: u32, chunk: u32) -> (u32, u32) {
    (first_of_run(map, chunk), last_of_run(map, count, chunk))
}

fn first_of_run(map: &[u32], chunk: u32) -> u32 {
    let (word, bit) = place(chunk);
    let ones = ones_down(map[word], bit);
    if ones <= bit {
        return chunk + 1 - ones;
    }
    let below = &map[..word];
    match last_with_zero(below) {
        Some(word) => BITS * (word as u32 + 1) - below[word].leading_ones(),
        None => 0,
    }
}

fn last_of_run(map: &[u32], count: u32, chunk: u32) -> u32 {
    let (word, bit) = place(chunk);
    let ones = ones_up(map[word], bit);
    if bit + ones < BITS {
        return (chunk + ones).min(count) - 1;
    }
    let next = word + 1;
    let above = &map[next..count.div_ceil(BITS) as usize];
    match first_with_zero(above) {
        Some(word) => {
            let behind = BITS * (next + word) as u32 + above[word].trailing_ones();
            behind.min(count) - 1
        }
        None => count - 1,
    }
}

/// The first and the last chunk of "the largest whole subtree inside the pack all
/// of whose chunks are held".
pub fn largest_subtree(map: &[u32], count: u32, chunk: u32) -> (u32, u32) {
    let height = height_in_word(map, count, chunk);
    if height < BITS.ilog2() {
        let low = (1 << height) - 1;
        return (chunk & !low, chunk | low);
    }
    // The chunk's word is ones, and one of those that lie wholly inside the pack.
    let inside = &map[..(count / BITS) as usize];
    let mut first = (chunk / BITS) as usize;
    let mut width = 1;
    // On to the parent as long as the sibling is ones and lies inside too.
    while let Some(sibling) = inside.get(first ^ width..(first ^ width) + width) {
        if first_with_zero(sibling).is_some() {
            break;
        }
        first &= !width;
        width *= 2;
    }
    let [first, end] = [first, first + width].map(|word| BITS * word as u32);
    (first, end - 1)
}

/// The height of the largest such subtree that lies in one word.
fn height_in_word(map: &[u32], count: u32, chunk: u32) -> u32 {
    let (word, bit) = place(chunk);
    // The places next to the chunk's run on both sides; the run ends with the
    // word or the pack at the latest. A subtree over the chunk keeps clear of a
    // place up to the height of the highest bit in which the two differ.
    let before = bit.wrapping_sub(ones_down(map[word], bit));
    let behind = bit + ones_up(map[word], bit).min(count - chunk);
    let heights = [before, behind].map(|place| (bit ^ place).ilog2());
    heights[0].min(heights[1]).min(BITS.ilog2())
}

/// The word of a chunk's bit, and the place of the bit in it.
fn place(chunk: u32) -> (usize, u32) {
    ((chunk / BITS) as usize, chunk % BITS)
}

/// How many bits of a word are ones from a place down.
fn ones_down(word: u32, bit: u32) -> u32 {
    (word << (BITS - 1 - bit)).leading_ones()
}

/// How many bits of a word are ones from a place up.
fn ones_up(word: u32, bit: u32) -> u32 {
    (word >> bit).trailing_ones()
}

/// The first word that has a zero.
fn first_with_zero(words: &[u32]) -> Option<usize> {
    let (blocks, _) = words.as_chunks();
    let passed = BLOCK * blocks.iter().take_while(are_ones).count();
    let rest = words[passed..].iter().position(|&word| word != ONES);
    rest.map(|place| passed + place)
}

/// The last word that has a zero.
fn last_with_zero(words: &[u32]) -> Option<usize> {
    let (_, blocks) = words.as_rchunks();
    let passed = BLOCK * blocks.iter().rev().take_while(are_ones).count();
    let rest = &words[..words.len() - passed];
    rest.iter().rposition(|&word| word != ONES)
}

/// Whether all words of a block are ones, without a way out between them.
fn are_ones(block: &&[u32; BLOCK]) -> bool {
    block.iter().fold(ONES, |all, word| all & word) == ONES
}
