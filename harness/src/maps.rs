//! Random maps of held chunks, for packs of up to 65,536 of them.

use crate::channels::is_set;
use crate::random::Random;

/// The most chunks.
const MOST: u32 = 65_536;

/// Bits that are set and clear in turn.
const ALTERNATING: [u32; 2] = [0x5555_5555, 0xaaaa_aaaa];

/// A number of chunks: of few words, around the borders of words, around the
/// powers of two, or any.
pub fn random_count(random: &mut Random) -> u32 {
    match random.below(4) {
        0 => 1 + random.below(70),
        1 => near_a_word(random, 100),
        2 => {
            let power = 1 << random.below(17);
            around(random, power)
        }
        _ => 1 + random.below(MOST),
    }
}

/// A map for so many chunks, dense or sparse, in some cases of more words than
/// they need. What stands past the last chunk is anything, or all the same.
pub fn random_map(random: &mut Random, count: u32) -> Vec<u32> {
    let words = count.div_ceil(32) as usize + random.one_of(&[0, 0, 1, 2, 9]);
    let mut map = match random.below(6) {
        0 => random.words(words),
        1 => sparse(random, words),
        2 => vec![random.one_of(&ALTERNATING); words],
        3 => runs(random, words),
        _ => vec![u32::MAX; words],
    };
    for _ in 0..random.one_of(&[0, 0, 1, 2, 5]) {
        let bit = any_chunk(random, count);
        map[bit as usize / 32] ^= 1 << (bit % 32);
    }
    match random.below(3) {
        0 => set_from(&mut map, count, false),
        1 => set_from(&mut map, count, true),
        _ => {}
    }
    map
}

/// A chunk that is held, if one is.
pub fn held_chunk(random: &mut Random, map: &[u32], count: u32) -> Option<u32> {
    let from = any_chunk(random, count);
    let mut chunks = (from..count).chain(0..from);
    chunks.find(|&chunk| is_set(map, chunk as usize))
}

/// Any chunk: one at the border of a word, the last, or another.
fn any_chunk(random: &mut Random, count: u32) -> u32 {
    match random.below(4) {
        0 => count - 1,
        1 => near_a_word(random, count.div_ceil(32)).min(count) - 1,
        _ => random.below(count),
    }
}

/// So many times 32 or less, or one more or less than that.
pub fn near_a_word(random: &mut Random, words: u32) -> u32 {
    let words = 1 + random.below(words);
    around(random, 32 * words)
}

/// This number, or one more or less, from 1 to the most chunks.
fn around(random: &mut Random, number: u32) -> u32 {
    (number - 1 + random.below(3)).clamp(1, MOST)
}

/// Words with few bits set.
fn sparse(random: &mut Random, words: usize) -> Vec<u32> {
    let mut word = || random.number() & random.number() & random.number();
    (0..words).map(|_| word()).collect()
}

/// Long and short runs of bits that are set and clear in turn.
fn runs(random: &mut Random, words: usize) -> Vec<u32> {
    let mut map = vec![0; words];
    let (mut at, mut value) = (0, random.one_in(2));
    while at < 32 * words as u32 {
        set_from(&mut map, at, value);
        value = !value;
        at += match random.below(4) {
            0 => 1 + random.below(4),
            1 => near_a_word(random, 20),
            2 => 1 + random.below(200),
            _ => 1 + random.below(5_000),
        };
    }
    map
}

/// Sets or clears all bits from one on.
fn set_from(map: &mut [u32], bit: u32, value: bool) {
    let (word, rest) = ((bit / 32) as usize, u32::MAX << (bit % 32));
    let Some([first, behind @ ..]) = map.get_mut(word..) else {
        return;
    };
    *first = if value { *first | rest } else { *first & !rest };
    behind.fill(if value { u32::MAX } else { 0 });
}
