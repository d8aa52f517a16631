//! Rows of bits in words, low bit first, as the store's rooms have them.

/// A bit of a row.
pub fn get(words: &[u32], at: u32) -> bool {
    words[at as usize / 32] >> (at % 32) & 1 == 1
}

/// Sets a bit of a row.
pub fn set(words: &mut [u32], at: u32) {
    words[at as usize / 32] |= 1 << (at % 32);
}

/// How many bits of a row are set.
pub fn count(words: &[u32]) -> u32 {
    words.iter().map(|word| word.count_ones()).sum()
}

/// The bits that one row has and another has not.
pub fn without(some: &[u32], others: &[u32]) -> Vec<u32> {
    some.iter().zip(others).map(|(a, b)| a & !b).collect()
}

/// The bits that two rows have.
pub fn both(some: &[u32], others: &[u32]) -> Vec<u32> {
    some.iter().zip(others).map(|(a, b)| a & b).collect()
}

/// The set bits, rising.
pub fn ones(words: &[u32]) -> impl Iterator<Item = u32> + '_ {
    words.iter().zip(0u32..).flat_map(|(&word, place)| {
        let mut rest = word;
        std::iter::from_fn(move || {
            if rest == 0 {
                return None;
            }
            let bit = rest.trailing_zeros();
            rest &= rest - 1;
            Some(32 * place + bit)
        })
    })
}

/// The runs of set bits, first and last, rising.
pub fn runs(words: &[u32]) -> Vec<(u32, u32)> {
    let mut runs: Vec<(u32, u32)> = Vec::new();
    for bit in ones(words) {
        match runs.last_mut() {
            Some((_, last)) if *last + 1 == bit => *last = bit,
            _ => runs.push((bit, bit)),
        }
    }
    runs
}
