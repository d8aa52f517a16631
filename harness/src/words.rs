//! Hash values as bytes and as words, by the standard library alone.

use crate::proved::Words;
use second::sha256::Digest;

/// The words of a digest.
pub fn words(digest: &Digest) -> Words {
    std::array::from_fn(|i| u32::from_be_bytes(std::array::from_fn(|k| digest[4 * i + k])))
}

/// The digest of words.
pub fn digest(words: &Words) -> Digest {
    std::array::from_fn(|i| words[i / 4].to_be_bytes()[i % 4])
}
