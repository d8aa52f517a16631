//! Pseudo-random numbers, the same in every run.

use crate::words::digest;
use second::sha256::Digest;

/// Marsaglia's xorshift, with a multiplication at the end (xorshift64*).
pub struct Random(u64);

impl Random {
    /// The numbers of a seed. Each seed has others.
    pub fn new(seed: u32) -> Self {
        Random((u64::from(seed) + 1).wrapping_mul(0x9e37_79b9_7f4a_7c15))
    }

    /// The next number.
    pub fn number(&mut self) -> u32 {
        self.0 ^= self.0 >> 12;
        self.0 ^= self.0 << 25;
        self.0 ^= self.0 >> 27;
        (self.0.wrapping_mul(0x2545_f491_4f6c_dd1d) >> 32) as u32
    }

    /// A number below this one, which is not 0.
    pub fn below(&mut self, limit: u32) -> u32 {
        ((u64::from(self.number()) * u64::from(limit)) >> 32) as u32
    }

    /// A place in a slice of this length, which is not 0.
    pub fn place(&mut self, length: usize) -> usize {
        self.below(length as u32) as usize
    }

    /// True once in so many times.
    pub fn one_in(&mut self, times: u32) -> bool {
        self.below(times) == 0
    }

    /// One of these.
    pub fn one_of<T: Copy>(&mut self, of: &[T]) -> T {
        of[self.place(of.len())]
    }

    /// Puts these in another order.
    pub fn shuffle<T>(&mut self, of: &mut [T]) {
        for i in (1..of.len()).rev() {
            of.swap(i, self.place(i + 1));
        }
    }

    pub fn digest(&mut self) -> Digest {
        digest(&std::array::from_fn(|_| self.number()))
    }

    pub fn words(&mut self, length: usize) -> Vec<u32> {
        (0..length).map(|_| self.number()).collect()
    }

    pub fn long_words(&mut self, length: usize) -> Vec<u64> {
        let word = |_| u64::from(self.number()) << 32 | u64::from(self.number());
        (0..length).map(word).collect()
    }

    pub fn bytes(&mut self, length: usize) -> Vec<u8> {
        (0..length).map(|_| (self.number() >> 24) as u8).collect()
    }
}
