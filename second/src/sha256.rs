//! SHA-256, as in FIPS 180-4.
//!
//! The schedule and the rounds are written for speed in plain scalar code:
//! sixteen rounds stand written out, with the working variables renamed
//! instead of moved, and the schedule keeps only the sixteen words that are
//! still needed. All additions of words are modulo 2^32 (2.2.2).
//!
//! The standard defines the digest of a message of fewer than 2^64 bits; a
//! message here has fewer than 2^61 bytes.

#[cfg(test)]
mod plain;
#[cfg(test)]
mod tests;

/// A message digest: the eight words of the final hash value, in order.
pub type Digest = [u8; 32];

/// The digest of a message.
pub fn sha256(message: &[u8]) -> Digest {
    let mut state = INITIAL;
    let (blocks, tail) = message.as_chunks();
    compress(&mut state, blocks);
    finish(state, tail, message.len() as u64)
}

/// The digest of the 64-byte message `left` then `right`.
pub fn node(left: &Digest, right: &Digest) -> Digest {
    let mut message = [0; 64];
    message[..32].copy_from_slice(left);
    message[32..].copy_from_slice(right);
    sha256(&message)
}

/// The hash of a message that arrives in pieces.
#[derive(Clone)]
pub struct Sha256 {
    /// The hash value after the blocks seen so far.
    state: [u32; 8],
    /// The bytes of the message seen so far.
    length: u64,
    /// The start of the next block: its first `length % 64` bytes are set.
    partial: Block,
}

impl Sha256 {
    /// The hash of a message of which nothing has arrived.
    pub fn new() -> Self {
        Sha256 {
            state: INITIAL,
            length: 0,
            partial: [0; 64],
        }
    }

    /// Takes the next piece of the message.
    pub fn update(&mut self, piece: &[u8]) {
        let filled = self.filled();
        self.length += piece.len() as u64;
        let mut rest = piece;
        if filled > 0 {
            let room = &mut self.partial[filled..];
            let (head, after) = piece.split_at(room.len().min(piece.len()));
            room[..head.len()].copy_from_slice(head);
            if head.len() < room.len() {
                return;
            }
            compress(&mut self.state, &[self.partial]);
            rest = after;
        }
        let (blocks, tail) = rest.as_chunks();
        compress(&mut self.state, blocks);
        self.partial[..tail.len()].copy_from_slice(tail);
    }

    /// The digest of the whole message.
    pub fn finish(self) -> Digest {
        finish(self.state, &self.partial[..self.filled()], self.length)
    }

    /// How many bytes of `partial` are set.
    fn filled(&self) -> usize {
        (self.length % 64) as usize
    }
}

impl Default for Sha256 {
    fn default() -> Self {
        Self::new()
    }
}

/// A message block of 512 bits.
type Block = [u8; 64];

/// 5.1.1 and the end of 6.2.2: pads the message, whose bytes after its last
/// whole block are `tail`, and gives the final hash value.
///
/// A bit 1 follows the message, then as few bits 0 as make the block end with
/// the 64-bit length of the message in bits; that takes one block or two.
fn finish(mut state: [u32; 8], tail: &[u8], length: u64) -> Digest {
    match length {
        NODE => compress_known(&mut state, &BEHIND_NODE),
        CHUNK => compress_known(&mut state, &BEHIND_CHUNK),
        _ => {
            let mut block = [0; 64];
            block[..tail.len()].copy_from_slice(tail);
            block[tail.len()] = 0x80;
            if tail.len() >= 56 {
                compress(&mut state, &[block]);
                block = [0; 64];
            }
            block[56..].copy_from_slice(&(length * 8).to_be_bytes());
            compress(&mut state, &[block]);
        }
    }
    let mut digest = [0; 32];
    for (bytes, word) in digest.as_chunks_mut().0.iter_mut().zip(state) {
        *bytes = word.to_be_bytes();
    }
    digest
}

/// 6.2.2, step 3: one round, for K_t + W_t. The next `e` is made in `d`, and the
/// next `a` in `h`; the other six keep their values and only change their names,
/// which is the caller's part. T_1 is `rest` + Sigma_1(e): the sigmas are ready
/// last, so they are added last.
macro_rules! round {
    ($k_and_w:expr, $a:ident $b:ident $c:ident $d:ident $e:ident $f:ident $g:ident $h:ident) => {
        let rest = $h.wrapping_add($k_and_w).wrapping_add(ch($e, $f, $g));
        let sigma_1 = big_sigma_1($e);
        $d = $d.wrapping_add(rest).wrapping_add(sigma_1);
        $h = rest
            .wrapping_add(maj($a, $b, $c))
            .wrapping_add(sigma_1)
            .wrapping_add(big_sigma_0($a));
    };
}

/// Sixteen rounds, each by a macro that is given its place among them.
macro_rules! sixteen {
    ($round:ident, $a:ident $b:ident $c:ident $d:ident $e:ident $f:ident $g:ident $h:ident) => {
        $round!(0, $a $b $c $d $e $f $g $h);
        $round!(1, $h $a $b $c $d $e $f $g);
        $round!(2, $g $h $a $b $c $d $e $f);
        $round!(3, $f $g $h $a $b $c $d $e);
        $round!(4, $e $f $g $h $a $b $c $d);
        $round!(5, $d $e $f $g $h $a $b $c);
        $round!(6, $c $d $e $f $g $h $a $b);
        $round!(7, $b $c $d $e $f $g $h $a);
        $round!(8, $a $b $c $d $e $f $g $h);
        $round!(9, $h $a $b $c $d $e $f $g);
        $round!(10, $g $h $a $b $c $d $e $f);
        $round!(11, $f $g $h $a $b $c $d $e);
        $round!(12, $e $f $g $h $a $b $c $d);
        $round!(13, $d $e $f $g $h $a $b $c);
        $round!(14, $c $d $e $f $g $h $a $b);
        $round!(15, $b $c $d $e $f $g $h $a);
    };
}

/// 6.2.2: takes the blocks, in order, into the hash value.
fn compress(state: &mut [u32; 8], blocks: &[Block]) {
    for block in blocks {
        // Step 1: the words of the block, big-endian. `w[t % 16]` is W_t.
        let mut w = words(block);

        // Step 2: the working variables.
        let [mut a, mut b, mut c, mut d, mut e, mut f, mut g, mut h] = *state;

        // Rounds 0 to 47 make the words of rounds 16 to 63: a round, then step 1
        // for the word sixteen places on, which takes the place of the word that
        // the round used.
        let [first @ .., last] = &K;
        for k in first {
            macro_rules! round_and_extend {
                ($t:literal, $($name:ident)*) => {
                    round!(k[$t].wrapping_add(w[$t]), $($name)*);
                    w[$t] = extended(&w, $t);
                };
            }
            sixteen!(round_and_extend, a b c d e f g h);
        }
        macro_rules! last_round {
            ($t:literal, $($name:ident)*) => {
                round!(last[$t].wrapping_add(w[$t]), $($name)*);
            };
        }
        sixteen!(last_round, a b c d e f g h);
        add(state, [a, b, c, d, e, f, g, h]);
    }
}

/// The same for one block, by its schedule.
fn compress_known(state: &mut [u32; 8], schedule: &Schedule) {
    let [mut a, mut b, mut c, mut d, mut e, mut f, mut g, mut h] = *state;
    for k_and_w in schedule {
        macro_rules! known_round {
            ($t:literal, $($name:ident)*) => {
                round!(k_and_w[$t], $($name)*);
            };
        }
        sixteen!(known_round, a b c d e f g h);
    }
    add(state, [a, b, c, d, e, f, g, h]);
}

/// Step 4: the next hash value.
#[inline(always)]
fn add(state: &mut [u32; 8], variables: [u32; 8]) {
    for (word, variable) in state.iter_mut().zip(variables) {
        *word = word.wrapping_add(variable);
    }
}

/// The words of a block, big-endian.
#[inline(always)]
fn words(block: &Block) -> [u32; 16] {
    let mut words = [0; 16];
    for (word, bytes) in words.iter_mut().zip(block.as_chunks().0) {
        *word = u32::from_be_bytes(*bytes);
    }
    words
}

/// Step 1 for t from 16 on: W_t, of the sixteen words before it, each W_s at place
/// `s % 16`; `place` is `t % 16`.
#[inline(always)]
const fn extended(w: &[u32; 16], place: usize) -> u32 {
    small_sigma_1(w[(place + 14) % 16])
        .wrapping_add(w[(place + 9) % 16])
        .wrapping_add(small_sigma_0(w[(place + 1) % 16]))
        .wrapping_add(w[place])
}

/// K_t + W_t of all rounds of a block.
type Schedule = [[u32; 16]; 4];

/// The lengths of most messages in bytes, two hashes and a chunk, and the schedules
/// of the blocks that pad them.
const NODE: u64 = 64;
const CHUNK: u64 = 1024;
static BEHIND_NODE: Schedule = behind(NODE);
static BEHIND_CHUNK: Schedule = behind(CHUNK);

/// The schedule of the block that pads a message of this length, a whole number of
/// blocks.
const fn behind(length: u64) -> Schedule {
    let mut w = [0; 16];
    w[0] = 0x8000_0000;
    w[14] = ((length * 8) >> 32) as u32;
    w[15] = (length * 8) as u32;
    let mut schedule = K;
    let mut t = 0;
    while t < 64 {
        if t >= 16 {
            w[t % 16] = extended(&w, t % 16);
        }
        schedule[t / 16][t % 16] = K[t / 16][t % 16].wrapping_add(w[t % 16]);
        t += 1;
    }
    schedule
}

// 4.1.2: the functions.
//
// Each comment has the standard's form; the code gives the same bits with fewer
// instructions. The sigmas share rotations: ROTR^m(ROTR^n(x)) = ROTR^(m+n)(x)
// and ROTR distributes over XOR, so ROTR^2(x) XOR ROTR^13(x) XOR ROTR^22(x),
// say, is ROTR^2(x XOR ROTR^11(x XOR ROTR^9(x))).

/// (x AND y) XOR (NOT x AND z): y where x is 1, z where it is 0.
#[inline(always)]
fn ch(x: u32, y: u32, z: u32) -> u32 {
    ((y ^ z) & x) ^ z
}

/// (x AND y) XOR (x AND z) XOR (y AND z): the bit that at least two of
/// the three have.
///
/// The x XOR y of one round is the y XOR z of the next.
#[inline(always)]
fn maj(x: u32, y: u32, z: u32) -> u32 {
    ((x ^ y) & (y ^ z)) ^ y
}

/// ROTR^2(x) XOR ROTR^13(x) XOR ROTR^22(x).
#[inline(always)]
fn big_sigma_0(x: u32) -> u32 {
    (x ^ (x ^ x.rotate_right(9)).rotate_right(11)).rotate_right(2)
}

/// ROTR^6(x) XOR ROTR^11(x) XOR ROTR^25(x).
#[inline(always)]
fn big_sigma_1(x: u32) -> u32 {
    (x ^ x.rotate_right(14)).rotate_right(11) ^ x.rotate_right(6)
}

/// ROTR^7(x) XOR ROTR^18(x) XOR SHR^3(x).
#[inline(always)]
const fn small_sigma_0(x: u32) -> u32 {
    (x ^ x.rotate_right(11)).rotate_right(7) ^ (x >> 3)
}

/// ROTR^17(x) XOR ROTR^19(x) XOR SHR^10(x).
#[inline(always)]
const fn small_sigma_1(x: u32) -> u32 {
    (x ^ x.rotate_right(2)).rotate_right(17) ^ (x >> 10)
}

/// 5.3.3: the initial hash value, the first 32 bits of the fractional parts of
/// the square roots of the first eight primes.
const INITIAL: [u32; 8] = [
    0x6a09e667, 0xbb67ae85, 0x3c6ef372, 0xa54ff53a, 0x510e527f, 0x9b05688c, 0x1f83d9ab, 0x5be0cd19,
];

/// 4.2.2: the constants, the first 32 bits of the fractional parts of the cube
/// roots of the first 64 primes; K_t is `K[t / 16][t % 16]`.
const K: [[u32; 16]; 4] = [
    [
        0x428a2f98, 0x71374491, 0xb5c0fbcf, 0xe9b5dba5, 0x3956c25b, 0x59f111f1, 0x923f82a4,
        0xab1c5ed5, 0xd807aa98, 0x12835b01, 0x243185be, 0x550c7dc3, 0x72be5d74, 0x80deb1fe,
        0x9bdc06a7, 0xc19bf174,
    ],
    [
        0xe49b69c1, 0xefbe4786, 0x0fc19dc6, 0x240ca1cc, 0x2de92c6f, 0x4a7484aa, 0x5cb0a9dc,
        0x76f988da, 0x983e5152, 0xa831c66d, 0xb00327c8, 0xbf597fc7, 0xc6e00bf3, 0xd5a79147,
        0x06ca6351, 0x14292967,
    ],
    [
        0x27b70a85, 0x2e1b2138, 0x4d2c6dfc, 0x53380d13, 0x650a7354, 0x766a0abb, 0x81c2c92e,
        0x92722c85, 0xa2bfe8a1, 0xa81a664b, 0xc24b8b70, 0xc76c51a3, 0xd192e819, 0xd6990624,
        0xf40e3585, 0x106aa070,
    ],
    [
        0x19a4c116, 0x1e376c08, 0x2748774c, 0x34b0bcb5, 0x391c0cb3, 0x4ed8aa4a, 0x5b9cca4f,
        0x682e6ff3, 0x748f82ee, 0x78a5636f, 0x84c87814, 0x8cc70208, 0x90befffa, 0xa4506ceb,
        0xbef9a3f7, 0xc67178f2,
    ],
];
