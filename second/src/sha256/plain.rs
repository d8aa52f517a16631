//! A slow reading of FIPS 180-4 for the tests: the message is a list of bits,
//! the constants are worked out from their definition, and the functions stand
//! as the standard writes them.

/// 6.2: the digest of a message.
pub fn sha256(message: &[u8]) -> Vec<u8> {
    let mut hash: Vec<u32> = initial();
    let k = constants();
    for block in padded(message).chunks(512) {
        // 6.2.2, step 1.
        let mut w: Vec<u32> = block.chunks(32).map(word).collect();
        for t in 16..64 {
            w.push(sum(&[
                small_sigma_1(w[t - 2]),
                w[t - 7],
                small_sigma_0(w[t - 15]),
                w[t - 16],
            ]));
        }
        // Step 2: a to h are v[0] to v[7].
        let mut v = hash.clone();
        // Step 3.
        for t in 0..64 {
            let t1 = sum(&[v[7], big_sigma_1(v[4]), ch(v[4], v[5], v[6]), k[t], w[t]]);
            let t2 = sum(&[big_sigma_0(v[0]), maj(v[0], v[1], v[2])]);
            v.insert(0, sum(&[t1, t2]));
            v.truncate(8);
            v[4] = sum(&[v[4], t1]);
        }
        // Step 4.
        hash = v.iter().zip(&hash).map(|(&x, &y)| sum(&[x, y])).collect();
    }
    hash.iter().flat_map(|x| x.to_be_bytes()).collect()
}

/// 5.1.1: the message, a bit 1, the least k bits 0 with l + 1 + k = 448 modulo
/// 512, and l in 64 bits.
fn padded(message: &[u8]) -> Vec<bool> {
    let mut bits = Vec::new();
    for &byte in message {
        push(&mut bits, u64::from(byte), 8);
    }
    let l = bits.len() as u64;
    bits.push(true);
    while bits.len() % 512 != 448 {
        bits.push(false);
    }
    push(&mut bits, l, 64);
    bits
}

/// Appends the `width` low bits of a number, the most significant first.
fn push(bits: &mut Vec<bool>, number: u64, width: u32) {
    for place in (0..width).rev() {
        bits.push((number >> place) & 1 == 1);
    }
}

/// 3.1: the word of 32 bits, the most significant first.
fn word(bits: &[bool]) -> u32 {
    bits.iter().fold(0, |x, &bit| 2 * x + u32::from(bit))
}

/// 2.2.2: addition modulo 2^32.
fn sum(terms: &[u32]) -> u32 {
    let total: u64 = terms.iter().map(|&x| u64::from(x)).sum();
    (total % (1 << 32)) as u32
}

/// 3.2, item 4.
#[allow(clippy::manual_rotate)]
fn rotr(n: u32, x: u32) -> u32 {
    (x >> n) | (x << (32 - n))
}

/// 3.2, item 3.
fn shr(n: u32, x: u32) -> u32 {
    x >> n
}

/// 4.1.2, (4.2).
pub fn ch(x: u32, y: u32, z: u32) -> u32 {
    (x & y) ^ (!x & z)
}

/// 4.1.2, (4.3).
pub fn maj(x: u32, y: u32, z: u32) -> u32 {
    (x & y) ^ (x & z) ^ (y & z)
}

/// 4.1.2, (4.4).
pub fn big_sigma_0(x: u32) -> u32 {
    rotr(2, x) ^ rotr(13, x) ^ rotr(22, x)
}

/// 4.1.2, (4.5).
pub fn big_sigma_1(x: u32) -> u32 {
    rotr(6, x) ^ rotr(11, x) ^ rotr(25, x)
}

/// 4.1.2, (4.6).
pub fn small_sigma_0(x: u32) -> u32 {
    rotr(7, x) ^ rotr(18, x) ^ shr(3, x)
}

/// 4.1.2, (4.7).
pub fn small_sigma_1(x: u32) -> u32 {
    rotr(17, x) ^ rotr(19, x) ^ shr(10, x)
}

/// 5.3.3: from the square roots of the first eight primes.
pub fn initial() -> Vec<u32> {
    primes().take(8).map(|p| fraction_of_root(p, 2)).collect()
}

/// 4.2.2: from the cube roots of the first 64 primes.
pub fn constants() -> Vec<u32> {
    primes().take(64).map(|p| fraction_of_root(p, 3)).collect()
}

fn primes() -> impl Iterator<Item = u128> {
    (2..).filter(|n| (2..*n).all(|m| n % m != 0))
}

/// The first 32 bits of the fractional part of a root of `p`: the low 32 bits
/// of the greatest r with r^degree <= p * 2^(32 * degree).
fn fraction_of_root(p: u128, degree: u32) -> u32 {
    let bound = p << (32 * degree);
    let mut r: u128 = 0;
    for place in (0..40).rev() {
        let larger = r | 1 << place;
        if larger.pow(degree) <= bound {
            r = larger;
        }
    }
    (r % (1 << 32)) as u32
}
