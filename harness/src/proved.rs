//! The proved SHA-256, through the C functions of `libhash_c.a`, in [`store`] the
//! proved chunk store, in [`tree`] the numbers of its tree, in [`held`] the search
//! for the interval that an ACK names, and in [`wire`] the proved layout checks of
//! datagrams. The rest is called through `ppspp::calls`.
//!
//! A proof holds only where the caller ensures what the function requires, and
//! nothing at this boundary proves that a caller does. So each wrapper tests it
//! and panics where it does not hold.

#![allow(unsafe_code)]

pub mod held;
pub mod store;
pub mod tree;
pub mod wire;

/// The eight words of a hash value.
pub type Words = [u32; 8];

/// FIPS 180-4 defines SHA-256 for messages of fewer than 2^64 bits, which is
/// fewer than this many bytes.
pub const LENGTH_LIMIT: u64 = 1 << 61;

unsafe extern "C" {
    fn hash_sha256(m: *const u8, n: usize, out: *mut u8);
    fn hash_initial(out: *mut u32);
    fn hash_compress(v: *mut u32, b: *const u8, n: usize, at: usize);
    fn hash_finish(v: *const u32, tail: *const u8, n: usize, length: u64, out: *mut u32);
    fn hash_parent(left: *const u32, right: *const u32, out: *mut u32);
    fn hash_load(b: *const u8, n: usize, at: usize, out: *mut u32);
    fn hash_bytes(v: *const u32, out: *mut u8);
    fn hash_same(a: *const u32, b: *const u32) -> bool;
}

/// The hash of a message.
///
/// The message must be shorter than [`LENGTH_LIMIT`].
pub fn sha256(message: &[u8]) -> [u8; 32] {
    assert!(
        (message.len() as u64) < LENGTH_LIMIT,
        "sha256: the message is too long"
    );
    let mut out = [0; 32];
    // SAFETY: the pointers stand for a slice of the length given and for 32
    // bytes that nothing else refers to.
    unsafe { hash_sha256(message.as_ptr(), message.len(), out.as_mut_ptr()) };
    out
}

/// The hash value before the first block.
pub fn initial() -> Words {
    let mut out = [0; 8];
    // SAFETY: the pointer stands for eight words that nothing else refers to.
    unsafe { hash_initial(out.as_mut_ptr()) };
    out
}

/// Takes the 64-byte block at `b[at..at + 64]` into the hash value.
///
/// The block must lie within `b`.
pub fn compress(v: &mut Words, b: &[u8], at: usize) {
    assert!(within(at, 64, b), "compress: the block is not within b");
    // SAFETY: the pointers stand for eight words that nothing else refers to
    // and for a slice of the length given, which holds the block.
    unsafe { hash_compress(v.as_mut_ptr(), b.as_ptr(), b.len(), at) };
}

/// The hash value of a message of `length` bytes: `v` is the hash value after
/// its first blocks and `tail` holds the rest, which may hold whole blocks.
///
/// What stands before the tail must be a whole number of blocks, and the
/// message must be shorter than [`LENGTH_LIMIT`].
pub fn finish(v: &Words, tail: &[u8], length: u64) -> Words {
    assert!(length < LENGTH_LIMIT, "finish: the message is too long");
    let before = length.checked_sub(tail.len() as u64);
    assert!(
        before.is_some_and(|before| before % 64 == 0),
        "finish: no whole number of blocks before the tail"
    );
    let mut out = [0; 8];
    // SAFETY: the pointers stand for eight words, for a slice of the length
    // given and for eight words that nothing else refers to.
    unsafe {
        hash_finish(
            v.as_ptr(),
            tail.as_ptr(),
            tail.len(),
            length,
            out.as_mut_ptr(),
        )
    };
    out
}

/// The hash of the 64 bytes of two hash values, `left` then `right`.
pub fn parent(left: &Words, right: &Words) -> Words {
    let mut out = [0; 8];
    // SAFETY: the pointers stand for eight words each, and nothing else refers
    // to the last eight.
    unsafe { hash_parent(left.as_ptr(), right.as_ptr(), out.as_mut_ptr()) };
    out
}

/// The hash value whose 32 bytes, each word big-endian, are `b[at..at + 32]`.
///
/// They must lie within `b`.
pub fn load(b: &[u8], at: usize) -> Words {
    assert!(within(at, 32, b), "load: the hash value is not within b");
    let mut out = [0; 8];
    // SAFETY: the pointers stand for a slice of the length given, which holds
    // the 32 bytes, and for eight words that nothing else refers to.
    unsafe { hash_load(b.as_ptr(), b.len(), at, out.as_mut_ptr()) };
    out
}

/// The 32 bytes of a hash value, each word big-endian.
pub fn bytes(v: &Words) -> [u8; 32] {
    let mut out = [0; 32];
    // SAFETY: the pointers stand for eight words and for 32 bytes that nothing
    // else refers to.
    unsafe { hash_bytes(v.as_ptr(), out.as_mut_ptr()) };
    out
}

/// Whether two hash values are the same.
pub fn same(a: &Words, b: &Words) -> bool {
    // SAFETY: the pointers stand for eight words each.
    unsafe { hash_same(a.as_ptr(), b.as_ptr()) }
}

/// Whether `size` bytes from `at` on lie within `b`.
fn within(at: usize, size: usize, b: &[u8]) -> bool {
    b.len().checked_sub(at).is_some_and(|rest| rest >= size)
}
