//! The proved SHA-256 against `second`, and its words and bytes against the
//! standard library's. No expected value comes from the proved code.

use harness::proved;
use harness::random::Random;
use harness::words::{digest, words};
use second::sha256::{node, sha256, Digest};

/// The longest message tried.
const LONGEST: usize = 2200;

/// The byte patterns: a name and the first `length` bytes of each.
fn patterns(length: usize) -> [(&'static str, Vec<u8>); 2] {
    let bytes = |byte: fn(usize) -> usize| (0..length).map(|i| byte(i) as u8).collect();
    [
        ("i % 256", bytes(|i| i % 256)),
        ("(i * 131 + 7) % 251", bytes(|i| (i * 131 + 7) % 251)),
    ]
}

#[test]
fn every_length_at_once() {
    for (pattern, bytes) in patterns(LONGEST) {
        for length in 0..=LONGEST {
            let message = &bytes[..length];
            assert_eq!(
                proved::sha256(message),
                sha256(message),
                "length {length}, pattern {pattern}"
            );
        }
    }
}

/// Every number of blocks one by one, each at its place in the message, and the
/// rest at the end: none, some and all of the message's whole blocks.
#[test]
fn every_length_block_by_block() {
    for (pattern, bytes) in patterns(LONGEST) {
        for length in 0..=LONGEST {
            let message = &bytes[..length];
            let wanted = sha256(message);
            let mut value = proved::initial();
            for done in 0..=length / 64 {
                if done > 0 {
                    proved::compress(&mut value, message, 64 * (done - 1));
                }
                let got = proved::finish(&value, &message[64 * done..], length as u64);
                assert_eq!(
                    digest(&got),
                    wanted,
                    "length {length}, pattern {pattern}, after {done} blocks"
                );
            }
        }
    }
}

#[test]
fn messages_at_every_alignment() {
    for (pattern, bytes) in patterns(LONGEST) {
        for start in 0..64 {
            for length in [0, 1, 55, 56, 63, 64, 65, 119, 120, 1024] {
                let message = &bytes[start..start + length];
                assert_eq!(
                    proved::sha256(message),
                    sha256(message),
                    "length {length}, pattern {pattern} from byte {start}"
                );
            }
        }
    }
}

/// Both orders of two sides.
fn check_parent(case: &str, left: &Digest, right: &Digest) {
    let (l, r) = (words(left), words(right));
    let (got, reversed) = (
        digest(&proved::parent(&l, &r)),
        digest(&proved::parent(&r, &l)),
    );
    assert_eq!(got, node(left, right), "{case}: {left:?}, {right:?}");
    assert_eq!(reversed, node(right, left), "{case}: {right:?}, {left:?}");
    assert_eq!(
        got == reversed,
        left == right,
        "{case}: the order of {left:?}, {right:?}"
    );
}

#[test]
fn parent_of_random_sides() {
    let mut random = Random::new(0);
    for case in 0..2000 {
        let (left, right) = (random.digest(), random.digest());
        check_parent(&format!("pair {case}"), &left, &right);
    }
}

#[test]
fn parent_of_special_sides() {
    let (zeros, ones) = ([0; 32], [0xff; 32]);
    check_parent("zeros", &zeros, &zeros);
    check_parent("ones", &ones, &ones);
    check_parent("zeros and ones", &zeros, &ones);
    let mut random = Random::new(0);
    for case in 0..200 {
        let side = random.digest();
        check_parent(&format!("equal sides {case}"), &side, &side);
        check_parent(&format!("side {case} and zeros"), &side, &zeros);
        check_parent(&format!("side {case} and ones"), &side, &ones);
    }
}

/// A hash value's bytes at every place of slices of several lengths.
#[test]
fn load_and_bytes() {
    let mut random = Random::new(0);
    for length in [32, 33, 63, 64, 65, 300] {
        for case in 0..20 {
            let slice = random.bytes(length);
            for at in 0..=length - 32 {
                let wanted: Digest = slice[at..at + 32].try_into().unwrap();
                let got = proved::load(&slice, at);
                let case = format!("length {length}, case {case}, place {at}: {wanted:?}");
                assert_eq!(got, words(&wanted), "load, {case}");
                assert_eq!(proved::bytes(&words(&wanted)), wanted, "bytes, {case}");
                assert_eq!(proved::bytes(&got), wanted, "both, {case}");
            }
        }
    }
}

#[test]
fn same_and_one_bit_apart() {
    let mut random = Random::new(0);
    let mut values = vec![[0; 8], [u32::MAX; 8]];
    values.extend((0..50).map(|_| words(&random.digest())));
    for value in values {
        let mut other = value;
        assert!(proved::same(&value, &other), "{value:08x?} and itself");
        for bit in 0..256 {
            other[bit / 32] ^= 1 << (bit % 32);
            assert!(!proved::same(&value, &other), "{value:08x?}, bit {bit}");
            assert!(!proved::same(&other, &value), "{value:08x?}, bit {bit}");
            other[bit / 32] ^= 1 << (bit % 32);
        }
        assert!(proved::same(&value, &other), "{value:08x?} and itself");
    }
}

// The wrappers refuse what the caller must not do.

#[test]
#[should_panic(expected = "compress: the block is not within b")]
fn a_block_past_the_end() {
    proved::compress(&mut [0; 8], &[0; 100], 37);
}

#[test]
#[should_panic(expected = "compress: the block is not within b")]
fn a_block_at_the_last_place() {
    proved::compress(&mut [0; 8], &[0; 100], usize::MAX);
}

#[test]
#[should_panic(expected = "load: the hash value is not within b")]
fn a_hash_value_past_the_end() {
    proved::load(&[0; 100], 69);
}

#[test]
#[should_panic(expected = "finish: no whole number of blocks before the tail")]
fn a_tail_after_part_of_a_block() {
    proved::finish(&[0; 8], &[0; 10], 75);
}

#[test]
#[should_panic(expected = "finish: no whole number of blocks before the tail")]
fn a_tail_longer_than_the_message() {
    proved::finish(&[0; 8], &[0; 65], 1);
}

#[test]
#[should_panic(expected = "finish: the message is too long")]
fn a_message_too_long() {
    proved::finish(&[0; 8], &[], 1 << 61);
}
